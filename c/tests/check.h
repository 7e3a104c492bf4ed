/* What the tests share: CHECK tells what doesn't hold, and counts. */
#ifndef CHECK_H
#define CHECK_H
#include <stdio.h>

static long passed, failed;

#define CHECK(condition) ((condition) ? (void)passed++ : (void)(failed++, printf("%s:%d: not so: %s\n", __FILE__, __LINE__, #condition)))

/* Calls, and tells the name of what it answered where that is another number. */
#define ANSWERS(number, call) answers(__FILE__, __LINE__, #call, (number), (call))

static inline void answers(const char *file, int line, const char *call, unsigned wanted, unsigned got) {
    if (wanted == got) passed++;
    else {
        failed++;
        printf("%s:%d: %s answers %u (%s) and not %u (%s)\n", file, line, call, got, gofnjerta_error_name(got), wanted, gofnjerta_error_name(wanted));
    }
}

static inline int ended(const char *name) {
    printf("%s: %ld checks held, %ld did not\n", name, passed, failed);
    return passed > 0 && failed == 0 ? 0 : 1;
}
#endif
