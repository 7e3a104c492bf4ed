/* Prints how many nanoseconds a call of gofnjerta_next_event takes where nothing is there, the border and the host's own look together:
 * 10,000,000 calls over a host of one slot. */
#include <gofnjerta.h>
#include <stdio.h>
#include <time.h>

enum { CALLS = 10000000 };

int main(void) {
    gofnjerta_host host = {0};
    gofnjerta_config config = gofnjerta_standard(1, 1);
    gofnjerta_event event;
    struct timespec begun, ended;
    if (gofnjerta_open(&host, &config)) return 1;
    clock_gettime(CLOCK_PROCESS_CPUTIME_ID, &begun);
    for (int i = 0; i < CALLS; i++)
        if (gofnjerta_next_event(&host, &event) || event.kind) return 1;
    clock_gettime(CLOCK_PROCESS_CPUTIME_ID, &ended);
    gofnjerta_close(&host);
    double spent = (double)(ended.tv_sec - begun.tv_sec) * 1e9 + (double)(ended.tv_nsec - begun.tv_nsec);
    printf("an idle next_event through C: %.1f ns\n", spent / CALLS);
    return 0;
}
