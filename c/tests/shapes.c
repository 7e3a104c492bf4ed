/* Prints where the compiler has the fields of gofnjerta.h's structures, as lines 'structure bytes alignment' and 'structure field offset bytes':
 * scripts/check/check-c.sh compares them with those that a binding reads in gofnjerta_layout.h. */
#include <gofnjerta_layout.h>
#include <stdio.h>

#define GOFNJERTA_STRUCT(structure, bytes, alignment) printf("%s %zu %zu\n", #structure, sizeof(structure), _Alignof(structure))
#define GOFNJERTA_FIELD(structure, field, offset, bytes) \
    printf("%s %s %zu %zu\n", #structure, #field, offsetof(structure, field), sizeof(((structure *)0)->field))

int main(void) {
#include <gofnjerta_layout.h>
    return 0;
}
