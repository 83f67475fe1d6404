/* heap: a program with functions of its own in place of those by which libpuffgrit.a allocates. It has all three: the library has them in
   one object, which is left out then; with ONE_ALONE it has one, which doesn't link. Prints how often they were called. */
#include <stdio.h>
#include <stdlib.h>

#include "puffgrit.h"

/* What is allocated: whether it is, 1 or 0, and where. */
typedef struct {
    size_t is_made;
    void *place;
} made;

made rattle_alloc(size_t size, size_t align);
made rattle_realloc(void *old, size_t old_size, size_t size, size_t align);
void rattle_dealloc(void *old);

static unsigned calls;

made rattle_alloc(size_t size, size_t align) {
    made it;
    (void)align; /* at most that of malloc */
    calls++;
    it.place = malloc(size ? size : 1);
    it.is_made = it.place != 0;
    return it;
}

#ifndef ONE_ALONE
made rattle_realloc(void *old, size_t old_size, size_t size, size_t align) {
    made it;
    (void)old_size;
    (void)align;
    calls++;
    it.place = realloc(old, size ? size : 1);
    it.is_made = it.place != 0;
    return it;
}

void rattle_dealloc(void *old) {
    calls++;
    free(old);
}
#endif

int main(void) {
    uint8_t out[2];
    size_t read, len;
    uint32_t status = puffgrit_rewrite(PUFFGRIT_KIND_CBOR, (const uint8_t *)"\x9f\x18\x01\xff", 4, &read, out, sizeof out, &len);
    printf("%u\n", calls);
    return status == PUFFGRIT_OK ? 0 : 1;
}
