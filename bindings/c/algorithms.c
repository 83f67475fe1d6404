/* algorithms: reads authenticatorGetInfo's response in hexadecimal from standard input, and prints the algorithms that it names. */
#include <inttypes.h>
#include <stdio.h>

#include "puffgrit.h"

/* The integer that the item is. */
static int64_t integer(const puffgrit_item *item) {
    return item->kind == PUFFGRIT_NEGATIVE ? -1 - (int64_t)item->number : (int64_t)item->number;
}

int main(void) {
    static uint8_t bytes[65536];
    size_t len = 0, at;
    unsigned int byte;
    puffgrit_item list, entry, algorithm;

    while (len < sizeof bytes && scanf("%2x", &byte) == 1) bytes[len++] = (uint8_t)byte;
    if (!puffgrit_member(bytes, len, 0, PUFFGRIT_INFO_ALGORITHMS, &list) || list.kind != PUFFGRIT_ARRAY) {
        fputs("no algorithms\n", stderr);
        return 1;
    }
    for (at = list.content; at < list.end && puffgrit_item_at(bytes, len, at, &entry); at = entry.end) {
        if (puffgrit_named(bytes, len, at, (const uint8_t *)"alg", 3, &algorithm)) printf("%" PRId64 "\n", integer(&algorithm));
    }
    return 0;
}
