/* rewrite: decodes the message in hexadecimal on standard input as the kind with the number that is its argument, and prints its
   canonical encoding, or why it is rejected. */
#include <inttypes.h>
#include <stdio.h>
#include <stdlib.h>

#include "puffgrit.h"

int main(int count, char **words) {
    static uint8_t bytes[65536];
    size_t len = 0, room = 256, needed = 0, read = 0, k;
    uint32_t kind = count == 2 ? (uint32_t)strtoul(words[1], 0, 10) : 0, status;
    uint8_t *out = malloc(room);
    unsigned int byte;

    while (len < sizeof bytes && scanf("%2x", &byte) == 1) bytes[len++] = (uint8_t)byte;
    if (!out) return 3;
    status = puffgrit_rewrite(kind, bytes, len, &read, out, room, &needed);
    if (status == PUFFGRIT_TOO_SHORT) {
        /* The length is that of the encoding, so the second call has room enough. */
        room = needed;
        free(out);
        out = malloc(room);
        if (!out) return 3;
        status = puffgrit_rewrite(kind, bytes, len, &read, out, room, &needed);
    }
    if (status == PUFFGRIT_OK) {
        for (k = 0; k < needed; k++) printf("%02x", out[k]);
        printf("\n");
        if (read < len) fprintf(stderr, "%lu bytes follow\n", (unsigned long)(len - read));
    } else {
        fprintf(stderr, "status %" PRIu32 ", member %" PRIu32 "\n", PUFFGRIT_STATUS_OF(status), PUFFGRIT_MEMBER_OF(status));
    }
    free(out);
    return status == PUFFGRIT_OK ? 0 : 1;
}
