/* looks: answers requests from standard input, one a line, for tools/test-c: each over a buffer of exactly the input's length.

   len HEX, canonical HEX, item OFFSET HEX, member OFFSET KEY HEX, named OFFSET NAME-IN-HEX HEX, auth HEX, all OFFSET HEX (these six,
   with some keys), client 0-OR-1 TYPE.CHALLENGE.ORIGIN.TOP-ORIGIN HEX (whether the last is required, and each in hexadecimal),
   rewrite KIND ROOM HEX, json KIND ROOM HEX, values KIND ROOM HEX, explain KIND ROOM HEX, encode KIND ROOM.ROOM-OF-THE-TEXT HEX, and
   back KIND HEX; with LOOKS_ALONE only the first eight. `-` is no bytes. An answer to `rewrite`, `json` and `values` is the status, how many
   bytes were read, the length and, in hexadecimal, the output if the status is 0, and `changed` if bytes after it changed; to `explain` the
   status, how many bytes were read, the offset and the length of what is refused, the length of the text and the text in hexadecimal; to
   `encode` the status, the length, the length of the text, and the output and the text. `back` compares the encoding of the input's values
   with the input rewritten, each in an output of exactly its length: `same`, `none` where the input is rejected, or `other`. */
#include <inttypes.h>
#include <stdio.h>
#include <stdlib.h>
#include <string.h>

#include "puffgrit.h"

typedef struct {
    uint8_t *bytes;
    size_t len;
} buffer;

static unsigned digit(char it) {
    if (it >= '0' && it <= '9') return (unsigned)(it - '0');
    if (it < 'a' || it > 'f') exit(2);
    return (unsigned)(it - 'a') + 10;
}

/* A buffer of the bytes; one byte where there are none, since the pointer must not be null. */
static buffer read_hex(const char *hex) {
    buffer it;
    size_t k;
    it.len = strcmp(hex, "-") == 0 ? 0 : strlen(hex) / 2;
    it.bytes = malloc(it.len ? it.len : 1);
    if (!it.bytes) exit(2);
    for (k = 0; k < it.len; k++) it.bytes[k] = (uint8_t)(digit(hex[2 * k]) * 16 + digit(hex[2 * k + 1]));
    return it;
}

static void print_item(puffgrit_bool found, const puffgrit_item *i) {
    printf("%d %" PRIu64 " %zu %zu %zu %" PRIu32, found, i->number, i->from, i->content, i->end, i->kind);
}

static void print_member(buffer it, size_t map, int64_t key) {
    puffgrit_item item = {1, 2, 3, 4, 5};
    puffgrit_bool found = puffgrit_member(it.bytes, it.len, map, key, &item);
    print_item(found, &item);
}

static void print_named(buffer it, size_t map, buffer name) {
    puffgrit_item item = {1, 2, 3, 4, 5};
    puffgrit_bool found = puffgrit_named(it.bytes, it.len, map, name.bytes, name.len, &item);
    print_item(found, &item);
}

static void print_item_at(buffer it, size_t offset) {
    puffgrit_item item = {1, 2, 3, 4, 5};
    puffgrit_bool found = puffgrit_item_at(it.bytes, it.len, offset, &item);
    print_item(found, &item);
}

static void print_parts(buffer it) {
    puffgrit_auth_data parts = {1, 2, 3, 4, 5, 6, 7, 8};
    puffgrit_bool found = puffgrit_auth_parts(it.bytes, it.len, &parts);
    printf("%d %zu %zu %zu %zu %zu %zu %" PRIu32 " %" PRIu32, found, parts.aaguid, parts.credential_id, parts.credential_id_len,
        parts.public_key, parts.extensions, parts.end, parts.counter, parts.flags);
}

static void print_client_data(buffer it, puffgrit_bool is_required, char *words) {
    buffer part[4];
    size_t k;
    for (k = 0; k < 4; k++) {
        const char *word = strtok(k ? NULL : words, ".");
        if (!word) exit(2);
        part[k] = read_hex(word);
    }
    printf("%d", puffgrit_is_client_data(it.bytes, it.len, part[0].bytes, part[0].len, part[1].bytes, part[1].len, part[2].bytes,
        part[2].len, part[3].bytes, part[3].len, is_required));
    for (k = 0; k < 4; k++) free(part[k].bytes);
}

static void print_all(buffer it, size_t offset) {
    static const int64_t keys[] = {1, 2, 3, -1, 24, INT64_MIN, INT64_MAX};
    static const char *const names[] = {"id", "alg", "fmt", "\xff"};
    size_t k;
    printf("%zu %d ", puffgrit_item_len(it.bytes, it.len), puffgrit_is_canonical(it.bytes, it.len));
    print_item_at(it, offset);
    for (k = 0; k < sizeof keys / sizeof *keys; k++) {
        putchar(' ');
        print_member(it, k % 2 ? offset : 0, keys[k]);
    }
    for (k = 0; k < sizeof names / sizeof *names; k++) {
        buffer name;
        name.bytes = (uint8_t *)names[k];
        name.len = strlen(names[k]);
        putchar(' ');
        print_named(it, k % 2 ? offset : 0, name);
    }
    putchar(' ');
    print_parts(it);
}

#ifndef LOOKS_ALONE
typedef uint32_t writes(uint32_t kind, const uint8_t *input, size_t input_len, size_t *read, uint8_t *out, size_t out_len, size_t *len);

static uint8_t *unset(size_t room) {
    uint8_t *out = malloc(room ? room : 1);
    if (!out) exit(2);
    memset(out, 0xa5, room);
    return out;
}

/* Prints so many bytes of the output, and whether those after them changed. */
static void print_output(const uint8_t *out, size_t room, size_t len) {
    size_t k, same = 1;
    for (k = len; k < room; k++) same &= out[k] == 0xa5;
    for (k = 0; k < len && k < room; k++) printf("%02x", out[k]);
    if (!same) printf("changed");
}

/* Writes into an output of exactly so many bytes. */
static void written(writes *call, uint32_t kind, size_t room, buffer input) {
    uint8_t *out = unset(room);
    size_t read = 55, len = 77;
    uint32_t status = call(kind, input.bytes, input.len, &read, out, room, &len);
    printf("%" PRIu32 " %zu %zu ", status, read, len);
    print_output(out, room, status == PUFFGRIT_OK ? len : 0);
    free(out);
}

/* Encodes into an output of exactly so many bytes, with so many for the text. */
static void encode(uint32_t kind, const char *rooms, buffer json) {
    char *rest;
    size_t room = (size_t)strtoull(rooms, &rest, 10), most = (size_t)strtoull(rest + 1, 0, 10), len = 77, size = 88;
    uint8_t *out = unset(room), *why = unset(most);
    uint32_t status = puffgrit_encode(kind, json.bytes, json.len, out, room, &len, why, most, &size);
    printf("%" PRIu32 " %zu %zu ", status, len, size);
    print_output(out, room, status == PUFFGRIT_OK ? len : 0);
    putchar(' ');
    print_output(why, most, size == 88 && status != PUFFGRIT_FAULT_NO_ITEM ? 0 : size < most ? size : most);
    free(out);
    free(why);
}

/* What a call makes of an input, in memory of exactly its length; none if it makes nothing. */
static buffer made(writes *call, uint32_t kind, buffer input, uint32_t *status, size_t *read) {
    buffer it = {unset(0), 0};
    *status = call(kind, input.bytes, input.len, read, it.bytes, 0, &it.len);
    if (*status != PUFFGRIT_TOO_SHORT) return it;
    free(it.bytes);
    it.bytes = unset(it.len);
    *status = call(kind, input.bytes, input.len, read, it.bytes, it.len, &it.len);
    return it;
}

static int same(buffer a, buffer b) {
    return a.len == b.len && memcmp(a.bytes, b.bytes, a.len) == 0;
}

/* Whether the values are encoded as this, in an output of exactly its length. */
static int encodes(uint32_t kind, buffer json, buffer wanted) {
    buffer out = {unset(wanted.len), 0};
    uint8_t none = 0;
    size_t size = 88;
    int is = puffgrit_encode(kind, json.bytes, json.len, out.bytes, wanted.len, &out.len, &none, 0, &size) == PUFFGRIT_OK
             && same(out, wanted) && size == 88;
    free(out.bytes);
    return is;
}

static void back(uint32_t kind, buffer input) {
    uint32_t status, shown;
    size_t read = 55, taken = 55;
    buffer wanted = made(puffgrit_rewrite, kind, input, &status, &read), values = made(puffgrit_values, kind, input, &shown, &taken);
    if (shown == status && status != PUFFGRIT_OK) {
        printf("none");
    } else {
        printf("%s", shown == status && taken == read && encodes(kind, values, wanted) ? "same" : "other");
    }
    free(wanted.bytes);
    free(values.bytes);
}

static void explain(uint32_t kind, size_t room, buffer input) {
    uint8_t *out = unset(room);
    size_t read = 55, len = 77;
    puffgrit_refusal refusal = {7, 9};
    uint32_t status = puffgrit_explain(kind, input.bytes, input.len, &read, &refusal, out, room, &len);
    printf("%" PRIu32 " %zu %zu %zu %zu ", status, read, refusal.offset, refusal.len, len);
    print_output(out, room, status < PUFFGRIT_FAULT_DECODE_FAILED ? 0 : len < room ? len : room);
    free(out);
}

#endif

int main(void) {
    static char call[16], first[1 << 16], second[1 << 16], third[1 << 16];
    static char line[3 << 16];
    while (fgets(line, sizeof line, stdin)) {
        int words = sscanf(line, "%15s %65535s %65535s %65535s", call, first, second, third);
        buffer input = read_hex(words == 2 ? first : words == 3 ? second : third);
        size_t offset = words > 2 ? (size_t)strtoull(first, 0, 10) : 0;
        if (!strcmp(call, "len")) printf("%zu", puffgrit_item_len(input.bytes, input.len));
        if (!strcmp(call, "canonical")) printf("%d", puffgrit_is_canonical(input.bytes, input.len));
        if (!strcmp(call, "item")) print_item_at(input, offset);
        if (!strcmp(call, "member")) print_member(input, offset, (int64_t)strtoll(second, 0, 10));
        if (!strcmp(call, "named")) {
            buffer name = read_hex(second);
            print_named(input, offset, name);
            free(name.bytes);
        }
        if (!strcmp(call, "auth")) print_parts(input);
        if (!strcmp(call, "client")) print_client_data(input, offset == 1, second);
        if (!strcmp(call, "all")) print_all(input, offset);
#ifndef LOOKS_ALONE
        if (!strcmp(call, "rewrite")) written(puffgrit_rewrite, (uint32_t)offset, (size_t)strtoull(second, 0, 10), input);
        if (!strcmp(call, "json")) written(puffgrit_json, (uint32_t)offset, (size_t)strtoull(second, 0, 10), input);
        if (!strcmp(call, "values")) written(puffgrit_values, (uint32_t)offset, (size_t)strtoull(second, 0, 10), input);
        if (!strcmp(call, "encode")) encode((uint32_t)offset, second, input);
        if (!strcmp(call, "back")) back((uint32_t)offset, input);
        if (!strcmp(call, "explain")) explain((uint32_t)offset, (size_t)strtoull(second, 0, 10), input);
#endif
        putchar('\n');
        free(input.bytes);
    }
    return 0;
}
