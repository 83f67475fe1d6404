/* stack: answers requests from standard input, one a line, for tools/test-c: how many bytes of the stack calls take.

   check HEX: the one of the calls that look for CTAP2's canonical form which takes the most; look HEX: of the other calls that look; with
   LOOKS_ALONE only these.
   rewrite KIND HEX: puffgrit_rewrite; show KIND HEX: the one of the other calls that allocate, of which puffgrit_encode is given the
   input, and what puffgrit_values makes of it. `-` is no bytes. */
#define _POSIX_C_SOURCE 200809L
#include <pthread.h>
#include <stdio.h>
#include <stdlib.h>
#include <string.h>

#include "puffgrit.h"

enum { ROOM = 4 << 20, MARK = 0xa5, MOST = 1 << 16 };

static uint64_t room[ROOM / sizeof(uint64_t)];
static uint8_t input[MOST];
static size_t input_len;

static void *nothing(void *unused) {
    (void)unused;
    return 0;
}

static void *check(void *unused) {
    static uint8_t copy[MOST];
    size_t offset = 0, len = 0;
    (void)unused;
    (void)puffgrit_is_canonical(input, input_len);
    (void)puffgrit_not_canonical(input, input_len, 256, &offset);
    (void)puffgrit_write_item(copy, sizeof copy, &len, input, input_len);
    (void)puffgrit_write_end(input, input_len, input_len);
    return 0;
}

static void *look(void *unused) {
    puffgrit_item item;
    puffgrit_auth_data parts;
    (void)unused;
    (void)puffgrit_item_len(input, input_len);
    (void)puffgrit_item_at(input, input_len, 0, &item);
    (void)puffgrit_member(input, input_len, 0, 1, &item);
    (void)puffgrit_named(input, input_len, 0, (const uint8_t *)"id", 2, &item);
    (void)puffgrit_auth_parts(input, input_len, &parts);
    return 0;
}

#ifndef LOOKS_ALONE
static uint32_t kind;
static uint8_t output[16 * MOST], encoding[MOST], text[MOST];

static void *again(void *unused) {
    size_t read, len;
    (void)unused;
    (void)puffgrit_rewrite(kind, input, input_len, &read, output, sizeof output, &len);
    return 0;
}

static void *show(void *unused) {
    puffgrit_refusal refusal;
    size_t read, len;
    (void)unused;
    (void)puffgrit_json(kind, input, input_len, &read, output, sizeof output, &len);
    (void)puffgrit_explain(kind, input, input_len, &read, &refusal, output, sizeof output, &len);
    (void)puffgrit_encode(kind, input, input_len, encoding, sizeof encoding, &read, text, sizeof text, &read);
    if (puffgrit_values(kind, input, input_len, &read, output, sizeof output, &len) == PUFFGRIT_OK)
        (void)puffgrit_encode(kind, output, len, encoding, sizeof encoding, &read, text, sizeof text, &read);
    return 0;
}
#endif

/* The bytes of its stack that a thread wrote, which are marked again. */
static size_t used(void *(*run)(void *)) {
    pthread_attr_t attributes;
    pthread_t thread;
    size_t untouched = 0;
    uint64_t mark;
    memset(&mark, MARK, sizeof mark);
    pthread_attr_init(&attributes);
    pthread_attr_setstack(&attributes, room, ROOM);
    if (pthread_create(&thread, &attributes, run, 0) != 0) exit(2);
    pthread_join(thread, 0);
    while (untouched < ROOM / sizeof mark && room[untouched] == mark) untouched++;
    memset(room + untouched, MARK, ROOM - untouched * sizeof mark);
    return ROOM - untouched * sizeof mark;
}

static void read_input(const char *hex) {
    unsigned byte;
    input_len = 0;
    for (; strcmp(hex, "-") != 0 && *hex; hex += 2) {
        if (input_len == MOST || sscanf(hex, "%2x", &byte) != 1) exit(2);
        input[input_len++] = (uint8_t)byte;
    }
}

int main(void) {
    static char line[2 * MOST + 32], call[8], first[2 * MOST + 1], second[2 * MOST + 1];
    size_t alone, taken;
    memset(room, MARK, ROOM);
    alone = used(nothing);
    while (fgets(line, sizeof line, stdin)) {
        int words = sscanf(line, "%7s %131072s %131072s", call, first, second);
        read_input(words == 3 ? second : first);
        taken = 0;
        if (!strcmp(call, "check")) taken = used(check);
        if (!strcmp(call, "look")) taken = used(look);
#ifndef LOOKS_ALONE
        kind = (uint32_t)strtoul(first, 0, 10);
        if (!strcmp(call, "rewrite")) taken = used(again);
        if (!strcmp(call, "show")) taken = used(show);
#endif
        printf("%lu\n", taken > alone ? (unsigned long)(taken - alone) : 0ul);
    }
    return 0;
}
