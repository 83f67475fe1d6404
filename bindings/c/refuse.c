/* refuse: reads lines of a kind's number and an input in hexadecimal, and makes each call that allocates once for each allocation that
   it makes, with that allocation refused. Each such call has to return PUFFGRIT_OUT_OF_MEMORY and write nothing, or the answer that it gives
   with memory; and no call may keep memory. Prints how many calls were made, and what was wrong. Link with
   -Wl,--wrap=malloc,--wrap=realloc,--wrap=free. */
#include <stdio.h>
#include <stdlib.h>
#include <string.h>

#include "puffgrit.h"

enum { ROOM = 1 << 16, UNSET = 0xa5 };

void *__real_malloc(size_t size);
void *__real_realloc(void *old, size_t size);
void __real_free(void *old);
void *__wrap_malloc(size_t size);
void *__wrap_realloc(void *old, size_t size);
void __wrap_free(void *old);

/* Which allocation is refused (0: none), how many were asked for, and how many are held. */
static unsigned long refused, asked, held;

void *__wrap_malloc(size_t size) {
    void *made = ++asked == refused ? 0 : __real_malloc(size);
    held += made != 0;
    return made;
}

void *__wrap_realloc(void *old, size_t size) {
    void *made = ++asked == refused ? 0 : __real_realloc(old, size);
    held += made != 0 && old == 0;
    return made;
}

void __wrap_free(void *old) {
    held -= old != 0;
    __real_free(old);
}

struct answer {
    uint32_t status;
    size_t read, len;
    puffgrit_refusal refusal;
    uint8_t out[ROOM];
};

static uint8_t input[ROOM];
static size_t input_len;
static struct answer wanted, found;

typedef uint32_t calls(uint32_t kind, struct answer *answer);

static uint32_t rewritten(uint32_t kind, struct answer *answer) {
    return puffgrit_rewrite(kind, input, input_len, &answer->read, answer->out, ROOM, &answer->len);
}

static uint32_t as_json(uint32_t kind, struct answer *answer) {
    return puffgrit_json(kind, input, input_len, &answer->read, answer->out, ROOM, &answer->len);
}

static uint32_t explained(uint32_t kind, struct answer *answer) {
    return puffgrit_explain(kind, input, input_len, &answer->read, &answer->refusal, answer->out, ROOM, &answer->len);
}

static uint32_t as_values(uint32_t kind, struct answer *answer) {
    return puffgrit_values(kind, input, input_len, &answer->read, answer->out, ROOM, &answer->len);
}

/* The input is the values; the second half of the output is for the text. */
static uint32_t encoded(uint32_t kind, struct answer *answer) {
    return puffgrit_encode(kind, input, input_len, answer->out, ROOM / 2, &answer->len, answer->out + ROOM / 2, ROOM / 2, &answer->read);
}

static void ask(calls *call, uint32_t kind, unsigned long number, struct answer *answer) {
    memset(answer->out, UNSET, ROOM);
    answer->read = answer->len = answer->refusal.offset = answer->refusal.len = UNSET;
    refused = number;
    asked = held = 0;
    answer->status = call(kind, answer);
    refused = 0;
}

static int same(const struct answer *a, const struct answer *b) {
    return a->status == b->status && a->read == b->read && a->len == b->len && a->refusal.offset == b->refusal.offset
           && a->refusal.len == b->refusal.len && memcmp(a->out, b->out, ROOM) == 0;
}

static int wrote_nothing(const struct answer *a) {
    size_t k;
    for (k = 0; k < ROOM; k++)
        if (a->out[k] != UNSET) return 0;
    return a->read == UNSET && a->len == UNSET && a->refusal.offset == UNSET && a->refusal.len == UNSET;
}

static int is_right(void) {
    if (held != 0) return 0;
    return same(&found, &wanted) || (found.status == PUFFGRIT_OUT_OF_MEMORY && wrote_nothing(&found));
}

static unsigned long made, wrong;

/* Makes the call with memory, and then with each of its allocations refused. */
static void refuse_each(calls *call, uint32_t kind) {
    unsigned long number, most;
    ask(call, kind, 0, &wanted);
    most = asked;
    wrong += held != 0;
    for (number = 1; number <= most; number++, made++) {
        ask(call, kind, number, &found);
        if (!is_right()) {
            wrong++;
            printf("kind %lu, %lu bytes, allocation %lu: status %lu\n", (unsigned long)kind, (unsigned long)input_len, number,
                   (unsigned long)found.status);
        }
    }
}

static uint8_t values[ROOM];
static size_t values_len;

/* Encodes the values with these characters before and after them. */
static void refuse_around(const char *before, const char *after, uint32_t kind) {
    size_t front = strlen(before), back = strlen(after);
    if (front + values_len + back > ROOM) return;
    memcpy(input, before, front);
    memcpy(input + front, values, values_len);
    memcpy(input + front + values_len, after, back);
    input_len = front + values_len + back;
    refuse_each(encoded, kind);
}

/* Encodes the values of the input, an array of them, which most kinds refuse, and an object that is no data item. */
static void refuse_values(uint32_t kind) {
    ask(as_values, kind, 0, &wanted);
    if (wanted.status != PUFFGRIT_OK) return;
    values_len = wanted.len;
    memcpy(values, wanted.out, values_len);
    refuse_around("", "", kind);
    refuse_around("[", "]", kind);
    refuse_around("{\"$bytes\":", "}", kind);
}

int main(void) {
    unsigned int kind, byte;
    int end;

    while (scanf("%u", &kind) == 1) {
        input_len = 0;
        while ((end = getchar()) == ' ') {}
        for (; end != '\n' && end != EOF; end = getchar()) {
            ungetc(end, stdin);
            if (input_len == ROOM || scanf("%2x", &byte) != 1) return 3;
            input[input_len++] = (uint8_t)byte;
        }
        refuse_each(rewritten, kind);
        refuse_each(as_json, kind);
        refuse_each(explained, kind);
        refuse_each(as_values, kind);
        refuse_values(kind);
    }
    printf("%lu calls, %lu wrong\n", made, wrong);
    return 0;
}
