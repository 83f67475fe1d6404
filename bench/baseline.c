/* The baseline of bench/run: the two calls of passkey_cbor that are measured, written by hand in C.
   baseline CALL ROUNDS reads an item on standard input, makes the call so many times over its bytes,
   and prints the sum of the lengths that were found. RFC 8949, section 3; UTF-8 as RFC 3629. */
#include <stdbool.h>
#include <stdint.h>
#include <stdio.h>
#include <stdlib.h>
#include <string.h>

enum { LEVELS = 256, BREAK = 8, MALFORMED = 9 };

typedef struct { const uint8_t *at, *end; } Reader;
typedef struct { uint8_t kind; bool has_length; uint64_t number; } Head;
typedef struct Value Value;
struct Value {
    uint8_t kind;
    uint64_t number; /* an integer's, a tag's, or a simple or floating-point value's bits */
    size_t count;    /* of bytes, or of values: two for each pair of a map */
    void *parts;
};

static Head malformed(void) { return (Head){MALFORMED, false, 0}; }

static Head decode(Reader *r) {
    if (r->at == r->end) return malformed();
    uint8_t kind = *r->at >> 5, info = *r->at & 31;
    r->at++;
    if (info < 24) return (Head){kind, true, info};
    if (info == 31) {
        if (kind == 7) return (Head){BREAK, false, 0};
        return kind >= 2 && kind <= 5 ? (Head){kind, false, 0} : malformed();
    }
    if (info > 27) return malformed();
    size_t width = (size_t)1 << (info - 24);
    if ((size_t)(r->end - r->at) < width) return malformed();
    uint64_t number = 0;
    for (size_t i = 0; i < width; i++) number = number << 8 | *r->at++;
    if (kind == 7 && info == 24 && number < 32) return malformed();
    return (Head){kind, true, number};
}

static bool is_utf8(const uint8_t *at, const uint8_t *end) {
    while (at < end) {
        uint8_t first = *at++;
        if (first < 0x80) continue;
        int more = first >= 0xf0 ? 3 : first >= 0xe0 ? 2 : 1;
        if (first < 0xc2 || first > 0xf4 || end - at < more) return false;
        uint8_t low = first == 0xe0 ? 0xa0 : first == 0xf0 ? 0x90 : 0x80;
        uint8_t high = first == 0xed ? 0x9f : first == 0xf4 ? 0x8f : 0xbf;
        if (*at < low || *at > high) return false;
        for (at++; --more > 0; at++)
            if ((*at & 0xc0) != 0x80) return false;
    }
    return true;
}

/* So many bytes, where they may stand in a string of this kind; else NULL. */
static const uint8_t *piece(Reader *r, uint8_t kind, uint64_t len) {
    const uint8_t *at = r->at;
    if ((uint64_t)(r->end - at) < len) return NULL;
    if (kind == 3 && !is_utf8(at, at + len)) return NULL;
    r->at += len;
    return at;
}

typedef enum { ELEMENT, END, NEITHER } Next;

static Next next(Reader *r, Head list, uint64_t *left, Head *head) {
    if (list.has_length && (*left)-- == 0) return END;
    *head = decode(r);
    if (head->kind < BREAK) return ELEMENT;
    return head->kind == BREAK && !list.has_length ? END : NEITHER;
}

/* A chunk of a string of this kind, whose head was read; else NULL. */
static const uint8_t *chunk(Reader *r, uint8_t kind, Head head) {
    return head.kind == kind && head.has_length ? piece(r, kind, head.number) : NULL;
}

static bool skip_after(Reader *r, Head head, int levels);

static bool skip(Reader *r, int levels) { return skip_after(r, decode(r), levels); }

static bool skip_entry(Reader *r, Head list, Head head, int levels) {
    if (list.kind <= 3) return chunk(r, list.kind, head) != NULL;
    return skip_after(r, head, levels) && (list.kind == 4 || skip(r, levels));
}

static bool skip_list(Reader *r, Head list, int levels) {
    Head head;
    uint64_t left = list.number;
    for (;;) {
        Next found = next(r, list, &left, &head);
        if (found != ELEMENT) return found == END;
        if (!skip_entry(r, list, head, levels)) return false;
    }
}

static bool skip_after(Reader *r, Head head, int levels) {
    switch (head.kind) {
    case 0: case 1: case 7: return true;
    case 2: case 3: return head.has_length ? piece(r, head.kind, head.number) != NULL : skip_list(r, head, 0);
    case 4: case 5: return levels > 0 && skip_list(r, head, levels - 1);
    case 6: return levels > 0 && skip(r, levels - 1);
    default: return false;
    }
}

/* Room for one more of these parts: 4 at first, and then twice as many each time. */
static bool grow(Value *v, size_t size) {
    if (v->count & (v->count - 1) || (v->count < 4 && v->count > 0)) return true;
    void *parts = realloc(v->parts, (v->count ? 2 * v->count : 4) * size);
    if (parts) v->parts = parts;
    return parts != NULL;
}

static bool append(Value *v, const uint8_t *at, size_t len) {
    if (!at) return false;
    if (!len) return true;
    uint8_t *parts = realloc(v->parts, v->count + len);
    if (!parts) return false;
    memcpy(parts + v->count, at, len);
    v->parts = parts;
    v->count += len;
    return true;
}

static bool build_after(Reader *r, Head head, int levels, Value *out);

static bool build_part(Reader *r, Head head, int levels, Value *list) {
    if (!grow(list, sizeof(Value))) return false;
    return build_after(r, head, levels, (Value *)list->parts + list->count++);
}

static bool build_entry(Reader *r, Head list, Head head, int levels, Value *out) {
    if (list.kind <= 3) return append(out, chunk(r, list.kind, head), head.number);
    return build_part(r, head, levels, out) && (list.kind == 4 || build_part(r, decode(r), levels, out));
}

static bool build_list(Reader *r, Head list, int levels, Value *out) {
    Head head;
    uint64_t left = list.number;
    for (;;) {
        Next found = next(r, list, &left, &head);
        if (found != ELEMENT) return found == END;
        if (!build_entry(r, list, head, levels, out)) return false;
    }
}

/* Fills in a value, also where it answers false: then with what was built. */
static bool build_after(Reader *r, Head head, int levels, Value *out) {
    *out = (Value){head.kind, head.number, 0, NULL};
    switch (head.kind) {
    case 0: case 1: case 7: return true;
    case 2: case 3:
        if (!head.has_length) return build_list(r, head, 0, out);
        return append(out, piece(r, head.kind, head.number), head.number);
    case 4: case 5: return levels > 0 && build_list(r, head, levels - 1, out);
    case 6: return levels > 0 && build_part(r, decode(r), levels - 1, out);
    default: return false;
    }
}

static void release(Value *v) {
    if (v->kind >= 4 && v->kind <= 6)
        for (size_t i = 0; i < v->count; i++) release((Value *)v->parts + i);
    free(v->parts);
}

static size_t skip_len(const uint8_t *bytes, size_t len) {
    Reader r = {bytes, bytes + len};
    return skip(&r, LEVELS) ? (size_t)(r.at - bytes) : 0;
}

static size_t build_len(const uint8_t *bytes, size_t len) {
    Reader r = {bytes, bytes + len};
    Value v;
    bool found = build_after(&r, decode(&r), LEVELS, &v);
    release(&v);
    return found ? (size_t)(r.at - bytes) : 0;
}

static uint8_t *read_all(size_t *len) {
    size_t room = 1 << 16;
    uint8_t *bytes = malloc(room);
    for (*len = 0; bytes; room *= 2, bytes = realloc(bytes, room)) {
        *len += fread(bytes + *len, 1, room - *len, stdin);
        if (*len < room) break;
    }
    return bytes;
}

/* The compiler is kept from making one call of many. */
static size_t (*volatile call)(const uint8_t *, size_t);

int main(int argc, char **argv) {
    size_t len, sum = 0;
    if (argc != 3) return 2;
    call = strcmp(argv[1], "skip") ? build_len : skip_len;
    uint8_t *bytes = read_all(&len);
    if (!bytes) return 3;
    for (long rounds = atol(argv[2]); rounds > 0; rounds--) sum += call(bytes, len);
    printf("%zu\n", sum);
    return 0;
}
