/* A coverage-guided fuzzer of puffgrit.h, for libFuzzer: tools/fuzz-c builds and runs it. The first byte of an input picks the kind,
   the others are what is decoded. It aborts where a call does what puffgrit.h rules out. */
#include <stdlib.h>
#include <string.h>

#include "puffgrit.h"

int LLVMFuzzerTestOneInput(const uint8_t *data, size_t size);

static void want(int right) {
    if (!right) abort();
}

/* Memory of exactly this length, so that ASan sees each byte beyond it. */
static uint8_t *copy_of(const uint8_t *bytes, size_t len) {
    uint8_t *copy = malloc(len ? len : 1);
    if (!copy) exit(0);
    if (len) memcpy(copy, bytes, len);
    return copy;
}

/* Decodes and encodes, in an output of one byte less than is needed, and then of exactly that. Returns the encoding, or none. */
static uint8_t *encoding_of(uint32_t kind, const uint8_t *bytes, size_t len, uint32_t *status, size_t *read, size_t *needed) {
    uint8_t none = 0xa5, *out;
    size_t again = 0, same = 0;
    *status = puffgrit_rewrite(kind, bytes, len, read, &none, 0, needed);
    want(none == 0xa5);
    if (*status != PUFFGRIT_TOO_SHORT) {
        /* No encoding is empty, so nothing fits into no bytes. */
        want(*status != PUFFGRIT_OK);
        return NULL;
    }
    out = malloc(*needed);
    if (!out) exit(0);
    memset(out, 0xa5, *needed);
    want(puffgrit_rewrite(kind, bytes, len, &same, out, *needed - 1, &again) == PUFFGRIT_TOO_SHORT && again == *needed && out[0] == 0xa5);
    *status = puffgrit_rewrite(kind, bytes, len, &same, out, *needed, &again);
    want(*status == PUFFGRIT_OK && again == *needed && same == *read);
    return out;
}

static int is_json_text(uint32_t kind) {
    return kind >= PUFFGRIT_KIND_CREATION && kind <= PUFFGRIT_KIND_CLIENT_DATA;
}

static int is_whole(uint32_t kind) {
    return is_json_text(kind) || kind == PUFFGRIT_KIND_TPM_CERT_INFO || kind == PUFFGRIT_KIND_TPM_PUB_AREA;
}

static void rewrite(uint32_t kind, const uint8_t *bytes, size_t len) {
    uint32_t status, second;
    size_t read = 0, needed = 0, whole = 0, same = 0, item = puffgrit_item_len(bytes, len);
    uint8_t *out = encoding_of(kind, bytes, len, &status, &read, &needed), *again;
    puffgrit_auth_data parts;
    int is_item = kind != PUFFGRIT_KIND_AUTH && !is_whole(kind);
    if (is_item) want((status == PUFFGRIT_FAULT_DECODE_FAILED) == (item == 0));
    if (!out) return;
    if (is_item) want(puffgrit_item_len(out, needed) == needed && read == item);
    if (kind == PUFFGRIT_KIND_AUTH) want(puffgrit_auth_parts(bytes, len, &parts) && read == parts.end);
    if (is_whole(kind)) want(read == len);
    /* What follows plays no part. */
    again = encoding_of(kind, bytes, read, &second, &whole, &same);
    want(again && whole == read && same == needed && memcmp(again, out, needed) == 0);
    free(again);
    /* What is encoded is decoded as the same value, and all of it. */
    again = encoding_of(kind, out, needed, &second, &whole, &same);
    want(again && whole == needed && same == needed && memcmp(again, out, needed) == 0);
    free(again);
    free(out);
}

/* What is in an input, and why it is refused: with the fault with which it isn't rewritten. */
static void examine(uint32_t kind, const uint8_t *bytes, size_t len) {
    uint8_t none = 0xa5;
    size_t read = 0, shown = 0, accepted = 0, needed = 0, told = 0;
    puffgrit_refusal refusal = {0, 0};
    uint32_t wanted = puffgrit_rewrite(kind, bytes, len, &read, &none, 0, &needed);
    uint32_t json = puffgrit_json(kind, bytes, len, &shown, &none, 0, &needed);
    uint32_t status = puffgrit_explain(kind, bytes, len, &accepted, &refusal, &none, 0, &told);
    int is_shown = kind <= PUFFGRIT_KIND_GA_UNSIGNED;
    want(none == 0xa5);
    want(json == (is_shown ? wanted : PUFFGRIT_UNKNOWN_KIND) && shown == (is_shown ? read : 0));
    want(status == (wanted == PUFFGRIT_TOO_SHORT ? PUFFGRIT_OK : wanted) && accepted == read);
    if (status >= PUFFGRIT_FAULT_DECODE_FAILED) want(told > 0 && refusal.offset <= len && refusal.len <= len - refusal.offset);
}

/* The values of an input are encoded as the input is; and the input as values, in no bytes, writes none. */
static void encode(uint32_t kind, const uint8_t *bytes, size_t len) {
    uint8_t none = 0xa5, *values, *out, *again;
    size_t read = 0, shown = 0, needed = 0, size = 0, told = 0;
    uint32_t wanted = puffgrit_rewrite(kind, bytes, len, &read, &none, 0, &needed);
    uint32_t status = puffgrit_values(kind, bytes, len, &shown, &none, 0, &size);
    want(status == wanted || status == PUFFGRIT_UNKNOWN_KIND);
    if (status == PUFFGRIT_TOO_SHORT) {
        values = malloc(size);
        out = malloc(needed);
        if (!values || !out) exit(0);
        want(puffgrit_values(kind, bytes, len, &shown, values, size, &size) == PUFFGRIT_OK && shown == read);
        want(puffgrit_encode(kind, values, size, out, needed - 1, &told, &none, 0, &shown) == PUFFGRIT_TOO_SHORT && told == needed);
        want(puffgrit_encode(kind, values, size, out, needed, &told, &none, 0, &shown) == PUFFGRIT_OK && shown == read);
        again = encoding_of(kind, bytes, len, &status, &read, &needed);
        want(again && memcmp(again, out, needed) == 0);
        free(again);
        free(values);
        free(out);
    }
    status = puffgrit_encode(kind, bytes, len, &none, 0, &needed, &none, 0, &told);
    want(none == 0xa5 && status != PUFFGRIT_OK);
}

static void look(const uint8_t *bytes, size_t len) {
    puffgrit_item item;
    puffgrit_auth_data parts;
    size_t whole = puffgrit_item_len(bytes, len);
    int there = puffgrit_item_at(bytes, len, 0, &item);
    want(there == (whole != 0));
    if (there) want(item.end == whole && item.content <= item.end);
    if (puffgrit_is_canonical(bytes, len)) want(whole == len);
    if (puffgrit_auth_parts(bytes, len, &parts)) want(parts.end <= len);
}

int LLVMFuzzerTestOneInput(const uint8_t *data, size_t size) {
    uint8_t *bytes;
    if (size == 0) return 0;
    bytes = copy_of(data + 1, size - 1);
    look(bytes, size - 1);
    rewrite(data[0] % PUFFGRIT_KIND_TPM_PUB_AREA + 1, bytes, size - 1);
    examine(data[0] % PUFFGRIT_KIND_TPM_PUB_AREA + 1, bytes, size - 1);
    encode(data[0] % PUFFGRIT_KIND_TPM_PUB_AREA + 1, bytes, size - 1);
    free(bytes);
    return 0;
}
