/* writer: writes data items into buffers of each length up to what they need and two more, by the calls of puffgrit.h that write, and
   compares what stands there with what RFC 8949 and CTAP 2.1, section 8, want. The status is the number of cases that differ. */
#include <stdio.h>
#include <stdlib.h>
#include <string.h>

#include "puffgrit.h"

/* The calls, one word each: {n and [n heads of a map and an array, a number, hHEX a byte string, "TEXT a text string (%HEX of one by its
   bytes), false, true, null, =HEX a data item as it is. What they append, in hexadecimal, up to the first call that fails in any buffer; and
   whether it is one canonical data item. */
typedef struct {
    const char *calls;
    const char *hex;
    int is_whole;
} written;

static const written cases[] = {
    /* RFC 8949, appendix A */
    {"0", "00", 1}, {"1", "01", 1}, {"10", "0a", 1}, {"23", "17", 1}, {"24", "1818", 1}, {"25", "1819", 1}, {"100", "1864", 1},
    {"255", "18ff", 1}, {"256", "190100", 1}, {"1000", "1903e8", 1}, {"65535", "19ffff", 1}, {"65536", "1a00010000", 1},
    {"1000000", "1a000f4240", 1}, {"4294967295", "1affffffff", 1}, {"4294967296", "1b0000000100000000", 1},
    {"1000000000000", "1b000000e8d4a51000", 1}, {"9223372036854775807", "1b7fffffffffffffff", 1}, {"-1", "20", 1}, {"-10", "29", 1},
    {"-24", "37", 1}, {"-25", "3818", 1}, {"-100", "3863", 1}, {"-256", "38ff", 1}, {"-257", "390100", 1}, {"-1000", "3903e7", 1},
    {"-9223372036854775808", "3b7fffffffffffffff", 1}, {"false", "f4", 1}, {"true", "f5", 1}, {"null", "f6", 1}, {"h", "40", 1},
    {"h01020304", "4401020304", 1}, {"\"", "60", 1}, {"\"a", "6161", 1}, {"\"IETF", "6449455446", 1}, {"%c3bc", "62c3bc", 1},
    {"%e6b0b4", "63e6b0b4", 1}, {"%f0908591", "64f0908591", 1}, {"[0", "80", 1}, {"[3 1 2 3", "83010203", 1},
    {"[3 1 [2 2 3 [2 4 5", "8301820203820405", 1}, {"{0", "a0", 1}, {"{2 1 2 3 4", "a201020304", 1},
    {"{2 \"a 1 \"b [2 2 3", "a26161016162820203", 1}, {"[2 \"a {1 \"b \"c", "826161a161626163", 1},
    {"{5 \"a \"A \"b \"B \"c \"C \"d \"D \"e \"E", "a56161614161626142616361436164614461656145", 1},
    {"[25 1 2 3 4 5 6 7 8 9 10 11 12 13 14 15 16 17 18 19 20 21 22 23 24 25",
        "98190102030405060708090a0b0c0d0e0f101112131415161718181819", 1},
    /* strings of 23 and 24 bytes */
    {"h0102030405060708090a0b0c0d0e0f1011121314151617", "570102030405060708090a0b0c0d0e0f1011121314151617", 1},
    {"h0102030405060708090a0b0c0d0e0f101112131415161718", "58180102030405060708090a0b0c0d0e0f101112131415161718", 1},
    {"\"abcdefghijklmnopqrstuvwx", "78186162636465666768696a6b6c6d6e6f707172737475767778", 1},
    /* a response of authenticatorClientPIN with a key (CTAP 2.1, section 6.5.5.4), one of authenticatorGetInfo (section 6.4) */
    {"{1 1 =a501020338182001214101224102", "a101a501020338182001214101224102", 1},
    {"{3 1 [2 \"FIDO_2_0 \"U2F_V2 3 h000102030405060708090a0b0c0d0e0f 4 {2 \"rk true \"up false",
        "a30182684649444f5f325f30665532465f56320350000102030405060708090a0b0c0d0e0f04a262726bf5627570f4", 1},
    /* keys by major type, then by length, then by their bytes */
    {"{3 24 null -1 null \"a null", "a31818f620f66161f6", 1}, {"{2 -1 null 24 null", "a220f61818f6", 0},
    {"{2 \"b null \"aa null", "a26162f6626161f6", 1}, {"{2 \"aa null \"b null", "a2626161f66162f6", 0},
    {"{2 \"a null \"b null", "a26161f66162f6", 1}, {"{2 \"b null \"a null", "a26162f66161f6", 0}, {"{2 1 null 1 null", "a201f601f6", 0},
    {"{2 h00 1 \"a 2", "a2410001616102", 1}, {"{2 \"a 2 h00 1", "a2616102410001", 0}, {"{2 \"a 3 [1 0 2", "a2616103810002", 1},
    {"{2 [1 0 2 \"a 3", "a2810002616103", 0}, {"[1 {2 2 0 1 0", "81a202000100", 0},
    /* nothing, too few, too many, two items */
    {"", "", 0}, {"[2 1", "8201", 0}, {"{1 1", "a101", 0}, {"[1 1 2", "810102", 0}, {"1 2", "0102", 0},
    {"{18446744073709551615", "bbffffffffffffffff", 0}, {"[18446744073709551615", "9bffffffffffffffff", 0},
    /* what isn't UTF-8, and what isn't a canonical item; nothing is written after it */
    {"%ff", "", 0}, {"[2 %c3 1", "82", 0}, {"=", "", 0}, {"=1800", "", 0}, {"=0000", "", 0}, {"[2 =f7 1", "82", 0}, {"[1 =c000", "81", 0},
    {"=ff", "", 0}, {"=a202010102", "", 0}, {"=a201020304", "a201020304", 1}, {"[2 =1818 =80", "82181880", 1},
};

static unsigned digit(char it) { return it <= '9' ? (unsigned)(it - '0') : (unsigned)(it - 'a') + 10; }

/* A buffer of exactly so many bytes; of one where there are none, since the pointer must not be null. */
static uint8_t *buffer(size_t len) {
    uint8_t *it = malloc(len ? len : 1);
    if (!it) exit(255);
    return it;
}

static uint8_t *read_hex(const char *hex, size_t *len) {
    uint8_t *it;
    size_t k;
    *len = strlen(hex) / 2;
    it = buffer(*len);
    for (k = 0; k < *len; k++) it[k] = (uint8_t)(digit(hex[2 * k]) * 16 + digit(hex[2 * k + 1]));
    return it;
}

static puffgrit_bool call(const char *word, uint8_t *out, size_t room, size_t *len) {
    uint8_t *bytes;
    size_t size;
    puffgrit_bool done;
    if (!strcmp(word, "null")) return puffgrit_write_null(out, room, len);
    if (!strcmp(word, "true")) return puffgrit_write_bool(out, room, len, 1);
    if (!strcmp(word, "false")) return puffgrit_write_bool(out, room, len, 0);
    if (*word == '{') return puffgrit_write_map(out, room, len, strtoull(word + 1, NULL, 10));
    if (*word == '[') return puffgrit_write_array(out, room, len, strtoull(word + 1, NULL, 10));
    if (*word == '"') return puffgrit_write_text(out, room, len, (const uint8_t *)word + 1, strlen(word + 1));
    if (*word != 'h' && *word != '%' && *word != '=') return puffgrit_write_int(out, room, len, strtoll(word, NULL, 10));
    bytes = read_hex(word + 1, &size);
    if (*word == 'h') done = puffgrit_write_bytes(out, room, len, bytes, size);
    else if (*word == '%') done = puffgrit_write_text(out, room, len, bytes, size);
    else done = puffgrit_write_item(out, room, len, bytes, size);
    free(bytes);
    return done;
}

/* Makes the calls over a buffer with this room; whether what they do is what is wanted. */
static int is_right(const written *it, size_t room) {
    size_t wanted_len, len = 0, before, k;
    uint8_t *wanted = read_hex(it->hex, &wanted_len), *out = buffer(room);
    char *words = malloc(strlen(it->calls) + 1), *word;
    int right = 1, failed = 0;
    if (!words) exit(255);
    memset(out, 0xA5, room ? room : 1);
    strcpy(words, it->calls);
    for (word = strtok(words, " "); word; word = strtok(NULL, " ")) {
        puffgrit_bool done;
        before = len;
        done = call(word, out, room, &len);
        if (done ? failed || len <= before || len > room : len != SIZE_MAX) right = 0;
        if (!done) failed = 1;
    }
    /* what was written is a front of what is wanted, and nothing else has changed */
    before = failed ? 0 : len;
    if (!failed && len != wanted_len) right = 0;
    for (k = 0; k < room && k < wanted_len && out[k] == wanted[k]; k++) continue;
    if (k < before) right = 0;
    for (; k < room; k++)
        if (out[k] != 0xA5) right = 0;
    if (puffgrit_write_end(out, room, len) != (!failed && it->is_whole)) right = 0;
    if (it->is_whole && failed != (room < wanted_len)) right = 0;
    free(words);
    free(wanted);
    free(out);
    return right;
}

int main(void) {
    size_t k, room;
    int wrong = 0;
    for (k = 0; k < sizeof cases / sizeof *cases; k++)
        for (room = 0; room <= strlen(cases[k].hex) / 2 + 2; room++)
            if (!is_right(&cases[k], room)) {
                fprintf(stderr, "writer: %s in %zu bytes\n", cases[k].calls, room);
                wrong++;
            }
    return wrong > 100 ? 100 : wrong;
}
