/* The peers of bench/run, from Debian's packages libcbor-dev and libfido2-dev.
   peers CALL ROUNDS reads a data item on standard input, makes the call so many times over its bytes,
   and prints how many of the calls succeeded.

   item        libcbor: decodes the item into a tree, and frees it
   item-again  the same, and encodes the tree
   info        libfido2: decodes an authenticatorGetInfo response, which a device of the program's own answers
   credential  libfido2: decodes the authenticator data and the attestation statement of an
               authenticatorMakeCredential response, each from its encoding */
#include <cbor.h>
#include <fido.h>
#include <stdio.h>
#include <stdlib.h>
#include <string.h>

enum { INIT = 6, ITEM_MOST = 1 << 25 };

static unsigned char bytes[ITEM_MOST], reply[4096], nonce[8];
static size_t size;

static void *open_device(const char *path) { (void)path; return nonce; }
static void close_device(void *device) { (void)device; }
static int no_read(void *device, unsigned char *to, size_t len, int ms) { (void)device, (void)to, (void)len, (void)ms; return -1; }
static int no_write(void *device, const unsigned char *from, size_t len) { (void)device, (void)from, (void)len; return -1; }

/* What the device is sent: the nonce of its initialization is kept, and nothing else. */
static int sent(fido_dev_t *device, uint8_t command, const unsigned char *from, size_t len) {
    (void)device;
    if (command == INIT && len == sizeof nonce) memcpy(nonce, from, len);
    return 0;
}

/* What it answers: that it knows CTAP2 (CTAP 2.1, section 11.2.9.1.3), and its response. */
static int answered(fido_dev_t *device, uint8_t command, unsigned char *to, size_t len, int ms) {
    (void)device, (void)ms;
    if (command == INIT) {
        if (len < 17) return -1;
        memset(to, 0, 17);
        memcpy(to, nonce, sizeof nonce);
        to[11] = 1, to[12] = 2, to[16] = 4;
        return 17;
    }
    if (len < size + 1) return -1;
    memcpy(to, reply, size + 1);
    return (int)(size + 1);
}

static fido_dev_t *device(void) {
    fido_dev_io_t io = {open_device, close_device, no_read, no_write};
    fido_dev_transport_t transport = {answered, sent};
    fido_dev_t *it = fido_dev_new();
    if (!it || size >= sizeof reply) exit(3);
    memcpy(reply + 1, bytes, size);
    if (fido_dev_set_io_functions(it, &io) || fido_dev_set_transport_functions(it, &transport) || fido_dev_open(it, "bench")) exit(4);
    return it;
}

static long info(long rounds) {
    fido_dev_t *it = device();
    long done = 0;
    for (; rounds > 0; rounds--) {
        fido_cbor_info_t *told = fido_cbor_info_new();
        done += fido_dev_get_cbor_info(it, told) == FIDO_OK;
        fido_cbor_info_free(&told);
    }
    return done;
}

static size_t encoded(const cbor_item_t *value, unsigned char **to) {
    size_t room;
    return cbor_serialize_alloc(value, to, &room);
}

static long credential(long rounds) {
    struct cbor_load_result result;
    cbor_item_t *message = cbor_load(bytes, size, &result);
    if (!message || cbor_map_size(message) < 3) exit(3);
    struct cbor_pair *members = cbor_map_handle(message);
    unsigned char *data, *statement;
    size_t data_len = encoded(members[1].value, &data), statement_len = encoded(members[2].value, &statement);
    long done = 0;
    for (; rounds > 0; rounds--) {
        fido_cred_t *it = fido_cred_new();
        fido_cred_set_type(it, COSE_ES256);
        fido_cred_set_fmt(it, "packed");
        done += !fido_cred_set_authdata(it, data, data_len) && !fido_cred_set_attstmt(it, statement, statement_len);
        fido_cred_free(&it);
    }
    return done;
}

static long item(long rounds, int again) {
    long done = 0;
    for (; rounds > 0; rounds--) {
        struct cbor_load_result result;
        cbor_item_t *it = cbor_load(bytes, size, &result);
        if (!it) continue;
        if (again) {
            unsigned char *written;
            if (encoded(it, &written)) done++;
            free(written);
        } else {
            done++;
        }
        cbor_decref(&it);
    }
    return done;
}

int main(int argc, char **argv) {
    if (argc != 3) return 2;
    size = fread(bytes, 1, sizeof bytes, stdin);
    long rounds = atol(argv[2]), done;
    fido_init(0);
    if (!strcmp(argv[1], "item")) done = item(rounds, 0);
    else if (!strcmp(argv[1], "item-again")) done = item(rounds, 1);
    else if (!strcmp(argv[1], "info")) done = info(rounds);
    else if (!strcmp(argv[1], "credential")) done = credential(rounds);
    else return 2;
    printf("%ld\n", done);
    return done == rounds ? 0 : 1;
}
