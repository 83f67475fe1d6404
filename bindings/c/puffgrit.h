/* puffgrit.h: messages of CTAP2 and WebAuthn, decoded, checked and encoded again, and data items of CBOR and authenticator data,
   looked at in place and written, by proved code. Made by tools/header.

   - THE POINTER OF A BUFFER MUST NOT BE NULL, even for no bytes. A buffer has at most SSIZE_MAX bytes, no other thread writes it
     during a call, and no output overlaps it or another output.
   - No call has a state, calls back, aborts, or loops without end, and nothing is to be freed. Calls may be made from any thread.
   - puffgrit_rewrite, puffgrit_json, puffgrit_explain, puffgrit_values and puffgrit_encode allocate, by rattle_alloc, rattle_realloc and
     rattle_dealloc, which stand for malloc, realloc and free in the library. A program that is linked with libpuffgrit.a may have its
     own, but all three (as Puffgrit's bindings/c/heap.c): else the linker finds one twice. libpuffgrit.so always calls the library's.
     The other calls call no function of C, and may be made from a signal handler.
   - A call that finds nothing returns false, and leaves its output as it was.
   - A call that looks at a data item looks at all of it: it takes as long as puffgrit_item_len. No proof covers the stack: over arrays,
     maps and tags of 256 levels puffgrit_rewrite of libpuffgrit took up to 140 KiB, the other calls that allocate 168,
     puffgrit_is_canonical, puffgrit_not_canonical, puffgrit_write_item and puffgrit_write_end 68, and the others 10; README.md
     has the figures of puffgrit.c.
   - A data item is in CTAP2's canonical form (CTAP 2.1, section 8) if its heads are as short as they can be, its lengths definite, the
     keys of each map in ascending order, and neither a tag nor undefined is in it; a float may have any width. puffgrit_rewrite writes
     the shortest heads, definite lengths, null for undefined, and a message's own members in order. What it keeps as a data item keeps
     its tags and its map keys in their order: an input of the kind cbor, attestation statements, COSE keys, certifications, parameters
     of authenticatorConfig, and extension outputs. So what it writes is canonical if these are.
   - libpuffgrit is for Linux on x86-64, on any such processor: it uses no extension but SSE2. puffgrit_look.c has the calls that take no
     memory as C99 for any other processor. */
#ifndef PUFFGRIT_H
#define PUFFGRIT_H

#include <stddef.h>
#include <stdint.h>

/* The version of this interface, which puffgrit_version returns of the library. */
#define PUFFGRIT_VERSION 3u

#ifdef __cplusplus
extern "C" {
typedef bool puffgrit_bool;
#elif defined(__STDC_VERSION__) && __STDC_VERSION__ >= 202311L
typedef bool puffgrit_bool;
#elif defined(__STDC_VERSION__) && __STDC_VERSION__ >= 199901L
typedef _Bool puffgrit_bool;
#else
typedef unsigned char puffgrit_bool; /* 0 or 1 */
#endif

/* The types of data items: the major types (RFC 8949, section 3.1), and one for floats. */
#define PUFFGRIT_UNSIGNED 0u
#define PUFFGRIT_NEGATIVE 1u
#define PUFFGRIT_BYTES 2u
#define PUFFGRIT_TEXT 3u
#define PUFFGRIT_ARRAY 4u
#define PUFFGRIT_MAP 5u
#define PUFFGRIT_TAG 6u
#define PUFFGRIT_SIMPLE 7u
#define PUFFGRIT_FLOAT 8u

/* The numbers of simple values. */
#define PUFFGRIT_FALSE 20u
#define PUFFGRIT_TRUE 21u
#define PUFFGRIT_NULL 22u

/* The number of a string, an array or a map of indefinite length. */
#define PUFFGRIT_INDEFINITE UINT64_MAX

/* The kinds of input. */
#define PUFFGRIT_KIND_CBOR 1u
#define PUFFGRIT_KIND_AUTH 2u
#define PUFFGRIT_KIND_MC_REQUEST 3u
#define PUFFGRIT_KIND_MC_RESPONSE 4u
#define PUFFGRIT_KIND_GA_REQUEST 5u
#define PUFFGRIT_KIND_GA_RESPONSE 6u
#define PUFFGRIT_KIND_INFO 7u
#define PUFFGRIT_KIND_HMAC_INPUT 8u
#define PUFFGRIT_KIND_CREATION 9u
#define PUFFGRIT_KIND_REQUEST 10u
#define PUFFGRIT_KIND_CREATED 11u
#define PUFFGRIT_KIND_AUTHENTICATED 12u
#define PUFFGRIT_KIND_CLIENT_DATA 13u
#define PUFFGRIT_KIND_PIN_REQUEST 14u
#define PUFFGRIT_KIND_PIN_RESPONSE 15u
#define PUFFGRIT_KIND_BIO_REQUEST 16u
#define PUFFGRIT_KIND_BIO_RESPONSE 17u
#define PUFFGRIT_KIND_CM_REQUEST 18u
#define PUFFGRIT_KIND_CM_RESPONSE 19u
#define PUFFGRIT_KIND_LB_REQUEST 20u
#define PUFFGRIT_KIND_LB_RESPONSE 21u
#define PUFFGRIT_KIND_LB_ENTRY 22u
#define PUFFGRIT_KIND_CFG_REQUEST 23u
#define PUFFGRIT_KIND_CFG_MIN_PIN_LENGTH 24u
#define PUFFGRIT_KIND_CFG_VENDOR 25u
#define PUFFGRIT_KIND_COSE_KEY 26u
#define PUFFGRIT_KIND_INFO_23 27u
#define PUFFGRIT_KIND_MC_INPUTS 28u
#define PUFFGRIT_KIND_MC_OUTPUTS 29u
#define PUFFGRIT_KIND_MC_UNSIGNED 30u
#define PUFFGRIT_KIND_GA_INPUTS 31u
#define PUFFGRIT_KIND_GA_OUTPUTS 32u
#define PUFFGRIT_KIND_GA_UNSIGNED 33u
#define PUFFGRIT_KIND_ATT_PACKED 34u
#define PUFFGRIT_KIND_ATT_TPM 35u
#define PUFFGRIT_KIND_ATT_ANDROID_KEY 36u
#define PUFFGRIT_KIND_ATT_ANDROID_SAFETYNET 37u
#define PUFFGRIT_KIND_ATT_FIDO_U2F 38u
#define PUFFGRIT_KIND_ATT_NONE 39u
#define PUFFGRIT_KIND_ATT_APPLE 40u
#define PUFFGRIT_KIND_ATT_COMPOUND 41u
#define PUFFGRIT_KIND_TPM_CERT_INFO 42u
#define PUFFGRIT_KIND_TPM_PUB_AREA 43u
#define PUFFGRIT_KIND_CTAP_MC_REQUEST 44u
#define PUFFGRIT_KIND_CTAP_GA_REQUEST 45u
#define PUFFGRIT_KIND_CTAP_MC_RESPONSE 46u
#define PUFFGRIT_KIND_CTAP_GA_RESPONSE 47u
#define PUFFGRIT_KIND_ATTESTATION_OBJECT 48u

/* What may be added to a kind's number, to ask for more than that the kind accepts the input (puffgrit_rewrite). */
#define PUFFGRIT_CANONICAL_ONLY 0x100u
#define PUFFGRIT_FOUR_LEVELS 0x200u
#define PUFFGRIT_ALL_BYTES 0x400u

/* The statuses of calls that decode. A fault's status is in the first byte, and in the second the number of its member, or of the
   rule that is broken. */
#define PUFFGRIT_OK 0u
#define PUFFGRIT_TOO_SHORT 1u
#define PUFFGRIT_OUT_OF_MEMORY 2u
#define PUFFGRIT_UNKNOWN_KIND 3u
#define PUFFGRIT_FAULT_DECODE_FAILED 16u
#define PUFFGRIT_FAULT_NOT_A_MAP 17u
#define PUFFGRIT_FAULT_NOT_AN_OBJECT 17u
#define PUFFGRIT_FAULT_BAD_KEY 18u
#define PUFFGRIT_FAULT_REPEATED 19u
#define PUFFGRIT_FAULT_REFUSED 20u
#define PUFFGRIT_FAULT_MISSING 21u
#define PUFFGRIT_FAULT_OUT_OF_RANGE_INTEGER_VALUE 22u
#define PUFFGRIT_FAULT_DUPLICATE_MAP_KEY 23u
#define PUFFGRIT_FAULT_UNEXPECTED_ITEM 24u
#define PUFFGRIT_FAULT_FLOAT 25u
#define PUFFGRIT_FAULT_BAD_JSON 26u
#define PUFFGRIT_FAULT_NO_ITEM 27u
#define PUFFGRIT_FAULT_NOT_CANONICAL 28u
#define PUFFGRIT_STATUS_OF(returned) ((returned) & 255u)
#define PUFFGRIT_MEMBER_OF(returned) ((returned) >> 8)

/* The rules of CTAP2's canonical form (CTAP 2.2, section 8). */
#define PUFFGRIT_CANONICAL 0u
#define PUFFGRIT_RULE_WELL_FORMED 1u
#define PUFFGRIT_RULE_SHORTEST_HEAD 2u
#define PUFFGRIT_RULE_DEFINITE_LENGTH 3u
#define PUFFGRIT_RULE_NO_TAG 4u
#define PUFFGRIT_RULE_NO_UNDEFINED 5u
#define PUFFGRIT_RULE_ASCENDING_KEYS 6u
#define PUFFGRIT_RULE_DISTINCT_KEYS 7u
#define PUFFGRIT_RULE_LEVELS 8u
#define PUFFGRIT_RULE_NOTHING_AFTER 9u

/* Which bytes of an input are refused. */
typedef struct {
    /* The offset of the first byte: of a data item, a map key or a part that is refused, or of where the bytes aren't
       well-formed; 0 of a JSON text. */
    size_t offset;
    /* Their number: the length of the data item, the map key or the part, or all bytes from there on. */
    size_t len;
} puffgrit_refusal;

/* A data item in bytes (RFC 8949, section 3). */
typedef struct {
    /* The number in the item's head: the integer n, or n of the integer -1 - n; the bytes of a string, the elements of
       an array, or the pairs of a map, and PUFFGRIT_INDEFINITE if the length is indefinite; a tag's number; a simple
       value; or a float's bits. */
    uint64_t number;
    /* The offset of the item's first byte. */
    size_t from;
    /* The offset after its head: of a string's first byte or chunk, of an array's first element, of a map's first key,
       or of a tag's content. */
    size_t content;
    /* The offset after its last byte. */
    size_t end;
    /* Its major type, 0 to 7; 8 for a float. */
    uint32_t kind;
} puffgrit_item;

/* The parts of authenticator data, by their offsets; 0 for a part that is absent (WebAuthn Level 3, sections 6.1 and
   6.5.1). The relying party id's hash is the first 32 bytes. */
typedef struct {
    /* The AAGUID, 16 bytes. */
    size_t aaguid;
    /* The credential id. */
    size_t credential_id;
    /* The length of the credential id in bytes. */
    size_t credential_id_len;
    /* The credential public key, a COSE key: a map with numbers as keys. */
    size_t public_key;
    /* The map of extension outputs, with texts as keys. */
    size_t extensions;
    /* The offset after the last part. */
    size_t end;
    /* The signature counter. */
    uint32_t counter;
    /* The flags: UP 1, UV 4, BE 8, BS 16, AT 64, ED 128. */
    uint32_t flags;
} puffgrit_auth_data;

/* Writes what this kind accepts at the beginning of the input as JSON that stands for it, so that puffgrit_encode
   encodes it again, changed or not: to the beginning of out, and the JSON's length to len; and to read how many bytes of
   the input that is. A message's members have their names, and those that its table hasn't stay. Integers, texts, arrays
   and objects are themselves, and byte strings base64url without padding where the table wants bytes; what JSON can't
   say otherwise is an object of one member, as {"$bytes": "AQ"} or {"$cbor": "f93e00"}. Authenticator data are an object
   of their parts, a COSE key one of its parameters by their names, a structure of a TPM is base64url, and a JSON text as
   puffgrit_rewrite writes it. passkey_inspect --values prints the same. puffgrit_json is for people, and drops what this
   keeps. Returns what puffgrit_rewrite returns, with the same faults, and leaves out, len and read as it does. (RFC
   8949; RFC 8259; RFC 9052, section 7; WebAuthn Level 3, section 6.1; CTAP 2.1, section 6.) */
uint32_t puffgrit_values(uint32_t kind, const uint8_t *input, size_t input_len, size_t *read, uint8_t *out, size_t out_len, size_t *len);

/* Decodes the input as this kind, encodes the result again, in CTAP2's canonical form or as compact JSON, and writes it
   to the beginning of out and its length to len; and to read how many bytes of the input were decoded: those of the data
   item or the message at its beginning, as puffgrit_item_len counts them; those of authenticator data up to the end of
   their last part; or all of a JSON text or a structure of a TPM. Bytes after these are ignored, unless
   PUFFGRIT_ALL_BYTES is added to the kind. Returns PUFFGRIT_OK then; PUFFGRIT_TOO_SHORT, with the length that is needed
   in len, if the output has fewer bytes; PUFFGRIT_OUT_OF_MEMORY if an allocation fails; PUFFGRIT_UNKNOWN_KIND; or why
   the input is rejected: its first fault, from PUFFGRIT_FAULT_DECODE_FAILED on, and in the second byte the number of the
   member that it is about (PUFFGRIT_MEMBER_OF). out stays as it was but for PUFFGRIT_OK, and so do len and read but for
   PUFFGRIT_OK and PUFFGRIT_TOO_SHORT. All memory that was allocated is freed. What is added to the kind asks for more of
   an input that the kind accepts: PUFFGRIT_CANONICAL_ONLY that its data item is in CTAP2's canonical form;
   PUFFGRIT_FOUR_LEVELS that arrays, maps and tags are inside one another at no more than four levels; and
   PUFFGRIT_ALL_BYTES that no bytes follow. Of authenticator data, structures of a TPM and JSON texts, which aren't one
   data item, only the last is asked. If it isn't so, PUFFGRIT_FAULT_NOT_CANONICAL is returned, with the first rule that
   is broken in the second byte, as PUFFGRIT_RULE_NO_TAG. (CTAP 2.2, sections 6 and 8; WebAuthn Level 3, sections 5 to
   8.) */
uint32_t puffgrit_rewrite(uint32_t kind, const uint8_t *input, size_t input_len, size_t *read, uint8_t *out, size_t out_len, size_t *len);

/* The version of this interface: 3. A call or a struct that changes raises it. */
uint32_t puffgrit_version(void);

/* Decodes the input as this kind, and writes what is in it as compact JSON to the beginning of out, and the JSON's
   length to len; and to read how many bytes of the input were decoded, as puffgrit_rewrite does. The members of
   messages, the parts of authenticator data and the parameters of keys, also of those inside messages, are written by
   their names, byte strings in base64url without padding, AAGUIDs as UUIDs, algorithms and flags by their names. What no
   table divides, such as an attestation statement, is written by its elements and members, and a member that the
   message's table hasn't under its key; keys that are no text, floats, tags and simple values are strings in diagnostic
   notation (RFC 8949, section 8). passkey_inspect --json prints the same. Of a JSON text it writes what puffgrit_rewrite
   does. The kinds are all but attestation statements and structures of a TPM. Returns what puffgrit_rewrite returns,
   with the same faults, and leaves out, len and read as it does. (CTAP 2.1, section 6; WebAuthn Level 3, section 6.1.) */
uint32_t puffgrit_json(uint32_t kind, const uint8_t *input, size_t input_len, size_t *read, uint8_t *out, size_t out_len, size_t *len);

/* Explains why the input is refused as this kind. Returns PUFFGRIT_OK if it is accepted, with how many of its bytes were
   decoded in read, as puffgrit_rewrite; the status of its fault, as puffgrit_rewrite; PUFFGRIT_OUT_OF_MEMORY if an
   allocation fails; or PUFFGRIT_UNKNOWN_KIND. For a fault refusal says which bytes are refused: of a message the
   innermost data item, or map key, that its table refuses; of authenticator data the part, or what in the credential
   public key; of a COSE key the label or the value that is no key's; of an attestation statement the data item or map
   key that its format refuses; of a structure of a TPM the field; or the bytes from where they aren't well-formed; of a
   JSON text all of it; and of what isn't as the flags ask (see puffgrit_rewrite) the data item or the map key that
   breaks the rule, or the trailing bytes. And a text is written to the beginning of out, or as much of it as there is
   room for, and its whole length to len. It says where these bytes are and what is wanted there, as "user.id: a byte
   string is wanted (offset 58, length 10)"; of a JSON text it names the value, as "publicKey.timeout: an integer from 0
   to 4294967295 is wanted". It is ASCII, but for the names of members in a JSON text that no record knows, which are
   UTF-8. Otherwise nothing is written. (CTAP 2.1, section 6; RFC 8949, section 3; WebAuthn Level 3, sections 5, 6.1 and
   8.) */
uint32_t puffgrit_explain(uint32_t kind, const uint8_t *input, size_t input_len, size_t *read, puffgrit_refusal *refusal, uint8_t *out, size_t out_len, size_t *len);

/* Encodes what the JSON stands for as this kind: writes what puffgrit_rewrite writes of that input to the beginning of
   out, and its length to len. The JSON is what puffgrit_values writes, changed, or written by hand: members may have
   their names or numbers, authenticator data and COSE keys their parts or one string, white space and numbers may be
   written in any way, and what the table hasn't isn't encoded. Returns PUFFGRIT_OK then; PUFFGRIT_TOO_SHORT, with the
   length that is needed in len, if the output has fewer bytes; PUFFGRIT_OUT_OF_MEMORY if an allocation fails;
   PUFFGRIT_UNKNOWN_KIND; PUFFGRIT_FAULT_BAD_JSON if the text isn't JSON in UTF-8 of at most 128 levels;
   PUFFGRIT_FAULT_NO_ITEM if a value in it is no data item, or no byte string where one is wanted; or the fault with
   which the kind refuses the input, as puffgrit_rewrite. out stays as it was but for PUFFGRIT_OK, and so does len but
   for PUFFGRIT_OK and PUFFGRIT_TOO_SHORT. For PUFFGRIT_FAULT_NO_ITEM, and where a message's table refuses the data item,
   a text is written to the beginning of why, or as much of it as there is room for, and its whole length to why_size: by
   its names which value is refused, and what is wanted there, as "permissions: an unsigned integer below 4294967296 is
   wanted", or "member 2 is missing". It is UTF-8, with names as they are in the JSON. Otherwise these stay as they were.
   (RFC 8259; RFC 8949; CTAP 2.1, sections 6 and 8.) */
uint32_t puffgrit_encode(uint32_t kind, const uint8_t *json, size_t json_len, uint8_t *out, size_t out_len, size_t *len, uint8_t *why, size_t why_len, size_t *why_size);

/* Appends the head of a map of so many members, each of which is to be appended next, its key before its value, in
   CTAP2's order (major type 5). len is the length of what stands in out so far, 0 at first, and grows by what is
   appended. Returns true then. If there is no room for all of it, returns false, leaves out as it was, and sets len to
   SIZE_MAX, with which each later call returns false, too: so it is enough to look at what puffgrit_write_end returns.
   Never writes beyond out, nor over what stands in it. (RFC 8949, section 3.1; CTAP 2.1, section 8.) */
puffgrit_bool puffgrit_write_map(uint8_t *out, size_t out_len, size_t *len, uint64_t members);

/* Appends the head of an array of so many elements, which are to be appended next (major type 4), as puffgrit_write_map
   does. */
puffgrit_bool puffgrit_write_array(uint8_t *out, size_t out_len, size_t *len, uint64_t elements);

/* Appends an integer (major types 0 and 1), as puffgrit_write_map does. */
puffgrit_bool puffgrit_write_int(uint8_t *out, size_t out_len, size_t *len, int64_t value);

/* Appends a byte string (major type 2), as puffgrit_write_map does. */
puffgrit_bool puffgrit_write_bytes(uint8_t *out, size_t out_len, size_t *len, const uint8_t *bytes, size_t bytes_len);

/* Appends a text string (major type 3), as puffgrit_write_map does. Fails, too, if the bytes aren't UTF-8. */
puffgrit_bool puffgrit_write_text(uint8_t *out, size_t out_len, size_t *len, const uint8_t *text, size_t text_len);

/* Appends false or true (major type 7), as puffgrit_write_map does. */
puffgrit_bool puffgrit_write_bool(uint8_t *out, size_t out_len, size_t *len, puffgrit_bool value);

/* Appends null (major type 7), as puffgrit_write_map does. */
puffgrit_bool puffgrit_write_null(uint8_t *out, size_t out_len, size_t *len);

/* Appends a data item that is encoded, such as a COSE key, as puffgrit_write_map does. Fails, too, if the bytes aren't
   exactly one data item of at most 256 levels in CTAP2's canonical form. */
puffgrit_bool puffgrit_write_item(uint8_t *out, size_t out_len, size_t *len, const uint8_t *item, size_t item_len);

/* Returns whether the calls before have all returned true, and what stands in out is exactly one data item of at most
   256 levels in CTAP2's canonical form: each array and map has its elements and members, and the keys of each map
   ascend. (CTAP 2.1, section 8.) */
puffgrit_bool puffgrit_write_end(const uint8_t *out, size_t out_len, size_t len);

/* Returns the length in bytes of the data item at the beginning of the bytes, or 0 if they don't begin with a
   well-formed item of at most 256 levels. An item has at least one byte. (RFC 8949, section 3.) */
size_t puffgrit_item_len(const uint8_t *bytes, size_t bytes_len);

/* Returns whether the bytes are exactly one data item of at most 256 levels in CTAP2's canonical form. (CTAP 2.1,
   section 8.) */
puffgrit_bool puffgrit_is_canonical(const uint8_t *bytes, size_t bytes_len);

/* Writes the data item at the offset into item and returns true. Returns false, and leaves item as it was, if no
   well-formed item of at most 256 levels is there. Bytes after the item are ignored. (RFC 8949, section 3.) */
puffgrit_bool puffgrit_item_at(const uint8_t *bytes, size_t bytes_len, size_t offset, puffgrit_item *item);

/* Writes the value of the first member with this integer as its key, in the map at the offset, into value and returns
   true. Returns false, and leaves value as it was, if no well-formed map of at most 256 levels is there, or it has no
   such member. The key may be encoded in any way. */
puffgrit_bool puffgrit_member(const uint8_t *bytes, size_t bytes_len, size_t map, int64_t key, puffgrit_item *value);

/* Writes the value of the first member with this text as its key, in the map at the offset, into value and returns true.
   Returns false, and leaves value as it was, if no well-formed map of at most 256 levels is there, it has no such
   member, or the name isn't UTF-8. The key may be encoded in any way. */
puffgrit_bool puffgrit_named(const uint8_t *bytes, size_t bytes_len, size_t map, const uint8_t *name, size_t name_len, puffgrit_item *value);

/* Returns whether the bytes begin as the client data that a client writes for this type (webauthn.create or
   webauthn.get), these bytes of the challenge, this origin and this top origin, which is empty unless the ceremony is in
   a frame of another origin. Other members may follow. If the top origin isn't required, clients of WebAuthn Level 2,
   which don't write it, pass too. JSON isn't parsed. Returns false if a string isn't UTF-8. (WebAuthn Level 3, section
   5.8.1.2.) */
puffgrit_bool puffgrit_is_client_data(const uint8_t *bytes, size_t bytes_len, const uint8_t *ty, size_t ty_len, const uint8_t *challenge, size_t challenge_len, const uint8_t *origin, size_t origin_len, const uint8_t *top_origin, size_t top_origin_len, puffgrit_bool requires_top_origin);

/* Returns PUFFGRIT_CANONICAL, which is 0, if the bytes are exactly one data item in CTAP2's canonical form, with arrays
   and maps inside one another at no more than so many levels (4 in messages), and at most 256. Else writes the offset of
   the first head that breaks a rule to offset, and returns the rule, from PUFFGRIT_RULE_WELL_FORMED on; of a key that
   isn't in its place the offset is the key's, and of trailing bytes that of the first. Leaves offset as it was if the
   bytes are canonical. (CTAP 2.2, section 8.) */
uint32_t puffgrit_not_canonical(const uint8_t *bytes, size_t bytes_len, size_t levels, size_t *offset);

/* Writes the parts of the authenticator data at the beginning of the bytes into parts and returns true. Returns false,
   and leaves parts as it was, if a part that the flags announce is cut off, or isn't a well-formed map of at most 256
   levels where one belongs. Bytes after the last part are ignored. Neither reserved flags nor the members of the maps
   are checked. (WebAuthn Level 3, section 6.1.) */
puffgrit_bool puffgrit_auth_parts(const uint8_t *bytes, size_t bytes_len, puffgrit_auth_data *parts);

/* The numbers of messages' members, for puffgrit_member (CTAP 2.1, section 6). */

/* mc-request */
#define PUFFGRIT_MC_REQUEST_CLIENT_DATA_HASH 1
#define PUFFGRIT_MC_REQUEST_RP 2
#define PUFFGRIT_MC_REQUEST_USER 3
#define PUFFGRIT_MC_REQUEST_PUB_KEY_CRED_PARAMS 4
#define PUFFGRIT_MC_REQUEST_EXCLUDE_LIST 5
#define PUFFGRIT_MC_REQUEST_EXTENSIONS 6
#define PUFFGRIT_MC_REQUEST_OPTIONS 7
#define PUFFGRIT_MC_REQUEST_PIN_UV_AUTH_PARAM 8
#define PUFFGRIT_MC_REQUEST_PIN_UV_AUTH_PROTOCOL 9

/* mc-response */
#define PUFFGRIT_MC_RESPONSE_FMT 1
#define PUFFGRIT_MC_RESPONSE_AUTH_DATA 2
#define PUFFGRIT_MC_RESPONSE_ATT_STMT 3
#define PUFFGRIT_MC_RESPONSE_EP_ATT 4
#define PUFFGRIT_MC_RESPONSE_LARGE_BLOB_KEY 5
#define PUFFGRIT_MC_RESPONSE_UNSIGNED_EXTENSION_OUTPUTS 6

/* ga-request */
#define PUFFGRIT_GA_REQUEST_RP_ID 1
#define PUFFGRIT_GA_REQUEST_CLIENT_DATA_HASH 2
#define PUFFGRIT_GA_REQUEST_ALLOW_LIST 3
#define PUFFGRIT_GA_REQUEST_EXTENSIONS 4
#define PUFFGRIT_GA_REQUEST_OPTIONS 5
#define PUFFGRIT_GA_REQUEST_PIN_UV_AUTH_PARAM 6
#define PUFFGRIT_GA_REQUEST_PIN_UV_AUTH_PROTOCOL 7

/* ga-response */
#define PUFFGRIT_GA_RESPONSE_CREDENTIAL 1
#define PUFFGRIT_GA_RESPONSE_AUTH_DATA 2
#define PUFFGRIT_GA_RESPONSE_SIGNATURE 3
#define PUFFGRIT_GA_RESPONSE_USER 4
#define PUFFGRIT_GA_RESPONSE_NUMBER_OF_CREDENTIALS 5
#define PUFFGRIT_GA_RESPONSE_USER_SELECTED 6
#define PUFFGRIT_GA_RESPONSE_LARGE_BLOB_KEY 7
#define PUFFGRIT_GA_RESPONSE_UNSIGNED_EXTENSION_OUTPUTS 8

/* info */
#define PUFFGRIT_INFO_VERSIONS 1
#define PUFFGRIT_INFO_EXTENSIONS 2
#define PUFFGRIT_INFO_AAGUID 3
#define PUFFGRIT_INFO_OPTIONS 4
#define PUFFGRIT_INFO_MAX_MSG_SIZE 5
#define PUFFGRIT_INFO_PIN_UV_AUTH_PROTOCOLS 6
#define PUFFGRIT_INFO_TRANSPORTS 9
#define PUFFGRIT_INFO_ALGORITHMS 10
#define PUFFGRIT_INFO_MAX_SERIALIZED_LARGE_BLOB_ARRAY 11
#define PUFFGRIT_INFO_FORCE_PIN_CHANGE 12
#define PUFFGRIT_INFO_MIN_PIN_LENGTH 13
#define PUFFGRIT_INFO_FIRMWARE_VERSION 14
#define PUFFGRIT_INFO_MAX_CRED_BLOB_LENGTH 15
#define PUFFGRIT_INFO_MAX_RP_IDS_FOR_SET_MIN_PIN_LENGTH 16
#define PUFFGRIT_INFO_PREFERRED_PLATFORM_UV_ATTEMPTS 17
#define PUFFGRIT_INFO_UV_MODALITY 18
#define PUFFGRIT_INFO_CERTIFICATIONS 19
#define PUFFGRIT_INFO_REMAINING_DISCOVERABLE_CREDENTIALS 20
#define PUFFGRIT_INFO_VENDOR_PROTOTYPE_CONFIG_COMMANDS 21
#define PUFFGRIT_INFO_ATTESTATION_FORMATS 22
#define PUFFGRIT_INFO_UV_COUNT_SINCE_LAST_PIN_ENTRY 23
#define PUFFGRIT_INFO_LONG_TOUCH_FOR_RESET 24
#define PUFFGRIT_INFO_ENC_IDENTIFIER 25
#define PUFFGRIT_INFO_TRANSPORTS_FOR_RESET 26
#define PUFFGRIT_INFO_PIN_COMPLEXITY_POLICY 27
#define PUFFGRIT_INFO_PIN_COMPLEXITY_POLICY_URL 28
#define PUFFGRIT_INFO_MAX_PIN_LENGTH 29

/* pin-request */
#define PUFFGRIT_PIN_REQUEST_PIN_UV_AUTH_PROTOCOL 1
#define PUFFGRIT_PIN_REQUEST_SUB_COMMAND 2
#define PUFFGRIT_PIN_REQUEST_KEY_AGREEMENT 3
#define PUFFGRIT_PIN_REQUEST_PIN_UV_AUTH_PARAM 4
#define PUFFGRIT_PIN_REQUEST_NEW_PIN_ENC 5
#define PUFFGRIT_PIN_REQUEST_PIN_HASH_ENC 6
#define PUFFGRIT_PIN_REQUEST_PERMISSIONS 9
#define PUFFGRIT_PIN_REQUEST_RP_ID 10

/* pin-response */
#define PUFFGRIT_PIN_RESPONSE_KEY_AGREEMENT 1
#define PUFFGRIT_PIN_RESPONSE_PIN_UV_AUTH_TOKEN 2
#define PUFFGRIT_PIN_RESPONSE_PIN_RETRIES 3
#define PUFFGRIT_PIN_RESPONSE_POWER_CYCLE_STATE 4
#define PUFFGRIT_PIN_RESPONSE_UV_RETRIES 5

/* bio-request */
#define PUFFGRIT_BIO_REQUEST_MODALITY 1
#define PUFFGRIT_BIO_REQUEST_SUB_COMMAND 2
#define PUFFGRIT_BIO_REQUEST_SUB_COMMAND_PARAMS 3
#define PUFFGRIT_BIO_REQUEST_PIN_UV_AUTH_PROTOCOL 4
#define PUFFGRIT_BIO_REQUEST_PIN_UV_AUTH_PARAM 5
#define PUFFGRIT_BIO_REQUEST_GET_MODALITY 6

/* bio-response */
#define PUFFGRIT_BIO_RESPONSE_MODALITY 1
#define PUFFGRIT_BIO_RESPONSE_FINGERPRINT_KIND 2
#define PUFFGRIT_BIO_RESPONSE_MAX_CAPTURE_SAMPLES_REQUIRED_FOR_ENROLL 3
#define PUFFGRIT_BIO_RESPONSE_TEMPLATE_ID 4
#define PUFFGRIT_BIO_RESPONSE_LAST_ENROLL_SAMPLE_STATUS 5
#define PUFFGRIT_BIO_RESPONSE_REMAINING_SAMPLES 6
#define PUFFGRIT_BIO_RESPONSE_TEMPLATE_INFOS 7
#define PUFFGRIT_BIO_RESPONSE_MAX_TEMPLATE_FRIENDLY_NAME 8

/* cm-request */
#define PUFFGRIT_CM_REQUEST_SUB_COMMAND 1
#define PUFFGRIT_CM_REQUEST_SUB_COMMAND_PARAMS 2
#define PUFFGRIT_CM_REQUEST_PIN_UV_AUTH_PROTOCOL 3
#define PUFFGRIT_CM_REQUEST_PIN_UV_AUTH_PARAM 4

/* cm-response */
#define PUFFGRIT_CM_RESPONSE_EXISTING_RESIDENT_CREDENTIALS_COUNT 1
#define PUFFGRIT_CM_RESPONSE_MAX_POSSIBLE_REMAINING_RESIDENT_CREDENTIALS_COUNT 2
#define PUFFGRIT_CM_RESPONSE_RP 3
#define PUFFGRIT_CM_RESPONSE_RP_ID_HASH 4
#define PUFFGRIT_CM_RESPONSE_TOTAL_RPS 5
#define PUFFGRIT_CM_RESPONSE_USER 6
#define PUFFGRIT_CM_RESPONSE_CREDENTIAL_ID 7
#define PUFFGRIT_CM_RESPONSE_PUBLIC_KEY 8
#define PUFFGRIT_CM_RESPONSE_TOTAL_CREDENTIALS 9
#define PUFFGRIT_CM_RESPONSE_CRED_PROTECT 10
#define PUFFGRIT_CM_RESPONSE_LARGE_BLOB_KEY 11
#define PUFFGRIT_CM_RESPONSE_THIRD_PARTY_PAYMENT 12

/* lb-request */
#define PUFFGRIT_LB_REQUEST_GET 1
#define PUFFGRIT_LB_REQUEST_SET 2
#define PUFFGRIT_LB_REQUEST_OFFSET 3
#define PUFFGRIT_LB_REQUEST_LENGTH 4
#define PUFFGRIT_LB_REQUEST_PIN_UV_AUTH_PARAM 5
#define PUFFGRIT_LB_REQUEST_PIN_UV_AUTH_PROTOCOL 6

/* lb-response */
#define PUFFGRIT_LB_RESPONSE_CONFIG 1

/* cfg-request */
#define PUFFGRIT_CFG_REQUEST_SUB_COMMAND 1
#define PUFFGRIT_CFG_REQUEST_SUB_COMMAND_PARAMS 2
#define PUFFGRIT_CFG_REQUEST_PIN_UV_AUTH_PROTOCOL 3
#define PUFFGRIT_CFG_REQUEST_PIN_UV_AUTH_PARAM 4

/* Names of CTAP 2.0, and of earlier versions of this header. */
#define PUFFGRIT_MC_REQUEST_PIN_AUTH PUFFGRIT_MC_REQUEST_PIN_UV_AUTH_PARAM
#define PUFFGRIT_MC_REQUEST_PIN_PROTOCOL PUFFGRIT_MC_REQUEST_PIN_UV_AUTH_PROTOCOL
#define PUFFGRIT_GA_REQUEST_PIN_AUTH PUFFGRIT_GA_REQUEST_PIN_UV_AUTH_PARAM
#define PUFFGRIT_GA_REQUEST_PIN_PROTOCOL PUFFGRIT_GA_REQUEST_PIN_UV_AUTH_PROTOCOL
#define PUFFGRIT_INFO_PIN_PROTOCOLS PUFFGRIT_INFO_PIN_UV_AUTH_PROTOCOLS
#define PUFFGRIT_INFO_MAC_SERIALIZED_LARGE_BLOB_ARRAY PUFFGRIT_INFO_MAX_SERIALIZED_LARGE_BLOB_ARRAY
#define PUFFGRIT_INFO_MAX_RPIDS_FOR_SET_MIN_PIN_LENGTH PUFFGRIT_INFO_MAX_RP_IDS_FOR_SET_MIN_PIN_LENGTH
#define PUFFGRIT_CM_RESPONSE_RP_IDHASH PUFFGRIT_CM_RESPONSE_RP_ID_HASH

#ifdef __cplusplus
}
#endif

#endif
