/* What the C of wasm_to_c.py calls. Each part is written into a made file if something in it names the part. */

/* Addresses are numbers of 64 bits: those of pointers. */
#define AT(address) ((uint8_t *)(uintptr_t)(address))

#define ADDRESS(pointer) ((uint64_t)(uintptr_t)(pointer))

#define DATA ADDRESS(&data)

/* The code takes the data, and each frame, to begin at a multiple of 16. */
#if defined(__GNUC__)
#define ALIGNED __attribute__((aligned(16)))
#elif defined(__STDC_VERSION__) && __STDC_VERSION__ >= 201112L
#define ALIGNED _Alignas(16)
#else
#define ALIGNED
#endif

/* An address in the data: 8 bytes, the lowest first, which no initializer can say where the highest is first. */
#if defined(__BYTE_ORDER__) && __BYTE_ORDER__ != __ORDER_LITTLE_ENDIAN__
#error "this file is for little-endian machines; puffgrit_look.c is for all"
#elif UINTPTR_MAX > 0xffffffffu
typedef struct { const uint8_t *at; } InData;
#define IN_DATA(offset) {(const uint8_t *)&data + (offset)}
#else
typedef struct { const uint8_t *at; uint32_t zero; } InData;
#define IN_DATA(offset) {(const uint8_t *)&data + (offset), 0}
#endif

/* A frame of so many bytes on the stack. Where an array can't be asked to begin at a multiple of 16, it is 16 bytes longer. */
#if defined(__GNUC__)
#define FRAME(name, bytes) uint64_t name[(bytes) / 8] ALIGNED
#define FRAME_AT(name) ADDRESS(name)
#else
#define FRAME(name, bytes) uint64_t name[(bytes) / 8 + 2]
#define FRAME_AT(name) ((ADDRESS(name) + 15u) & ~(uint64_t)15)
#endif

/* What is never reached. */
#if defined(__GNUC__)
#define TRAP() __builtin_trap()
#else
#define TRAP() for (;;) {}
#endif

/* Memory is little-endian, on each machine. Where it is that anyway, a number is read as one, from any address. */
#if defined(__GNUC__) && defined(__BYTE_ORDER__) && __BYTE_ORDER__ == __ORDER_LITTLE_ENDIAN__
#define READS_NUMBERS
typedef struct { uint16_t number; } __attribute__((packed, may_alias)) Two;
typedef struct { uint32_t number; } __attribute__((packed, may_alias)) Four;
typedef struct { uint64_t number; } __attribute__((packed, may_alias)) Eight;
#endif

static inline uint32_t ld8(uint64_t at) { return *AT(at); }

static inline uint32_t ld16(uint64_t at) {
#if defined(READS_NUMBERS)
    return ((const Two *)(const void *)AT(at))->number;
#else
    return ld8(at) | ld8(at + 1) << 8;
#endif
}

static inline uint32_t ld32(uint64_t at) {
#if defined(READS_NUMBERS)
    return ((const Four *)(const void *)AT(at))->number;
#else
    return ld8(at) | ld8(at + 1) << 8 | ld8(at + 2) << 16 | ld8(at + 3) << 24;
#endif
}

static inline uint64_t ld64(uint64_t at) {
#if defined(READS_NUMBERS)
    return ((const Eight *)(const void *)AT(at))->number;
#else
    uint64_t number = 0;
    int k;
    for (k = 7; k >= 0; k--) number = number << 8 | *AT(at + (uint64_t)k);
    return number;
#endif
}

static inline void st8(uint64_t at, uint64_t number) { *AT(at) = (uint8_t)number; }

static inline void st16(uint64_t at, uint64_t number) {
#if defined(READS_NUMBERS)
    ((Two *)(void *)AT(at))->number = (uint16_t)number;
#else
    *AT(at) = (uint8_t)number;
    *AT(at + 1) = (uint8_t)(number >> 8);
#endif
}

static inline void st32(uint64_t at, uint64_t number) {
#if defined(READS_NUMBERS)
    ((Four *)(void *)AT(at))->number = (uint32_t)number;
#else
    unsigned k;
    for (k = 0; k < 4; k++) *AT(at + k) = (uint8_t)(number >> 8 * k);
#endif
}

static inline void st64(uint64_t at, uint64_t number) {
#if defined(READS_NUMBERS)
    ((Eight *)(void *)AT(at))->number = number;
#else
    unsigned k;
    for (k = 0; k < 8; k++) *AT(at + k) = (uint8_t)(number >> 8 * k);
#endif
}

static inline void copy(uint64_t to, uint64_t from, uint64_t length) {
    uint64_t k;
    if (to <= from) {
        for (k = 0; k < length; k++) *AT(to + k) = *AT(from + k);
    } else {
        for (k = length; k > 0; k--) *AT(to + k - 1) = *AT(from + k - 1);
    }
}

static inline void fill(uint64_t to, uint32_t byte, uint64_t length) {
    for (; length > 0; length--) *AT(to + length - 1) = (uint8_t)byte;
}

/* Numbers have no sign in C here, so that none overflows; these read the highest bit as one. */
static inline int less_s32(uint32_t a, uint32_t b) { return (a ^ 0x80000000u) < (b ^ 0x80000000u); }

static inline int less_s64(uint64_t a, uint64_t b) { return (a ^ (uint64_t)1 << 63) < (b ^ (uint64_t)1 << 63); }

static inline uint32_t shr_s32(uint32_t a, uint32_t n) { return a >> 31 ? ~(~a >> (n & 31)) : a >> (n & 31); }

static inline uint64_t shr_s64(uint64_t a, uint64_t n) { return a >> 63 ? ~(~a >> (n & 63)) : a >> (n & 63); }

static inline uint32_t extend8_32(uint32_t a) { return ((a & 0xff) ^ 0x80) - 0x80; }

static inline uint32_t extend16_32(uint32_t a) { return ((a & 0xffff) ^ 0x8000) - 0x8000; }

static inline uint64_t extend8_64(uint64_t a) { return ((a & 0xff) ^ 0x80) - 0x80; }

static inline uint64_t extend16_64(uint64_t a) { return ((a & 0xffff) ^ 0x8000) - 0x8000; }

static inline uint64_t extend32_64(uint64_t a) { return ((a & 0xffffffff) ^ 0x80000000) - 0x80000000; }

static inline uint32_t rotl32(uint32_t a, uint32_t n) { return a << (n & 31) | a >> (-n & 31); }

static inline uint64_t rotl64(uint64_t a, uint64_t n) { return a << (n & 63) | a >> (-n & 63); }

static inline uint32_t rotr32(uint32_t a, uint32_t n) { return a >> (n & 31) | a << (-n & 31); }

static inline uint64_t rotr64(uint64_t a, uint64_t n) { return a >> (n & 63) | a << (-n & 63); }

static inline uint32_t popcnt32(uint32_t a) {
    uint32_t n = 0;
    for (; a != 0; a &= a - 1) n++;
    return n;
}

static inline uint64_t popcnt64(uint64_t a) {
    uint64_t n = 0;
    for (; a != 0; a &= a - 1) n++;
    return n;
}

static inline uint64_t ctz64(uint64_t a) {
#if defined(__GNUC__)
    return a == 0 ? 64 : (uint64_t)__builtin_ctzll(a);
#else
    uint64_t n = 0;
    for (; n < 64 && (a & 1) == 0; a >>= 1) n++;
    return n;
#endif
}

static inline uint32_t ctz32(uint32_t a) { return (uint32_t)ctz64(a | (uint64_t)1 << 32); }

static inline uint64_t clz64(uint64_t a) {
#if defined(__GNUC__)
    return a == 0 ? 64 : (uint64_t)__builtin_clzll(a);
#else
    uint64_t n = 64;
    for (; a != 0; a >>= 1) n--;
    return n;
#endif
}

static inline uint32_t clz32(uint32_t a) { return (uint32_t)clz64(a) - 32; }

/* Division by 0, or with a result that is too large, is never reached. */
static inline uint32_t div_u32(uint32_t a, uint32_t b) { return a / b; }

static inline uint64_t div_u64(uint64_t a, uint64_t b) { return a / b; }

static inline uint32_t rem_u32(uint32_t a, uint32_t b) { return a % b; }

static inline uint64_t rem_u64(uint64_t a, uint64_t b) { return a % b; }

static inline uint64_t div_s64(uint64_t a, uint64_t b) {
    uint64_t n = (a >> 63 ? -a : a) / (b >> 63 ? -b : b);
    return (a ^ b) >> 63 ? -n : n;
}

static inline uint64_t rem_s64(uint64_t a, uint64_t b) {
    uint64_t n = (a >> 63 ? -a : a) % (b >> 63 ? -b : b);
    return a >> 63 ? -n : n;
}

static inline uint32_t div_s32(uint32_t a, uint32_t b) { return (uint32_t)div_s64(extend32_64(a), extend32_64(b)); }

static inline uint32_t rem_s32(uint32_t a, uint32_t b) { return (uint32_t)rem_s64(extend32_64(a), extend32_64(b)); }

/* A float is the number of its bits (IEEE 754), which float and double have in C too. Each operation is rounded to a double by itself: so
   no result is kept with more precision, and no two operations are done at once. */
#if defined(__FLT_EVAL_METHOD__) && (__FLT_EVAL_METHOD__ == 2 || __FLT_EVAL_METHOD__ < 0)
#error "a double is rounded twice here; gcc for x86 has -msse2 -mfpmath=sse"
#endif
#define ROUNDED(number) volatile double rounded = (number); return f64_bits(rounded)

static inline float f32_of(uint32_t bits) {
    union { uint32_t bits; float number; } it;
    it.bits = bits;
    return it.number;
}

static inline double f64_of(uint64_t bits) {
    union { uint64_t bits; double number; } it;
    it.bits = bits;
    return it.number;
}

static inline uint32_t f32_bits(float number) {
    union { uint32_t bits; float number; } it;
    it.number = number;
    return it.bits;
}

static inline uint64_t f64_bits(double number) {
    union { uint64_t bits; double number; } it;
    it.number = number;
    return it.bits;
}

static inline uint64_t add_f64(uint64_t a, uint64_t b) { ROUNDED(f64_of(a) + f64_of(b)); }

static inline uint64_t sub_f64(uint64_t a, uint64_t b) { ROUNDED(f64_of(a) - f64_of(b)); }

static inline uint64_t mul_f64(uint64_t a, uint64_t b) { ROUNDED(f64_of(a) * f64_of(b)); }

static inline uint64_t div_f64(uint64_t a, uint64_t b) { ROUNDED(f64_of(a) / f64_of(b)); }

static inline uint64_t convert_i64_u(uint64_t a) { return f64_bits((double)a); }

static inline uint64_t convert_i64_s(uint64_t a) { return f64_bits(a >> 63 ? -(double)-a : (double)a); }

static inline uint64_t convert_i32_u(uint32_t a) { return f64_bits((double)a); }

static inline uint64_t convert_i32_s(uint32_t a) { return convert_i64_s(extend32_64(a)); }

static inline uint64_t promote_f32(uint32_t a) { return f64_bits(f32_of(a)); }

static inline uint32_t demote_f64(uint64_t a) { return f32_bits((float)f64_of(a)); }

/* The heap is C's, or what a program names. Where an address has 32 bits, malloc may return a multiple of 8, and the code takes a block to
   begin at a multiple of 16; PUFFGRIT_MALLOC_ALIGNS says that it does. */
#if !defined(PUFFGRIT_MALLOC)
#include <stdlib.h>
#define PUFFGRIT_MALLOC malloc
#define PUFFGRIT_REALLOC realloc
#define PUFFGRIT_FREE free
#endif
#if !defined(PUFFGRIT_MALLOC_ALIGNS) && UINTPTR_MAX > 0xffffffffu
#define PUFFGRIT_MALLOC_ALIGNS
#endif

/* A block of so many bytes, or 0. Before one that was moved to a multiple of 16 stands the address that malloc returned. */
static inline uint64_t heap_get(uint64_t bytes) {
#if defined(PUFFGRIT_MALLOC_ALIGNS)
    return bytes > PTRDIFF_MAX ? 0 : ADDRESS(PUFFGRIT_MALLOC((size_t)bytes));
#else
    uint64_t got, at;
    if (bytes > PTRDIFF_MAX - 32) return 0;
    got = ADDRESS(PUFFGRIT_MALLOC((size_t)bytes + 32u));
    if (got == 0) return 0;
    at = (got + 31u) & ~(uint64_t)15;
    st64(at - 8, got);
    return at;
#endif
}

static inline void heap_free(uint64_t at) {
#if defined(PUFFGRIT_MALLOC_ALIGNS)
    PUFFGRIT_FREE(AT(at));
#else
    PUFFGRIT_FREE(AT(ld64(at - 8)));
#endif
}

static inline uint64_t heap_resize(uint64_t at, uint64_t kept, uint64_t bytes) {
#if defined(PUFFGRIT_MALLOC_ALIGNS)
    (void)kept;
    return bytes > PTRDIFF_MAX ? 0 : ADDRESS(PUFFGRIT_REALLOC(AT(at), (size_t)bytes));
#else
    uint64_t got = heap_get(bytes);
    if (got == 0) return 0;
    copy(got, at, kept < bytes ? kept : bytes);
    heap_free(at);
    return got;
#endif
}

/* What the code asks of the heap. The answer is whether there is memory, and where; an address that is none's if there isn't. */
static inline void heap_answer(uint64_t to, uint64_t got) {
    static const uint8_t none = 0;
    st64(to, got != 0);
    st64(to + 8, got != 0 ? got : ADDRESS(&none));
}

static inline void rattle_alloc(uint64_t to, uint64_t bytes, uint64_t align) { heap_answer(to, heap_get(bytes != 0 ? bytes : align)); }

static inline void rattle_realloc(uint64_t to, uint64_t at, uint64_t kept, uint64_t bytes, uint64_t align) {
    heap_answer(to, heap_resize(at, kept, bytes != 0 ? bytes : align));
}

static inline void rattle_dealloc(uint64_t at) { heap_free(at); }
