/* What LLVM calls by name for numbers of 128 bits on WebAssembly, which has no instruction for them; tools/portable.py links what a module
   needs. Nothing here may be a product or a shift of 128 bits itself, which would be a call of the same function. */
typedef unsigned long long Half;
typedef unsigned __int128 Whole;

typedef union {
    Whole whole;
    struct { Half low, high; } half;
} Wide;

Whole __multi3(Whole a, Whole b);
Whole __ashlti3(Whole a, int count);
Whole __lshrti3(Whole a, int count);
Whole __ashrti3(Whole a, int count);

/* The product's lowest 128 bits, by products of 32 bits each. */
Whole __multi3(Whole a, Whole b) {
    Wide x = {a}, y = {b}, product;
    const Half most = 0xffffffffu;
    const Half low = (x.half.low & most) * (y.half.low & most);
    const Half first = (x.half.low >> 32) * (y.half.low & most) + (low >> 32);
    const Half second = (x.half.low & most) * (y.half.low >> 32) + (first & most);
    product.half.low = second << 32 | (low & most);
    product.half.high = (x.half.low >> 32) * (y.half.low >> 32) + (first >> 32) + (second >> 32);
    product.half.high += x.half.low * y.half.high + x.half.high * y.half.low;
    return product.whole;
}

/* Shifts by 0 to 127. `>> 1 >> (63 - count)` is a shift by 64 - count that is defined for 0, too. */
Whole __ashlti3(Whole a, int count) {
    Wide x = {a}, made;
    const int rest = count & 63;
    made.half.low = count & 64 ? 0 : x.half.low << rest;
    made.half.high = count & 64 ? x.half.low << rest : x.half.high << rest | x.half.low >> 1 >> (63 - rest);
    return made.whole;
}

static Whole right(Wide x, Half sign, Half high, int count) {
    Wide made;
    const int rest = count & 63;
    made.half.low = count & 64 ? high : x.half.low >> rest | x.half.high << 1 << (63 - rest);
    made.half.high = count & 64 ? sign : high;
    return made.whole;
}

Whole __lshrti3(Whole a, int count) {
    Wide x = {a};
    return right(x, 0, x.half.high >> (count & 63), count);
}

Whole __ashrti3(Whole a, int count) {
    Wide x = {a};
    const long long high = (long long)x.half.high;
    return right(x, (Half)(high >> 63), (Half)(high >> (count & 63)), count);
}
