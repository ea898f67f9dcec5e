/* Products and shifts of 128 bits, which the compiler takes from a library. Not proved. */
typedef unsigned long long u64;
typedef unsigned __int128 u128;

/* A number of 128 bits by its halves. */
union halves {
    u128 whole;
    struct {
        u64 low, high;
    };
};

/* The product of two numbers of 64 bits, from those of their halves. */
static union halves product(u64 one, u64 other) {
    u64 a = one >> 32, b = one & 0xffffffff, c = other >> 32, d = other & 0xffffffff;
    u64 middle = a * d + (b * d >> 32);
    u64 carry = (middle & 0xffffffff) + b * c;
    union halves found;
    found.low = one * other;
    found.high = a * c + (middle >> 32) + (carry >> 32);
    return found;
}

u128 __multi3(u128 one, u128 other) {
    union halves a = {one}, b = {other};
    union halves found = product(a.low, b.low);
    found.high += a.low * b.high + a.high * b.low;
    return found.whole;
}

u128 __lshrti3(u128 number, int bits) {
    union halves a = {number}, found = a;
    if (bits >= 64) {
        found.low = a.high >> (bits - 64);
        found.high = 0;
    } else if (bits > 0) {
        found.low = a.low >> bits | a.high << (64 - bits);
        found.high = a.high >> bits;
    }
    return found.whole;
}

u128 __ashlti3(u128 number, int bits) {
    union halves a = {number}, found = a;
    if (bits >= 64) {
        found.high = a.low << (bits - 64);
        found.low = 0;
    } else if (bits > 0) {
        found.high = a.high << bits | a.low >> (64 - bits);
        found.low = a.low << bits;
    }
    return found.whole;
}
