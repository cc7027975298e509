// What guests/lower calls in place of each instruction on floats, of the memory in bulk, and of conversions that saturate: a
// function by the instruction's name. A double is its bits here, a uint64_t. The arithmetic is compiler-rt's, which works on
// whole numbers. In this file the compiler itself emits no instruction on floats but those that keep the bits, and no function
// has locals in memory, data or globals, so each can stand in any module.
#include <stdint.h>

#define INSTRUCTION(name) __attribute__((export_name(name)))

enum { BITS_BEHIND = 52, BIAS = 1023 };
static const uint64_t SIGN_64 = 1ull << 63, INFINITY_64 = 0x7ffull << BITS_BEHIND, ONE_64 = 0x3ffull << BITS_BEHIND;
static const uint32_t SIGN_32 = 1u << 31, INFINITY_32 = 0xffu << 23;
// The one NaN of what is lowered: every operation that answers a NaN answers this one.
static const uint64_t NAN_64 = 0x7ff8ull << 48;
static const uint32_t NAN_32 = 0x7fc0u << 16;

static double double_of(uint64_t bits) {
    double value;
    __builtin_memcpy(&value, &bits, sizeof value);
    return value;
}

static float float_of(uint32_t bits) {
    float value;
    __builtin_memcpy(&value, &bits, sizeof value);
    return value;
}

static int is_nan_64(uint64_t bits) {
    return (bits & ~SIGN_64) > INFINITY_64;
}

static int is_nan_32(uint32_t bits) {
    return (bits & ~SIGN_32) > INFINITY_32;
}

static uint64_t bits_of_double(double value) {
    uint64_t bits;
    __builtin_memcpy(&bits, &value, sizeof bits);
    return is_nan_64(bits) ? NAN_64 : bits;
}

static uint32_t bits_of_float(float value) {
    uint32_t bits;
    __builtin_memcpy(&bits, &value, sizeof bits);
    return is_nan_32(bits) ? NAN_32 : bits;
}

// ---- Arithmetic and comparisons, by compiler-rt ----

#define ARITHMETIC(name)                                                                   \
    double __##name##df3(double, double);                                                  \
    float __##name##sf3(float, float);                                                     \
    INSTRUCTION("f64." #name) uint64_t f64_##name(uint64_t a, uint64_t b) {                \
        return bits_of_double(__##name##df3(double_of(a), double_of(b)));                  \
    }                                                                                      \
    INSTRUCTION("f32." #name) uint32_t f32_##name(uint32_t a, uint32_t b) {                \
        return bits_of_float(__##name##sf3(float_of(a), float_of(b)));                     \
    }
ARITHMETIC(add)
ARITHMETIC(sub)
ARITHMETIC(mul)
ARITHMETIC(div)

// Each answers a number that is compared with 0, and of a NaN one for which the comparison does not hold.
#define COMPARISON(name, sign)                                                                                             \
    int __##name##df2(double, double);                                                                                     \
    int __##name##sf2(float, float);                                                                                       \
    INSTRUCTION("f64." #name) uint32_t f64_##name(uint64_t a, uint64_t b) { return __##name##df2(double_of(a), double_of(b)) sign 0; } \
    INSTRUCTION("f32." #name) uint32_t f32_##name(uint32_t a, uint32_t b) { return __##name##sf2(float_of(a), float_of(b)) sign 0; }
COMPARISON(eq, ==)
COMPARISON(ne, !=)
COMPARISON(lt, <)
COMPARISON(gt, >)
COMPARISON(le, <=)
COMPARISON(ge, >=)

// ---- Those that only look at the bits ----

INSTRUCTION("f64.abs") uint64_t f64_abs(uint64_t a) {
    return a & ~SIGN_64;
}

INSTRUCTION("f32.abs") uint32_t f32_abs(uint32_t a) {
    return a & ~SIGN_32;
}

INSTRUCTION("f64.neg") uint64_t f64_neg(uint64_t a) {
    return a ^ SIGN_64;
}

INSTRUCTION("f32.neg") uint32_t f32_neg(uint32_t a) {
    return a ^ SIGN_32;
}

INSTRUCTION("f64.copysign") uint64_t f64_copysign(uint64_t a, uint64_t b) {
    return (a & ~SIGN_64) | (b & SIGN_64);
}

INSTRUCTION("f32.copysign") uint32_t f32_copysign(uint32_t a, uint32_t b) {
    return (a & ~SIGN_32) | (b & SIGN_32);
}

// Numbers in the order of the values, -0 before 0.
static int64_t order_64(uint64_t a) {
    return (int64_t)(a & SIGN_64 ? ~a | SIGN_64 : a);
}

static int32_t order_32(uint32_t a) {
    return (int32_t)(a & SIGN_32 ? ~a | SIGN_32 : a);
}

INSTRUCTION("f64.min") uint64_t f64_min(uint64_t a, uint64_t b) {
    return is_nan_64(a) || is_nan_64(b) ? NAN_64 : order_64(a) < order_64(b) ? a : b;
}

INSTRUCTION("f64.max") uint64_t f64_max(uint64_t a, uint64_t b) {
    return is_nan_64(a) || is_nan_64(b) ? NAN_64 : order_64(a) > order_64(b) ? a : b;
}

INSTRUCTION("f32.min") uint32_t f32_min(uint32_t a, uint32_t b) {
    return is_nan_32(a) || is_nan_32(b) ? NAN_32 : order_32(a) < order_32(b) ? a : b;
}

INSTRUCTION("f32.max") uint32_t f32_max(uint32_t a, uint32_t b) {
    return is_nan_32(a) || is_nan_32(b) ? NAN_32 : order_32(a) > order_32(b) ? a : b;
}

// ---- Between the two widths ----

double __extendsfdf2(float);
float __truncdfsf2(double);

INSTRUCTION("f64.promote_f32") uint64_t f64_promote_f32(uint32_t a) {
    return bits_of_double(__extendsfdf2(float_of(a)));
}

INSTRUCTION("f32.demote_f64") uint32_t f32_demote_f64(uint64_t a) {
    return bits_of_float(__truncdfsf2(double_of(a)));
}

// ---- Rounding to a whole number ----

enum way { TOWARDS_ZERO, DOWN, UP, NEAREST };

static int exponent_of(uint64_t a) {
    return (int)(a >> BITS_BEHIND & 0x7ff) - BIAS;
}

// What lies between -1 and 1, and is not 0.
static uint64_t rounded_part(uint64_t a, enum way way) {
    uint64_t sign = a & SIGN_64;
    // Half of 1 goes to 0, which is even.
    int is_one = way == DOWN ? sign != 0 : way == UP ? sign == 0 : way == NEAREST && (a & ~SIGN_64) > ONE_64 - (1ull << BITS_BEHIND);
    return sign | (is_one ? ONE_64 : 0);
}

static uint64_t rounded(uint64_t a, enum way way) {
    int exponent = exponent_of(a);
    if (is_nan_64(a))
        return NAN_64;
    if (exponent >= BITS_BEHIND || (a & ~SIGN_64) == 0)
        return a;
    if (exponent < 0)
        return rounded_part(a, way);
    // The bit that counts 1. Where that is the first one, before the point, the exponent's lowest bit stands at its place, which is set.
    uint64_t one = 1ull << (BITS_BEHIND - exponent), part = a & (one - 1), whole = a - part;
    if (part == 0)
        return a;
    int goes_away = way == DOWN ? a >= SIGN_64 : way == UP ? a < SIGN_64 : way == NEAREST && (part > one / 2 || (part == one / 2 && (whole & one)));
    return goes_away ? whole + one : whole;
}

// Each float is a double, and what is whole as a double is whole as a float.
#define ROUNDING(name, way)                                                                            \
    INSTRUCTION("f64." #name) uint64_t f64_##name(uint64_t a) { return rounded(a, way); }              \
    INSTRUCTION("f32." #name) uint32_t f32_##name(uint32_t a) { return f32_demote_f64(rounded(f64_promote_f32(a), way)); }
ROUNDING(trunc, TOWARDS_ZERO)
ROUNDING(floor, DOWN)
ROUNDING(ceil, UP)
ROUNDING(nearest, NEAREST)

// ---- The square root ----

// The bits of a number from 1 to below 4, with 52 behind the point: its root has 1 bit before the point, 52 behind it and one more,
// which rounds. Bit by bit: `bit` is in the root where the square of what is so far and it is not above the number.
static uint64_t root_of(uint64_t number) {
    uint64_t root = 0, twice = 0, rest = number << 1;
    for (uint64_t bit = 1ull << (BITS_BEHIND + 1); bit != 0; bit >>= 1) {
        uint64_t square = twice + bit;
        if (square <= rest) {
            twice = square + bit;
            rest -= square;
            root += bit;
        }
        rest <<= 1;
    }
    // A root that lies just between two numbers of 53 bits has no rest, and there is none.
    return (root + (rest != 0 ? root & 1 : 0)) >> 1;
}

INSTRUCTION("f64.sqrt") uint64_t f64_sqrt(uint64_t a) {
    if (is_nan_64(a) || a > SIGN_64)
        return NAN_64;
    if ((a & ~SIGN_64) == 0 || a == INFINITY_64)
        return a;
    int exponent = exponent_of(a);
    uint64_t digits = a & ((1ull << BITS_BEHIND) - 1);
    if (exponent == -BIAS) {
        int missing = __builtin_clzll(digits) - (63 - BITS_BEHIND);
        digits <<= missing;
        exponent = 1 - BIAS - missing;
    } else {
        digits |= 1ull << BITS_BEHIND;
    }
    if (exponent & 1) {
        digits <<= 1;
        exponent -= 1;
    }
    // The root's first bit adds 1 to the exponent.
    return ((uint64_t)(exponent / 2 + BIAS - 1) << BITS_BEHIND) + root_of(digits);
}

// A double has more than twice the bits of a float and two, so rounding twice is rounding once.
INSTRUCTION("f32.sqrt") uint32_t f32_sqrt(uint32_t a) {
    return f32_demote_f64(f64_sqrt(f64_promote_f32(a)));
}

// ---- From whole numbers, by compiler-rt ----

#define CONVERSION(from, type, letters)                                                                                              \
    double __float##letters##df(type);                                                                                               \
    float __float##letters##sf(type);                                                                                                \
    INSTRUCTION("f64.convert_" #from) uint64_t f64_convert_##from(type a) { return bits_of_double(__float##letters##df(a)); } \
    INSTRUCTION("f32.convert_" #from) uint32_t f32_convert_##from(type a) { return bits_of_float(__float##letters##sf(a)); }
CONVERSION(i32_s, int32_t, si)
CONVERSION(i32_u, uint32_t, unsi)
CONVERSION(i64_s, int64_t, di)
CONVERSION(i64_u, uint64_t, undi)

// ---- To whole numbers ----

// The whole number of a double, from `least` to `most` without their sign: those beyond, and a NaN, trap or are the nearest one.
static uint64_t whole_of(uint64_t a, uint64_t least, uint64_t most, int saturates) {
    int exponent = exponent_of(a);
    if (is_nan_64(a)) {
        if (!saturates)
            __builtin_trap();
        return 0;
    }
    if (exponent < 0)
        return 0;
    int is_negative = a >= SIGN_64;
    uint64_t bound = is_negative ? least : most, size = UINT64_MAX;
    uint64_t digits = (a & ((1ull << BITS_BEHIND) - 1)) | 1ull << BITS_BEHIND;
    if (exponent < 64)
        size = exponent <= BITS_BEHIND ? digits >> (BITS_BEHIND - exponent) : digits << (exponent - BITS_BEHIND);
    if (exponent >= 64 || size > bound) {
        if (!saturates)
            __builtin_trap();
        size = bound;
    }
    return is_negative ? 0 - size : size;
}

#define TO_WHOLE(to, type, sign, least, most)                                                                                        \
    INSTRUCTION(#to ".trunc_f64_" #sign) type to##_trunc_f64_##sign(uint64_t a) { return (type)whole_of(a, least, most, 0); }         \
    INSTRUCTION(#to ".trunc_f32_" #sign) type to##_trunc_f32_##sign(uint32_t a) { return to##_trunc_f64_##sign(f64_promote_f32(a)); } \
    INSTRUCTION(#to ".trunc_sat_f64_" #sign) type to##_trunc_sat_f64_##sign(uint64_t a) { return (type)whole_of(a, least, most, 1); } \
    INSTRUCTION(#to ".trunc_sat_f32_" #sign) type to##_trunc_sat_f32_##sign(uint32_t a) { return to##_trunc_sat_f64_##sign(f64_promote_f32(a)); }
TO_WHOLE(i32, uint32_t, s, 1ull << 31, INT32_MAX)
TO_WHOLE(i32, uint32_t, u, 0, UINT32_MAX)
TO_WHOLE(i64, uint64_t, s, 1ull << 63, INT64_MAX)
TO_WHOLE(i64, uint64_t, u, 0, UINT64_MAX)

// ---- The memory in bulk ----

typedef uint64_t eight __attribute__((aligned(1), may_alias));

// What lies outside of the memory traps when it is reached, and not before the first byte.
INSTRUCTION("memory.copy") void memory_copy(uint32_t to, uint32_t from, uint32_t count) {
    uint8_t *target = (uint8_t *)to;
    const uint8_t *source = (const uint8_t *)from;
    // Upwards it is right unless the target begins within the source.
    if (to - from >= count) {
        for (; count >= sizeof(eight); count -= sizeof(eight), target += sizeof(eight), source += sizeof(eight))
            *(eight *)target = *(const eight *)source;
        for (; count > 0; count--)
            *target++ = *source++;
        return;
    }
    for (; count >= sizeof(eight); count -= sizeof(eight))
        *(eight *)(target + count - sizeof(eight)) = *(const eight *)(source + count - sizeof(eight));
    for (; count > 0; count--)
        target[count - 1] = source[count - 1];
}

INSTRUCTION("memory.fill") void memory_fill(uint32_t to, uint32_t byte, uint32_t count) {
    uint8_t *target = (uint8_t *)to;
    for (; count >= sizeof(eight); count -= sizeof(eight), target += sizeof(eight))
        *(eight *)target = 0x0101010101010101u * (uint8_t)byte;
    for (; count > 0; count--)
        *target++ = (uint8_t)byte;
}
