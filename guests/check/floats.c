// Each instruction on floats over operands that are drawn: a note for each HUNDRED of them and each instruction, which sums up the
// results. check_lower.py compares the notes of the module as it is, on floats of the machine, with those of the lowered one.
#include "liblog.h"

enum { HUNDREDS = 200, HUNDRED = 100 };

typedef uint64_t operation(uint64_t a, uint64_t b);

static double d(uint64_t bits) {
    double value;
    __builtin_memcpy(&value, &bits, sizeof value);
    return value;
}

static float f(uint64_t bits) {
    uint32_t low = (uint32_t)bits;
    float value;
    __builtin_memcpy(&value, &low, sizeof value);
    return value;
}

// Bits as they are: which NaN it is counts for abs, neg and copysign, and for nothing else.
static uint64_t bits_d(double value) {
    uint64_t bits;
    __builtin_memcpy(&bits, &value, sizeof bits);
    return bits;
}

static uint64_t bits_f(float value) {
    uint32_t bits;
    __builtin_memcpy(&bits, &value, sizeof bits);
    return bits;
}

static uint64_t one_nan_d(double value) {
    return value != value ? 0x7ff8000000000000 : bits_d(value);
}

static uint64_t one_nan_f(float value) {
    return value != value ? 0x7fc00000 : bits_f(value);
}

// clang would otherwise do these two on the bits.
static double kept_d(double value) {
    __asm__ volatile("" : "+r"(value));
    return value;
}

static float kept_f(float value) {
    __asm__ volatile("" : "+r"(value));
    return value;
}

#define OPERATION(name, value) \
    static uint64_t name(uint64_t a, uint64_t b) { (void)b; return value; }
#define BOTH(name, for_d, for_f) OPERATION(name##_d, for_d) OPERATION(name##_f, for_f)
#define ONE_NAN(name, of_d, of_f) BOTH(name, one_nan_d(of_d), one_nan_f(of_f))
#define BUILTIN(name, function) ONE_NAN(name, __builtin_##function(d(a)), __builtin_##function##f(f(a)))
#define BETWEEN(name, sign) ONE_NAN(name, d(a) sign d(b), f(a) sign f(b))
#define COMPARED(name, sign) BOTH(name, d(a) sign d(b), f(a) sign f(b))
// Those that trap where there is no such number have only operands that have one.
#define TRAPPING(name, letters, least, most)                                                                                      \
    BOTH(name, d(a) > least && d(a) < most ? (uint64_t)__builtin_wasm_trunc_##letters##_f64(d(a)) : 0,                             \
         f(a) > least##f && f(a) < most##f ? (uint64_t)__builtin_wasm_trunc_##letters##_f32(f(a)) : 0)
#define SATURATING(name, letters) \
    BOTH(name, (uint64_t)__builtin_wasm_trunc_saturate_##letters##_f64(d(a)), (uint64_t)__builtin_wasm_trunc_saturate_##letters##_f32(f(a)))
#define FROM_WHOLE(name, type) BOTH(name, bits_d((double)(type)a), bits_f((float)(type)a))

BETWEEN(add, +)
BETWEEN(sub, -)
BETWEEN(mul, *)
BETWEEN(div, /)
ONE_NAN(min, __builtin_wasm_min_f64(d(a), d(b)), __builtin_wasm_min_f32(f(a), f(b)))
ONE_NAN(max, __builtin_wasm_max_f64(d(a), d(b)), __builtin_wasm_max_f32(f(a), f(b)))
BOTH(copysign, bits_d(__builtin_copysign(d(a), d(b))), bits_f(__builtin_copysignf(f(a), f(b))))
BOTH(abs, bits_d(kept_d(__builtin_fabs(kept_d(d(a))))), bits_f(kept_f(__builtin_fabsf(kept_f(f(a))))))
BOTH(neg, bits_d(kept_d(-kept_d(d(a)))), bits_f(kept_f(-kept_f(f(a)))))
BUILTIN(ceil, ceil)
BUILTIN(floor, floor)
BUILTIN(trunc, trunc)
BUILTIN(nearest, nearbyint)
BUILTIN(sqrt, sqrt)
COMPARED(eq, ==)
COMPARED(ne, !=)
COMPARED(lt, <)
COMPARED(gt, >)
COMPARED(le, <=)
COMPARED(ge, >=)
TRAPPING(trunc_i32_s, s_i32, -2147483648.0, 2147483647.0)
TRAPPING(trunc_i32_u, u_i32, -1.0, 4294967295.0)
TRAPPING(trunc_i64_s, s_i64, -9223372036854775808.0, 9223372036854775808.0)
TRAPPING(trunc_i64_u, u_i64, -1.0, 18446744073709551616.0)
SATURATING(trunc_sat_i32_s, s_i32)
SATURATING(trunc_sat_i32_u, u_i32)
SATURATING(trunc_sat_i64_s, s_i64)
SATURATING(trunc_sat_i64_u, u_i64)
FROM_WHOLE(convert_i32_s, int32_t)
FROM_WHOLE(convert_i32_u, uint32_t)
FROM_WHOLE(convert_i64_s, int64_t)
FROM_WHOLE(convert_i64_u, uint64_t)
OPERATION(promote, one_nan_d((double)f(a)))
OPERATION(demote, one_nan_f((float)d(a)))

#define PAIR(name) name##_d, name##_f
static operation *const OPERATIONS[] = {
    PAIR(add), PAIR(sub), PAIR(mul), PAIR(div), PAIR(min), PAIR(max), PAIR(copysign), PAIR(abs), PAIR(neg), PAIR(ceil), PAIR(floor),
    PAIR(trunc), PAIR(nearest), PAIR(sqrt), PAIR(eq), PAIR(ne), PAIR(lt), PAIR(gt), PAIR(le), PAIR(ge),
    PAIR(trunc_i32_s), PAIR(trunc_i32_u), PAIR(trunc_i64_s), PAIR(trunc_i64_u),
    PAIR(trunc_sat_i32_s), PAIR(trunc_sat_i32_u), PAIR(trunc_sat_i64_s), PAIR(trunc_sat_i64_u),
    PAIR(convert_i32_s), PAIR(convert_i32_u), PAIR(convert_i64_s), PAIR(convert_i64_u), promote, demote,
};
enum { COUNT = sizeof OPERATIONS / sizeof *OPERATIONS };

// Numbers at which something changes, in 64 bits and in 32: zeros, the least, the largest below 1, halves, ends of whole numbers,
// what has no bit behind the point left, the largest, the infinities, and several NaNs.
static const uint64_t SPECIAL[] = {
    0, 1, 0x000fffffffffffff, 0x0010000000000000, 0x3fdfffffffffffff, 0x3fe0000000000000, 0x3fe0000000000001, 0x3fefffffffffffff,
    0x3ff0000000000000, 0x3ff0000000000001, 0x3ff8000000000000, 0x4004000000000000, 0x400c000000000000, 0x41dfffffffc00000,
    0x41e0000000000000, 0x41efffffffe00000, 0x41f0000000000000, 0x432fffffffffffff, 0x4330000000000000, 0x4340000000000000,
    0x43dfffffffffffff, 0x43e0000000000000, 0x43efffffffffffff, 0x43f0000000000000, 0x380fffffe0000000, 0x36a0000000000000,
    0x3690000000000001, 0x47efffffe0000000, 0x47effffff0000000, 0x7fefffffffffffff, 0x7ff0000000000000, 0x7ff8000000000000,
    0x7ff0000000000001, 0x7fffffffffffffff,
    0x3f000000, 0x3effffff, 0x3f000001, 0x3f7fffff, 0x3f800000, 0x3fc00000, 0x40200000, 0x4effffff, 0x4f000000, 0x4f7fffff,
    0x4f800000, 0x5effffff, 0x5f000000, 0x5f7fffff, 0x5f800000, 0x4b000000, 0x4affffff, 0x00800000, 0x007fffff, 0x7f7fffff,
    0x7f800000, 0x7fc00000, 0x7f800001,
};
enum { SPECIALS = sizeof SPECIAL / sizeof *SPECIAL };

static uint64_t drawn = 88172645463325252;

static uint64_t draw(void) {
    drawn ^= drawn << 13;
    drawn ^= drawn >> 7;
    drawn ^= drawn << 17;
    return drawn;
}

// Bits of every kind; numbers near 1, near the ends of whole numbers and near each other in size, so that sums have something to round.
static uint64_t operand(uint64_t other) {
    uint64_t bits = draw(), kind = draw() >> 60;
    if (kind < 4)
        return SPECIAL[bits % SPECIALS] ^ (bits >> 40 & 1) << 63 ^ (bits >> 41 & 1) << 31;
    if (kind < 8)
        return bits;
    if (kind < 10)
        return (bits & 0x800fffff807fffff) | (0x3ff0000000000000 + (bits >> 52 & 127) * 0x0010000000000000 - 0x0200000000000000) | 0x3f800000;
    if (kind < 12)
        return other + (bits >> 58) - 32;
    if (kind < 14)
        return other ^ (bits & 0x803fffff803fffff);
    return bits >> (bits & 63);
}

static uint64_t sum_of(operation *act) {
    uint64_t sum = 14695981039346656037u, a = 0;
    for (int i = 0; i < HUNDRED; i++) {
        uint64_t b = operand(a);
        a = operand(b);
        sum = (sum ^ act(a, b)) * 1099511628211;
    }
    return sum;
}

void _start(void) {
    for (int hundred = 0; hundred < HUNDREDS; hundred++)
        for (int which = 0; which < COUNT; which++)
            liblog_note((int64_t)sum_of(OPERATIONS[which]));
}
