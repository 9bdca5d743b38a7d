/* What a text includes that `instrument` wrote. It counts fuel and depth. With VAULT_CHECK it also looks for each
 * `undefined` of docs/C.md, and without it that costs nothing. */

#ifndef VAULT_CHECK_H
#define VAULT_CHECK_H

#include <limits.h>

#include "vault_rt.h"

/* What has to hold by a rule of docs/C.md, and what is kept to know it. A checking build ends the run where it doesn't hold.
 * Other builds don't look, though compilers still read the condition. */
#ifdef VAULT_CHECK
#define VR_REQUIRE(rule, holds) ((holds) ? (void) 0 : vr_undefined(rule))
#define VR_KEEP(variable, value) ((void) ((variable) = (value)))
#else
#define VR_REQUIRE(rule, holds) ((void) (0 && (holds)))
#define VR_KEEP(variable, value) ((void) 0)
#endif

#if defined(__GNUC__)
__attribute__((noreturn))
#endif
void vr_undefined(int rule);

/* One unit of fuel. */
void vr_spend(void);

/* A function that isn't glue begins, and ends. */
void vr_enter(void);
void vr_leave(void);

/* The statement of this number begins; and the cells of blocks. */
#ifdef VAULT_CHECK
void vr_at(long long statement);
long long vr_load_n(vr_ref block, long long index);
vr_ref vr_load_r(vr_ref block, long long index);
void vr_store_n(vr_ref block, long long index, long long number);
void vr_store_r(vr_ref block, long long index, vr_ref reference);
#else
static inline void vr_at(long long statement) { (void) statement; }
static inline long long vr_load_n(vr_ref block, long long index) { return block->n[index]; }
static inline vr_ref vr_load_r(vr_ref block, long long index) { return block->r[index]; }
static inline void vr_store_n(vr_ref block, long long index, long long number) { block->n[index] = number; }
static inline void vr_store_r(vr_ref block, long long index, vr_ref reference) { block->r[index] = reference; }
#endif

/* How many statements the text has. */
extern const long long vr_statement_count;

/* The end of a function that should have given a value. No statement runs there: the count stands for one. */
static inline void vr_no_value(void)
{
    vr_at(vr_statement_count);
    VR_REQUIRE(6, false);
}

/* Operators of which a result may not fit, or not be. */
static inline long long vr_negate(long long a)
{
    VR_REQUIRE(3, a != LLONG_MIN);
    return -a;
}

static inline long long vr_add(long long a, long long b)
{
    VR_REQUIRE(3, b < 0 ? a >= LLONG_MIN - b : a <= LLONG_MAX - b);
    return a + b;
}

static inline long long vr_subtract(long long a, long long b)
{
    VR_REQUIRE(3, b < 0 ? a <= LLONG_MAX + b : a >= LLONG_MIN + b);
    return a - b;
}

static inline bool vr_has_product(long long a, long long b)
{
    if (a == 0 || b == 0) {
        return true;
    }
    if (a > 0) {
        return b > 0 ? a <= LLONG_MAX / b : b >= LLONG_MIN / a;
    }
    return b > 0 ? a >= LLONG_MIN / b : b >= LLONG_MAX / a;
}

static inline long long vr_multiply(long long a, long long b)
{
    VR_REQUIRE(3, vr_has_product(a, b));
    return a * b;
}

static inline long long vr_divide(long long a, long long b)
{
    VR_REQUIRE(4, b != 0);
    VR_REQUIRE(3, a != LLONG_MIN || b != -1);
    return a / b;
}

static inline long long vr_remainder(long long a, long long b)
{
    VR_REQUIRE(4, b != 0);
    VR_REQUIRE(3, a != LLONG_MIN || b != -1);
    return a % b;
}

#endif
