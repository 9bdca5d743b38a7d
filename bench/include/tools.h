/* What each tool is told of a protocol, by its own annotations. With MODELS the functions of the protocol have bodies that write
   to null where a contract is broken, so that a tool that follows values through calls can find it. */
#ifndef TOOLS_H
#define TOOLS_H
#include <stdlib.h>

#if defined MODELS || defined S_SPLINT_S
#define GIVES(drop)
#define MAY_GIVE(drop)
#define TAKES(number)
#define TAKES_TOO(number)
#elif defined __CHECKER__ /* sparse: a count of what is held */
#define GIVES(drop) __attribute__((context(held, 0, 1)))
#define MAY_GIVE(drop) __attribute__((context(held, 0, 1)))
#define TAKES(number) __attribute__((context(held, 1, 0)))
#define TAKES_TOO(number) __attribute__((context(held, 1, 0)))
#elif defined __clang__
#define GIVES(drop) __attribute__((ownership_returns(malloc), returns_nonnull))
#define MAY_GIVE(drop) __attribute__((ownership_returns(malloc)))
#define TAKES(number) __attribute__((ownership_takes(malloc, number)))
#define TAKES_TOO(number) TAKES(number)
#elif defined __GNUC__
#define GIVES(drop) __attribute__((malloc, malloc(drop, 1), returns_nonnull))
#define MAY_GIVE(drop) __attribute__((malloc, malloc(drop, 1)))
#define TAKES(number)
#define TAKES_TOO(number)
#else
#define GIVES(drop)
#define MAY_GIVE(drop)
#define TAKES(number)
#define TAKES_TOO(number)
#endif

/* A second dropper, which only gcc is told of, and a definition that takes an object, which only sparse is told of. */
#if defined __GNUC__ && !defined __clang__ && !defined __CHECKER__ && !defined S_SPLINT_S && !defined MODELS
#define GIVES_TOO(drop, number) __attribute__((malloc(drop, number)))
#else
#define GIVES_TOO(drop, number)
#endif
#ifdef __CHECKER__
#define TAKER __attribute__((context(held, 1, 0)))
#else
#define TAKER
#endif

#if defined __GNUC__ && !defined S_SPLINT_S
#define LOOKED_AT __attribute__((warn_unused_result))
#else
#define LOOKED_AT
#endif

/* Shows a number, and asks for one. */
#ifdef MODELS
static void report(int number) { (void)number; }
#else
void report(int number);
#endif
int ask(void);

#ifdef MODELS
/* Writes to null unless a condition holds. It is a macro, so that the place is that of the call. */
#define REQUIRE(condition) (*((condition) ? &fine : (int *)NULL) = 0)
static int fine;
static void *reserve(size_t size) {
    void *memory = malloc(size);
    if (memory == NULL) {
        exit(1);
    }
    return memory;
}
#endif
#endif
