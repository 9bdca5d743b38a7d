/* The program: an emitted text, or what `instrument` wrote of one, without warnings that mean nothing in it. VAULT_PROGRAM is the name of its file, in
 * quotes. Included once in a program. */

/* An emitted text is no text of a programmer's. It declares slots that it may not use, puts a condition in two pairs of
 * parentheses, guards each operator before it is reached, and has no `return` after a switch, which its arms leave. So these
 * warnings mean nothing there. */
#if defined(__GNUC__)
#pragma GCC diagnostic push
#endif
#if defined(__clang__)
#pragma GCC diagnostic ignored "-Wunknown-warning-option"
#pragma GCC diagnostic ignored "-Wparentheses-equality"
#pragma GCC diagnostic ignored "-Wself-assign"
#pragma GCC diagnostic ignored "-Winteger-overflow"
#pragma GCC diagnostic ignored "-Wxor-used-as-pow"
#elif defined(__GNUC__)
#pragma GCC diagnostic ignored "-Wpragmas"
#pragma GCC diagnostic ignored "-Wmaybe-uninitialized"
#pragma GCC diagnostic ignored "-Woverflow"
#endif
#if defined(__GNUC__)
#pragma GCC diagnostic ignored "-Wunused-variable"
#pragma GCC diagnostic ignored "-Wunused-parameter"
#pragma GCC diagnostic ignored "-Wunused-but-set-variable"
#pragma GCC diagnostic ignored "-Wunused-but-set-parameter"
#pragma GCC diagnostic ignored "-Wreturn-type"
#pragma GCC diagnostic ignored "-Wdiv-by-zero"
#pragma GCC diagnostic ignored "-Wtautological-compare"
#pragma GCC diagnostic ignored "-Winfinite-recursion"
#endif

#include VAULT_PROGRAM

#if defined(__GNUC__)
#pragma GCC diagnostic pop
#endif
