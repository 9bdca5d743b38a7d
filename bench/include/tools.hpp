/* What clang is told of a protocol. -Wconsumed knows three states of an object: unknown, unconsumed, consumed. For -Wthread-safety an
   object, and each of its states that matters, is a capability, which is held as a lock is. */
#ifndef TOOLS_HPP
#define TOOLS_HPP

#define STARTS(state) __attribute__((consumable(state)))
#define WHEN(...) __attribute__((callable_when(__VA_ARGS__)))
#define BECOMES(state) __attribute__((set_typestate(state)))
#define IF_TRUE(state) __attribute__((test_typestate(state)))
#define COMES(state) __attribute__((param_typestate(state)))
#define STAYS(state) __attribute__((return_typestate(state)))

#define KEY __attribute__((capability("key")))
#define NEEDS(...) __attribute__((requires_capability(__VA_ARGS__)))
#define GETS(...) __attribute__((acquire_capability(__VA_ARGS__)))
#define TRIES(...) __attribute__((try_acquire_capability(true, __VA_ARGS__)))
#define LOSES(...) __attribute__((release_capability(__VA_ARGS__)))
#define WITHOUT(...) __attribute__((locks_excluded(__VA_ARGS__)))

/* A state that is a capability. */
struct KEY state {};

/* Shows a number, and asks for one. */
void report(int number);
int ask();

#endif
