"""Texts in Vault whose costs are measured. Each function gives a text; the numbers say how large it is."""

from __future__ import annotations

STATES = "stateset g { a, b }\nstruct cell @ g { int v; release a; }\n"


def functions(count: int) -> str:
    """So many functions of 253 bytes: a declaration, a print, an `if` and a release. It is a text of the grammar alone."""
    return "".join(
        f"void f{number:07}(tracked(K) point p, int n) [-K] {{\n    int total = p.x * 2 + p.y % 7 - n;\n    print(total + 123456);\n"
        "    if (total < 100 && n != 0) {\n        print(p.x - p.y);\n    } else {\n        print(-total);\n    }\n"
        "    p.x = total + 1;\n    release p;\n}\n"
        for number in range(count)
    )


def one_list(count: int) -> str:
    """One call with so many numbers. It is a text of the grammar alone."""
    return "void main() {\n    g(1" + ", 123456" * count + ");\n}"


def loops(count: int) -> str:
    """So many functions with a loop each, all called by `main`."""
    body = "int i = 0; while (i < n) { x.v = x.v + 1; i = i + 1; }"
    heads = "".join(f"void f{number}(tracked(K) cell x, int n) [K@a] {{ {body} }}\n" for number in range(1, count + 1))
    calls = "".join(f"f{number}(x, {number % 10});\n" for number in range(1, count + 1))
    return f"{STATES}{heads}void main() {{ tracked(K) cell x = new cell {{ v: 0 }};\n{calls}print(x.v); release x; }}\n"


def made(keys: int) -> str:
    """Statements that make so many objects, each with a key of its own."""
    return "".join(f"tracked(K{key}) cell x{key} = new cell {{ v: {key} }};\n" for key in range(1, keys + 1))


def released(keys: int) -> str:
    """Statements that release them."""
    return "".join(f"release x{key};\n" for key in range(1, keys + 1))


def nested_loops(keys: int, depth: int = 60) -> str:
    """Loops in each other among so many keys."""
    return f"struct cell {{ int v; }}\nvoid main() {{\n{made(keys)}bool b = more();\n{'while (b) {' * depth}\nprint(1);\n{'}' * depth}\n{released(keys)}}}\n"


def choices(keys: int, count: int, is_faulty: bool) -> str:
    """So many choices that change the state of one of the objects, among so many keys. The fault is at the end: one isn't released."""
    heads = "stateset g { a, b }\nstruct cell @ g { int v; }\n"
    choice = "if (x1.v > 1) { become x1@b; }\n" * count
    return f"{heads}void main() {{\n{made(keys)}{choice}{released(keys - is_faulty)}}}\n"


def bound_choices(states: int, keys: int, count: int, is_faulty: bool) -> str:
    """So many choices in a function that may be called with its object in any of so many states, up to the last one."""
    chain = " < ".join(f"s{number}" for number in range(states))
    body = "if (x.v > 1) { x.v = 1; }\n" * count
    return (
        f"stateset g {{ {chain} }}\nstruct ordered @ g {{ int v; }}\nstruct cell {{ int v; }}\n"
        f"void f(tracked(K) ordered x) [K@(now <= s{states - 1})] {{\n{made(keys)}{body}{released(keys - is_faulty)}}}\nvoid main() {{ }}\n"
    )


def long_sums(count: int) -> str:
    """So many sums of 60 variables: each plus has a test of its range in C."""
    return "void main() {\nint i = 0;\n" + ("i = " + " + ".join(["i"] * 60) + ";\n") * count + "print(i);\n}\n"


def statements(count: int) -> str:
    """One body of so many assignments."""
    return "void main() {\nint i = 0;\n" + "i = i + 1;\n" * count + "print(i);\n}\n"


C_LINES = '#include "vault_rt.h"\n#define VR_MAIN f0\n'


def c_functions(count: int, is_reversed: bool) -> str:
    """A C text of so many functions, whose bodies stand in the order of their heads or in the reverse one."""
    names = range(count)
    bodies = reversed(names) if is_reversed else names
    heads = "".join(f"void f{number} ( void ) ;\n" for number in names)
    return C_LINES + heads + "".join(f"void f{number} ( void ) {{\n}}\n" for number in bodies)


def c_variables(count: int) -> str:
    """A C text of one function with so many variables, each of which is set once."""
    declared = "".join(f"long long n{number} ;\n" for number in range(count))
    return f"{C_LINES}void f0 ( void ) ;\nvoid f0 ( void ) {{\n{declared}" + "".join(f"n{number} = 1 ;\n" for number in range(count)) + "}\n"


def c_parameters(count: int) -> str:
    """A C text of a function with so many parameters, and of a call of it."""
    heads = ("void f0 ( void )", f"void f1 ( {' , '.join(f'long long n{number}' for number in range(count))} )")
    call = f"f1 ( {' , '.join(['1'] * count)} ) ;\n"
    return C_LINES + "".join(f"{head} ;\n" for head in heads) + f"{heads[0]} {{\n{call}}}\n{heads[1]} {{\n}}\n"


def turns(count: int, declared: str, body: str) -> str:
    """A loop of so many turns, each of which does this and counts."""
    return f"{declared}\nvoid main() {{ int i = 0; int s = 1; while (i < {count}) {{ {body} i = i + 1; }} print(s); }}\n"
