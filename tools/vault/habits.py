"""What to write in the place of what a C programmer writes by habit. Each function knows one habit by the tokens at the place."""
from __future__ import annotations

from typing import Callable, Optional, Sequence, Set, Tuple

from .expected import Place
from .tokens import Token

# a cure, or None if it isn't this habit
Habit = Callable[[Place, Set[str]], Optional[str]]

C_TYPES = {
    "char": "int", "short": "int", "long": "int", "unsigned": "int", "signed": "int", "size_t": "int", "uint8_t": "int", "uint32_t": "int",
    "uint64_t": "int", "int64_t": "int", "float": "int", "double": "int", "_Bool": "bool", "auto": "int", "var": "int", "let": "int",
}  # fmt: skip
C_WORDS = {"const", "static", "inline", "volatile", "register", "typedef", "enum", "union", "public", "private"}


def text_at(token: Optional[Token]) -> str:
    return token.text if token else ""


def back(place: Place, *texts: str) -> bool:
    """Whether these tokens stand before the place, the last of them just before it."""
    return all(text_at(place.before(len(texts) - number)) == text for number, text in enumerate(texts))


def opening_of(place: Place) -> int:
    """How far back the `(` is that the `)` before the place closes; 0 if none is."""
    depth = 0
    for steps in range(1, place.number - place.first + 1):
        text = text_at(place.before(steps))
        depth += (text == ")") - (text == "(")
        if depth == 0:
            return steps
    return 0


def within(place: Place) -> int:
    """How far back the `(` is in which the place stands; 0 if it stands in none of its statement."""
    depth = 0
    for steps in range(1, place.number - place.first + 1):
        text = text_at(place.before(steps))
        if text == "(" and depth == 0:
            return steps
        depth += (text == ")") - (text == "(")
        if text in ";{}":
            return 0
    return 0


def starts_statement(token: Optional[Token]) -> bool:
    """Whether a statement may begin after a token."""
    return text_at(token) in ("", ";", "{", "}", ")", ":", "else")


def rest_of_statement(place: Place, on: int) -> str:
    """The tokens after the place up to the `;`; dots if they are many or none."""
    words = []
    for number in range(place.number + on, min(place.number + on + 6, len(place.tokens))):
        if place.tokens[number].text == ";":
            return " ".join(words) or ".."
        words.append(place.tokens[number].text)
    return ".."


def arguments(place: Place) -> str:
    """The text of a list of arguments whose `(` is at the place; dots if it is long."""
    depth, words = 0, []
    for token in place.tokens[place.number : place.number + 12]:
        depth += (token.text == "(") - (token.text == ")")
        if depth == 0:
            return (
                " ".join(words[1:])
                .replace(" ,", ",")
                .replace(" .", ".")
                .replace(". ", ".")
                .replace("( ", "(")
                .replace(" )", ")")
                .replace(" (", "(")
            )
        words.append(token.text)
    return ".."


def result_of(place: Place, callee: str) -> str:
    """The word before a function's name in its head; `int` if no head is found."""
    for number, token in enumerate(place.tokens[1:-1], 1):
        if token.text == callee and place.tokens[number + 1].text == "(" and place.tokens[number - 1].text in ("int", "bool"):
            return place.tokens[number - 1].text
    return "int"


# ---- names and declarations


def keyword_as_name(place: Place, names: Set[str]) -> Optional[str]:
    if (
        "a name" in names
        and place.found.kind == "keyword"
        and "a number" not in names
        and place.found.text not in ("int", "bool", "void")
    ):
        if place.found.text in ("struct", "if", "while", "return", "extern"):
            return None
        return f"`{place.found.text}` is a keyword: choose another name, as `{place.found.text}_`"
    return None


def keyword_as_value(place: Place, names: Set[str]) -> Optional[str]:
    if "a number" not in names or place.found.kind != "keyword":
        return None
    word = place.found.text
    if word in ("new", "input", "more", "adopt"):
        name = "x" if word != "new" else text_at(place.after())
        kind = {"new": f"tracked(K) {name} p", "adopt": "R:node n", "more": "bool b"}.get(word, "int n")
        return f"`{word}` stands alone on the right of `=`: bind a variable first, `{kind} = {word} ..;`"
    if word in ("int", "bool", "struct"):
        return None
    return f"`{word}` is a keyword, so no variable is called so"


def no_value(place: Place, names: Set[str]) -> Optional[str]:
    if place.found.text != ";" or names != {"="}:
        return None
    kind, name = text_at(place.before(2)), text_at(place.before())
    if kind in ("int", "bool"):
        return f"a variable has a value from the start: `{kind} {name} = {'0' if kind == 'int' else 'false'};`"
    return f"a variable has a value from the start: `.. {name} = new {kind} {{ .. }};`"


def several_variables(place: Place, names: Set[str]) -> Optional[str]:
    is_list = place.found.text == "," and ("=" in names or ";" in names)
    return "a declaration binds one name: write one declaration for each" if is_list and within(place) == 0 else None


def struct_word(place: Place, names: Set[str]) -> Optional[str]:
    if place.found.text in ("struct", "union", "enum") and ("a name" in names or "int" in names):
        name = text_at(place.after())
        return f"a type is used by its name alone, without `struct`: `tracked(K) {name} p`"
    return None


def c_word(place: Place, names: Set[str]) -> Optional[str]:
    last = text_at(place.before())
    for word in (last, place.found.text):
        if word in C_WORDS:
            return (
                f"there is no `{word}`: leave it out"
                if word != "enum"
                else "there is no `enum`: use numbers, or a `variant` with cases"
            )
        if word in C_TYPES:
            return f"there is no type `{word}`: the number type is `int`, of 64 bits with a sign"
    return None


def extra_semicolon(place: Place, names: Set[str]) -> Optional[str]:
    if place.found.text != ";" or not ("struct" in names or "if" in names or "case" in names):
        return None
    return (
        "no `;` follows a closing brace: remove it"
        if text_at(place.before()) in ("}", "")
        else "there is no empty statement: remove the `;`"
    )


def global_variable(place: Place, names: Set[str]) -> Optional[str]:
    if place.found.text in ("=", ";", "[") and "(" in names and place.number - place.first <= 5 and "a name" not in names:
        return "there are no global variables: pass the value as a parameter, or keep it in an object"
    return None


def void_parameters(place: Place, names: Set[str]) -> Optional[str]:
    return "an empty list of parameters is `()`" if place.found.text == "void" and back(place, "(") else None


def prototype(place: Place, names: Set[str]) -> Optional[str]:
    if place.found.text == ";" and "{" in names and place.before() and place.before().text in (")", "]"):
        return "functions need no prototype: remove this line; a function that the host gives begins with `extern`"
    return None


def external_body(place: Place, names: Set[str]) -> Optional[str]:
    first = place.tokens[place.first] if place.number > place.first else None
    if place.found.text == "{" and ";" in names and first is not None and first.text == "extern":
        return "an external has no body: end its head with `;`, or drop `extern`"
    return None


def bare_case(place: Place, names: Set[str]) -> Optional[str]:
    if names == {"a case"} and place.found.kind == "name":
        return f"a case begins with a tick: `'{place.found.text}`"
    if names == {"a case"} and place.found.kind == "number":
        return "a `switch` takes the cases of a variant apart; compare numbers with `if (n == 1) { .. } else if ..`"
    return None


def default_case(place: Place, names: Set[str]) -> Optional[str]:
    return "there is no `default`: write an arm for each case" if "case" in names and place.found.text == "default" else None


# ---- statements


def compound_assignment(place: Place, names: Set[str]) -> Optional[str]:
    sign, last, following = place.found.text, place.before(), text_at(place.after())
    if sign not in tuple("+-*/%&|^") or last is None or last.kind != "name" or following not in ("=", sign):
        return None
    value = rest_of_statement(place, 2) if following == "=" else "1"
    target = last.text
    if text_at(place.before(2)) == ".":
        target = f"{text_at(place.before(3))}.{target}"
    elif not starts_statement(place.before(2)):
        return None
    return f"write `{target} = {target} {sign} {value};`"


def increment(place: Place, names: Set[str]) -> Optional[str]:
    sign = place.found.text
    if sign in ("+", "-") and text_at(place.after()) == sign and starts_statement(place.before()):
        name = text_at(place.after(2))
        return f"write `{name} = {name} {sign} 1;`"
    if sign == "+" and back(place, "+"):
        return "there is no `++`: write `i = i + 1;` as a statement of its own"
    return None


def for_loop(place: Place, names: Set[str]) -> Optional[str]:
    steps = within(place)
    if steps and text_at(place.before(steps + 1)) == "for":
        return "there is no `for`: `int i = 0; while (i < n) { .. i = i + 1; }`"
    return None


def do_loop(place: Place, names: Set[str]) -> Optional[str]:
    if back(place, "do") and place.found.text == "{":
        return "there is no `do`: `bool again = true; while (again) { .. again = ..; }`"
    return None


def goto(place: Place, names: Set[str]) -> Optional[str]:
    if back(place, "goto") or text_at(place.before(2)) == "goto":
        return "there is no `goto`: leave a loop with `break`, a function with `return`"
    if place.found.text == ":" and place.before() is not None and place.before().kind == "name" and "=" in names:
        return "there are no labels"
    return None


def body_without_braces(place: Place, names: Set[str]) -> Optional[str]:
    if "{" not in names or not names <= {"{", "if"}:
        return None
    if back(place, "else"):
        return "a body is always a block: `else { .. }`"
    steps = opening_of(place) if back(place, ")") else 0
    word = text_at(place.before(steps + 1)) if steps else ""
    if word in ("if", "while"):
        return f"a body is always a block: `{word} (..) {{ .. }}`"
    return "an arm is always a block: `case 'A: { .. }`" if back(place, ":") else None


def condition_without_parentheses(place: Place, names: Set[str]) -> Optional[str]:
    word = text_at(place.before())
    if names == {"("} and word in ("if", "while", "switch", "print"):
        return f"what follows `{word}` stands in parentheses: `{word} (..)`"
    return None


def parentheses_not_wanted(place: Place, names: Set[str]) -> Optional[str]:
    word = text_at(place.before())
    if place.found.text == "(" and word in ("release", "become", "swap", "open", "focus"):
        return f"`{word}` is a statement and no function: write `{word} {text_at(place.after())};` without parentheses"
    return None


def assignment_in_condition(place: Place, names: Set[str]) -> Optional[str]:
    if place.found.text == "=" and within(place) and "==" in names:
        return "a comparison is `==`, and an assignment is a statement of its own"
    return None


def chained_assignment(place: Place, names: Set[str]) -> Optional[str]:
    if place.found.text == "=" and ";" in names and "==" in names:
        return "an assignment is a statement of its own: assign one variable after the other; a comparison is `==`"
    return None


# ---- expressions


def call_in_expression(place: Place, names: Set[str]) -> Optional[str]:
    last = place.before()
    if place.found.text != "(" or last is None or last.kind != "name" or "+" not in names:
        return None
    kind = result_of(place, last.text)
    name = "b" if kind == "bool" else "n"
    bound = f"`{kind} {name} = {last.text}({arguments(place)});`"
    if text_at(place.before(2)) == "return":
        return f"a call is a right side or a statement: {bound} first, then `return {name};`"
    return f"a call is no part of an expression: {bound} before this statement, and `{name}` here"


def array(place: Place, names: Set[str]) -> Optional[str]:
    if place.found.text == "[" and "new" not in names:
        return "there are no arrays: use the fields of a struct, or objects that one object adopted"
    return None


def pointer(place: Place, names: Set[str]) -> Optional[str]:
    last = place.before()
    if (
        place.found.text == "*"
        and last is not None
        and (last.kind == "name" or last.text in ("int", "bool", ">"))
        and "+" not in names
    ):
        return f"there are no pointers: a reference to an object is `tracked(K) {last.text if last.kind == 'name' else 'point'} p`"
    if place.found.text == "*" and ("a number" in names or "if" in names):
        return "there is no `*`: the fields of an object are `p.x`"
    return None


def arrow(place: Place, names: Set[str]) -> Optional[str]:
    if place.found.text != "->":
        return None
    if "@" in names or "]" in names:
        return f"the state before it is missing: `{text_at(place.before())}@s->{text_at(place.after())}`"
    return f"a field is `{text_at(place.before())}.{text_at(place.after())}`"


def address(place: Place, names: Set[str]) -> Optional[str]:
    if place.found.text in ("&", "&&") and "a number" in names:
        return "there are no addresses: an object is passed by its name, `f(p)`, a number by value"
    return None


def shift(place: Place, names: Set[str]) -> Optional[str]:
    if place.found.text in ("<", ">") and back(place, place.found.text):
        return f"there are no shifts: {'multiply' if place.found.text == '<' else 'divide'} by a power of two"
    return None


def conversion(place: Place, names: Set[str]) -> Optional[str]:
    if place.found.text in ("int", "bool", "char", "long") and back(place, "(") and "a number" in names:
        return "there are no conversions: compare, `n != 0`, or choose with `if`"
    return None


def number_forms(place: Place, names: Set[str]) -> Optional[str]:
    last = place.before()
    if last is None or last.kind != "number":
        return None
    if place.found.text == ".":
        return "numbers are whole: there are no fractions"
    touches = place.found.start == last.end and place.found.kind == "name"
    if touches and place.found.text[0] in "xX":
        try:
            return f"numbers are decimal: write `{int(last.text + place.found.text, 16)}`"
        except ValueError:
            return "numbers are decimal"
    return "a number has no suffix" if touches else None


def field_values(place: Place, names: Set[str]) -> Optional[str]:
    """The parts of a `new`."""
    if place.found.text == "(" and "{" in names and text_at(place.before(2)) in ("new", ")"):
        return f"the fields stand in braces, each with its name: `new {text_at(place.before())} {{ x: 1, y: 2 }}`"
    if names <= {"a name", "}"} and place.found.kind == "number" or place.found.text == "." and names <= {"a name", "}"}:
        return "each field is given with its name: `{ x: 1, y: 2 }`"
    if place.found.text == "=" and names == {":"}:
        return f"a field's value stands after a colon: `{text_at(place.before())}: ..`"
    return None


def trailing_comma(place: Place, names: Set[str]) -> Optional[str]:
    return "a list doesn't end with a comma: remove it" if back(place, ",") and place.found.text in (")", "}", "]", ">") else None


def types_of_parameters(place: Place, names: Set[str]) -> Optional[str]:
    if place.found.text in (",", ")") and "a name" in names and back(place, "int") or back(place, "bool"):
        return "each parameter has a type and a name: `int n`" if place.found.text in (",", ")") else None
    return None


def field_start(place: Place, names: Set[str]) -> Optional[str]:
    if place.found.text == "=" and names <= {";", "@"}:
        return "a field has no value in the declaration: it gets one at `new`"
    return None


def return_of_call(place: Place, names: Set[str]) -> Optional[str]:
    if place.found.text == "{" and text_at(place.before(2)) == "return":
        return "bind the new object first, and return its variable"
    return None


HABITS: Tuple[Habit, ...] = (
    goto, for_loop, do_loop, void_parameters, struct_word, keyword_as_name, keyword_as_value, no_value, several_variables, field_start,
    prototype, external_body, extra_semicolon, default_case, bare_case, compound_assignment, increment, body_without_braces,
    condition_without_parentheses, parentheses_not_wanted, call_in_expression, assignment_in_condition, chained_assignment, arrow, pointer,
    address, shift, conversion, number_forms, field_values, trailing_comma, array, global_variable, types_of_parameters, return_of_call, c_word,
)  # fmt: skip


def cure_of(place: Place, names: Sequence[str]) -> Optional[str]:
    """What to write in the place of a C form; None if it isn't one that is known."""
    given = set(names)
    for habit in HABITS:
        found = habit(place, given)
        if found:
            return found
    return None


BYTES = {
    '"': "there are no strings; `print` writes a number",
    "?": "there is no `c ? a : b`: choose with `if` and `else`",
    "#": "there is no preprocessor: there is one file, and `extern` declares what a host gives",
    "~": "there is no `~`: `-1 - x` has all bits of x turned",
    "'": "there are no characters: write the number, as `97` for an `a`",
    "\\": "nothing is continued on the next line: remove it",
}


def byte_cure(character: str) -> str:
    """What to do about a character that begins no token."""
    if character.isspace():
        return "write a blank of the keyboard: this is another one"
    if not character.isascii():
        return "write signs of ASCII; letters of any language may stand in names and comments"
    return BYTES.get(character, "remove it: no form of the language has it")
