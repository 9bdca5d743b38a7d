"""Drivers as libraries of C beside `vaultc host`: random lists of calls, carried out by both."""
from __future__ import annotations

import random
import subprocess
from concurrent.futures import ThreadPoolExecutor
from dataclasses import dataclass
from pathlib import Path
from typing import Dict, List, Optional, Sequence, Tuple

from vault import paths, programs
from vault.bind import certificate
from vault.bind.certificate import KEPT, NEW, TAKEN, Certificate, FunctionRow
from vault.bind.library import Library
from vault.commands import bind

RUNTIME = paths.TOP / "runtime"
FLAGS = ["-std=c99", "-Wall", "-Wextra", "-pedantic", "-Werror"]

HARNESS = """\
#define _GNU_SOURCE
#include "{base}.h"

#include <stdio.h>
#include <stdlib.h>
#include <string.h>

#include "vault_library.h"

enum {{ MOST_HELD = 4096, LONGEST = 4096 }};

/* What is held, by the numbers of the objects. */
static unsigned long long handles[MOST_HELD];

static unsigned long long handle_of(const char *word)
{{
    long long number = *word == '#' ? atoll(word + 1) : 0;
    return number > 0 && number < MOST_HELD ? handles[number] : 0;
}}

/* The number of a new object, which is the last one that was made in the call. */
static long long number_of(unsigned long long handle, int type)
{{
    struct vault_object *object = vault_library_object(handle, type, ~0u);
    long long number = object->block->number;
    handles[number] = handle;
    return number;
}}

int main(int argc, char **argv)
{{
    static char line[LONGEST];
    FILE *calls = fopen(argv[1], "r");
    FILE *out = stdout;
    (void) argc;
    {base}_begin();
    for (int position = 1; fgets(line, sizeof line, calls) != NULL; position++) {{
        char *words[20];
        int count = 0;
        char *events = NULL;
        size_t size = 0;
        char shown[LONGEST] = "";
        line[strcspn(line, "\\n")] = '\\0';
        strcpy(shown, line);
        for (char *word = strtok(line, " "); word != NULL; word = strtok(NULL, " ")) {{
            words[count++] = word;
        }}
        const char *result = "";
        char text[64] = "";
        bool is_known = false;
        bool came_back = false;
        stdout = open_memstream(&events, &size);
{calls}
        fclose(stdout);
        stdout = out;
        (void) is_known;
        if (!came_back && (!is_known || vault_library_enter(""))) {{
            printf("call %d bad\\n", position);
            return 11;
        }}
        printf("!%s\\n%s%s%s", shown, events, result, text);
        if (!came_back) {{
            printf("%s\\n", {base}_refused());
            return 9;
        }}
    }}
    return 0;
}}
"""


# drivers whose externals answer with states: answers that keep their clauses
ANSWERS = {
    "valve": ("0", "1", "1 0", "1 1", "2 2", "0 0", "0 1", "1 7"),
    "tcp": ("",),
    "usb": ("", "", "0", "1", "0 3"),
    "floppy": ("", "", "0", "512"),
    "pagecache": ("0 7", "1", "", "1 -5"),
    "slab": ("0", "0", "1", ""),
    "sockets": ("0", "1", "2", "3", ""),
}


@dataclass(frozen=True)
class Driver:
    """A driver: its heads, its source, and its library as each compiler makes it."""

    source: Path
    heads: Certificate
    programs: Tuple[Path, ...]

    @property
    def usual_answers(self) -> Tuple[str, ...]:
        """Answers that mostly fit."""
        return ANSWERS.get(self.source.stem[len("d_"):], ("2",))

    @property
    def functions(self) -> List[FunctionRow]:
        return [it for it in self.heads.functions if self.heads.is_entry_function(it)]


def branch(base: str, library: Library, function: FunctionRow) -> str:
    """The part of the harness that calls a function."""
    count = len(function.parameters)
    tests = [f'strcmp(words[0], "{function.name}") == 0', f"count == {count + 1}"]
    words, setup = [], []
    for number, (_, shape) in enumerate(function.parameters):
        word = f"words[{number + 1}]"
        if shape.kind == "key":
            setup.append(f"{library.c_type(shape)} h{number} = {{handle_of({word})}};")
            words.append(f"h{number}")
        else:
            tests.append(f"*{word} != '#'")
            if shape.kind == "bool":
                tests.append(f'(strcmp({word}, "0") == 0 || strcmp({word}, "1") == 0)')
            words.append(f"atoll({word})" + (" != 0" if shape.kind == "bool" else ""))
    told = ""
    if function.result.kind == "key":
        setup.append(f"{library.c_type(function.result)} made;")
        words.append("&made")
        told = f'snprintf(text, sizeof text, "= #%lld\\n", number_of(made.handle, {function.result.type}));'
    elif function.result.kind != "void":
        setup.append(f"{library.c_type(function.result)} given;")
        words.append("&given")
        told = 'snprintf(text, sizeof text, "= %lld\\n", (long long) given);'
    name = library.head(function).split("(")[0].split()[-1]
    lines = [f"if ({' && '.join(tests)}) {{", *setup, "is_known = true;", f"came_back = {name}({', '.join(words)});"]
    lines.append(f"if (came_back) {{ {told} }}" if told else "")
    return "\n".join(f"        {line}" for line in [*lines, "}"] if line)


def build(source: Path, folder: Path, compilers: Sequence[Sequence[str]]) -> Driver:
    """Emits and binds a driver, and compiles it with the harness by each compiler, a name with flags."""
    vaultc = programs.take("vaultc")
    base = source.stem
    text = folder / f"{base}.c"
    text.write_text(vaultc.ask(["emit", str(source)]).output, encoding="utf-8")
    heads = certificate.read(text)
    for name, made in bind.library_files(base, text).items():
        (folder / name).write_text(made, encoding="utf-8")
    library = Library(base, text.name, heads)
    calls = "\n".join(branch(base, library, it) for it in heads.functions if heads.is_entry_function(it))
    harness = folder / f"{base}_harness.c"
    harness.write_text(HARNESS.format(base=base, calls=calls), encoding="utf-8")
    made = tuple(compiled(folder, base, number, words) for number, words in enumerate(compilers))
    return Driver(source, heads, made)


def compiled(folder: Path, base: str, number: int, compiler: Sequence[str]) -> Path:
    """The harness with the library, by a compiler."""
    program, library = folder / f"{base}_{number}", str(folder / f"{base}_{number}.o")
    files = [folder / f"{base}_harness.c", *(RUNTIME / name for name in ("vault_rt.c", "numbers.c", "replay.c", "vault_library.c"))]
    own = ["-I", str(folder), "-I", str(RUNTIME)]
    # the harness is of the tests, and says what it likes of the standard's library
    subprocess.run([*compiler, *FLAGS, *own, "-c", str(folder / f"{base}_lib.c"), "-o", library], check=True)
    subprocess.run([*compiler, "-std=gnu99", *own, *map(str, files), library, "-o", str(program)], check=True)
    return program


def random_number(chance: random.Random, is_bool: bool) -> str:
    return str(chance.randint(0, 1) if is_bool else chance.choice((0, 1, -1, 7, 100, 9223372036854775807, chance.randint(-50, 50))))


class Calls:
    """Makes random calls. It follows what the host holds if each call comes back and makes no object but the one that it gives: for each number the object's type and states."""

    def __init__(self, driver: Driver, chance: random.Random) -> None:
        self.driver = driver
        self.heads = driver.heads
        self.chance = chance
        self.made = 0
        self.held: Dict[int, Tuple[int, int]] = {}

    def first(self, function: FunctionRow) -> str:
        """A call of a function that makes an object."""
        self.came_back(function, {})
        return " ".join([function.name, *("1" for _ in function.parameters)])

    def any(self) -> str:
        """A call of a function that there is, mostly with arguments of the right sort."""
        function = self.chance.choice(self.driver.functions)
        words = [function.name]
        for _, shape in function.parameters:
            is_object = shape.kind == "key" and self.chance.random() < 0.97
            words.append(f"#{self.chance.randint(1, max(self.made, 1))}" if is_object else random_number(self.chance, shape.kind == "bool"))
        return " ".join(words)

    def fitting(self) -> str:
        """A call that may be permitted."""
        for function in self.chance.sample(self.driver.functions, len(self.driver.functions)):
            objects = self.objects_for(function)
            if objects is not None:
                self.came_back(function, objects)
                words = [f"#{objects[it.key]}" if it.kind == "key" else random_number(self.chance, it.kind == "bool") for _, it in function.parameters]
                return " ".join([function.name, *words])
        return self.any()

    def objects_for(self, function: FunctionRow) -> Optional[Dict[int, int]]:
        """For the keys of the parameters numbers of objects that fit; None if there are none."""
        found: Dict[int, int] = {}
        for _, shape in function.parameters:
            if shape.kind != "key" or shape.key in found:
                continue
            entry = function.entry(shape.key)
            states = self.heads.before(function, entry) if entry else -1
            fit = [it for it, (kind, now) in self.held.items() if kind == shape.type and now & states and it not in found.values()]
            if not fit:
                return None
            found[shape.key] = self.chance.choice(fit)
        return found

    def came_back(self, function: FunctionRow, objects: Dict[int, int]) -> None:
        """What the host holds after a call."""
        for entry in function.clause:
            number = objects.get(entry.key)
            if entry.mode == NEW:
                self.made += 1
                self.held[self.made] = (function.result.type, self.heads.after(function, entry))
            elif number is not None and entry.mode == TAKEN:
                del self.held[number]
            elif number is not None and entry.mode == KEPT:
                self.held[number] = (self.held[number][0], self.heads.after(function, entry))


def random_list(driver: Driver, chance: random.Random) -> List[str]:
    """A list of calls of which most may be permitted; the first ones make objects."""
    calls = Calls(driver, chance)
    maker = chance.choice([it for it in driver.functions if it.result.kind == "key" and all(one.kind != "key" for _, one in it.parameters)])
    firsts = [calls.first(maker), calls.first(maker)]
    return firsts + [calls.fitting() if chance.random() < 0.9 else calls.any() for _ in range(chance.randint(1, 12))]


def random_answers(driver: Driver, chance: random.Random) -> List[str]:
    """Answers of the host, most of which fit."""
    odd = ("5", "0", "-3", "", "9223372036854775807")
    return [chance.choice(odd if chance.random() < 0.2 else driver.usual_answers) for _ in range(chance.randint(0, 8))]


def outcomes(driver: Driver, calls: List[str], answers: List[str], folder: Path, name: str = "list") -> Tuple[str, List[str]]:
    """What `vaultc host` and the compiled drivers write of a list of calls, without the line of what is held at the end."""
    listed, given = folder / f"{name}.calls", folder / f"{name}.answers"
    listed.write_text("".join(f"{it}\n" for it in calls), encoding="utf-8")
    given.write_text("".join(f"{it}\n" for it in answers), encoding="utf-8")
    answer = programs.take("vaultc").ask(["host", str(driver.source), str(listed), "--answers", str(given)])
    host = "".join(f"{line}\n" for line in answer.lines if not line.startswith("held"))
    environment = {"VAULT_ANSWERS": str(given), "ASAN_OPTIONS": "detect_leaks=0"}
    runs = [
        subprocess.run([str(it), str(listed)], env=environment, stdout=subprocess.PIPE, stderr=subprocess.STDOUT, universal_newlines=True)
        for it in driver.programs
    ]
    return host, [it.stdout for it in runs]


def differences(driver: Driver, count: int, seed: int, folder: Path, jobs: int = 1) -> List[Tuple[List[str], str, str]]:
    """The lists of calls, of so many random ones, of which a compiled driver writes other lines than `vaultc host`."""
    chance = random.Random(seed)
    lists = [(random_list(driver, chance), random_answers(driver, chance)) for _ in range(count)]

    def compared(number: int) -> List[Tuple[List[str], str, str]]:
        calls, answers = lists[number]
        host, found = outcomes(driver, calls, answers, folder, f"{driver.source.stem}_{number}")
        return [(calls, host, it) for it in found if it != host]

    with ThreadPoolExecutor(jobs) as pool:
        return [it for found in pool.map(compared, range(count)) for it in found]
