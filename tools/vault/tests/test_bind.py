"""Bindings: what is written compiles without a warning, and does what the proved machine does."""
from __future__ import annotations

import contextlib
import errno
import io
import shutil
import subprocess
import tempfile
import unittest
from pathlib import Path
from typing import Dict, List

from vault import cli, paths, programs
from vault.bind import certificate
from vault.bind.naming import Scope, base_name, c_name
from vault.commands import bind
from vault.errors import Problem
from vault.tests import drivers_compiled as drivers

EXAMPLES = paths.TOP / "examples"
RUNTIME = paths.TOP / "runtime"
LIB = paths.TOP / "lib"
DRIVERS = Path(__file__).parent / "drivers"
SANITIZE = ("-fsanitize=address,undefined", "-fno-sanitize-recover=all", "-g")
LISTS = 25


def compilers() -> List[str]:
    return [name for name in ("gcc", "clang") if shutil.which(name)]


class Bindings(unittest.TestCase):
    def setUp(self) -> None:
        if not compilers():
            self.skipTest("there is no C compiler")
        folder = tempfile.TemporaryDirectory()
        self.addCleanup(folder.cleanup)
        self.folder = Path(folder.name)

    def emit(self, source: Path) -> Path:
        text = self.folder / f"{source.stem}.c"
        text.write_text(programs.take("vaultc").ask(["emit", str(source)]).output, encoding="utf-8")
        return text

    def vault(self, *words: str) -> int:
        with contextlib.redirect_stdout(io.StringIO()) as said:
            status = cli.dispatch(list(words))
        self.said = said.getvalue()
        return status

    def test_hosts_and_libraries_of_all_examples_compile(self) -> None:
        for source in sorted(EXAMPLES.glob("*.v")):
            if programs.take("vaultc").ask(["check", str(source)]).status == 0:
                with self.subTest(source.name):
                    self.compile_bindings(self.emit(source))

    def compile_bindings(self, text: Path) -> None:
        for side, name in (("host", f"{text.stem}_host.c"), ("library", f"{text.stem}_lib.c")):
            self.assertEqual(self.vault("bind", side, str(text), "--to", str(self.folder)), 0)
            for compiler in compilers():
                words = [compiler, *drivers.FLAGS, "-I", str(self.folder), "-I", str(RUNTIME), "-fsyntax-only", str(self.folder / name)]
                subprocess.run(words, check=True)

    def test_headers_are_read_by_cpp(self) -> None:
        if shutil.which("g++") is None:
            self.skipTest("there is no g++")
        text = self.emit(EXAMPLES / "device.v")
        self.compile_bindings(text)
        both = self.folder / "both.cpp"
        both.write_text('#include "device.h"\n#include "device_host.h"\nint main() { device_begin(); return 0; }\n')
        subprocess.run(["g++", "-Wall", "-Wextra", "-pedantic", "-fsyntax-only", "-I", str(self.folder), str(both)], check=True)

    def test_names_that_clash(self) -> None:
        source = self.folder / "odd.v"
        source.write_text(ODD, encoding="utf-8")
        text = self.emit(source)
        self.compile_bindings(text)
        both = self.folder / "both.cpp"
        both.write_text('#include <cerrno>\n#include "odd.h"\nint main() { struct odd_schlufcssel_ s; return !odd_begin_(&s); }\n', encoding="utf-8")
        host = self.folder / "host.c"
        host.write_text(ODD_HOST, encoding="utf-8")
        for words in (["g++", str(both)], ["cc", "-std=gnu99", str(host)], ["g++", "-x", "c++", str(host)]):
            if shutil.which(words[0]):
                subprocess.run([words[0], "-Wall", "-Wextra", "-Werror", "-fsyntax-only", "-I", str(self.folder), *words[1:]], check=True)

    def test_states_that_a_call_leaves_are_a_set_in_the_header(self) -> None:
        text = self.emit(DRIVERS / "valve.v")
        for side in ("host", "library"):
            self.assertEqual(self.vault("bind", side, str(text), "--to", str(self.folder)), 0)
        library, host = ((self.folder / name).read_text() for name in ("valve.h", "valve_host.h"))
        self.assertIn("/* [M@shut->{running,stuck}, N]; M is left in one of @{running,stuck}; N is left in one of @{shut,running,stuck} */", library)
        self.assertIn("state_of_M: one of @{running,stuck}; state_of_N: one of @{shut,running,stuck} */", host)
        self.assertIn("enum valve_flow state_0; /* one of @{shut,running} */", host)

    def test_answers_outside_the_clause(self) -> None:
        source = self.folder / "asked.v"
        source.write_text(ASKED)
        text = self.emit(source)
        self.assertEqual(self.vault("bind", "host", str(text), "--to", str(self.folder)), 0)
        right = "*state_of_D = asked_power_on; return (struct asked_found) {.which = asked_found_None};"
        # each of these isn't compiled: a number, a case that there isn't, nothing, a state
        for wrong in ("return 7;", "return (struct asked_found) {.which = asked_found_Lost};", "return;", "return asked_power_on;"):
            with self.subTest(wrong):
                self.assertNotEqual(self.asked(text, wrong).returncode, 0)
        self.assertEqual(self.asked(text, right).returncode, 0)
        runs = {right: (0, "3\n"), right.replace("_on", "_hot"): (0, "3\n"), right.replace("_on", "_off"): (11, "answer 2 bad\n")}
        runs[right.replace("asked_power_on", "(enum asked_power) 77")] = (11, "answer 2 bad\n")
        for answer, ending in runs.items():
            with self.subTest(answer):
                self.asked(text, answer)
                done = subprocess.run([str(self.folder / "asked")], stdout=subprocess.PIPE, universal_newlines=True)
                self.assertEqual((done.returncode, done.stdout), ending)

    def asked(self, text: Path, answer: str) -> "subprocess.CompletedProcess[str]":
        """Compiles a host of which one external answers so."""
        host = self.folder / "answers.c"
        host.write_text(ASKED_HOST.replace("ANSWER", answer))
        files = [RUNTIME / name for name in ("vault_main.c", "vault_rt.c", "numbers.c", "vault_bind.c")] + [self.folder / "asked_host.c", host]
        words = ["cc", *drivers.FLAGS, f'-DVAULT_PROGRAM="{text}"', "-I", str(self.folder), "-I", str(RUNTIME)]
        return subprocess.run([*words, *map(str, files), "-o", str(self.folder / "asked")], stderr=subprocess.PIPE, universal_newlines=True)

    def test_a_file_that_is_not_verified_is_refused(self) -> None:
        text = self.emit(EXAMPLES / "device.v")
        text.write_text(text.read_text().replace("p0 -> n [ 1 ] = 0", "p0 -> n [ 1 ] = 1"))
        self.assertEqual(self.vault("bind", "library", str(text), "--to", str(self.folder / "none")), 12)
        self.assertIn("refused 5", self.said)
        self.assertFalse((self.folder / "none").exists())

    def test_a_file_that_is_not_there_is_told(self) -> None:
        with self.assertRaises(Problem) as told:
            self.vault("bind", "host", "nowhere.c")
        self.assertEqual((told.exception.status, told.exception.message), (2, "nowhere.c: the file can't be read: there is no file of this name"))

    def test_libraries_do_what_the_host_command_does(self) -> None:
        for source in (EXAMPLES / "device.v", EXAMPLES / "tutorial" / "10_driver.v", DRIVERS / "pump.v", DRIVERS / "valve.v"):
            with self.subTest(source.name):
                self.assertEqual(drivers.differences(self.driver(source), LISTS, 59, self.folder), [])

    def driver(self, source: Path) -> drivers.Driver:
        """A driver with its library by each compiler, under a name that no file of runtime/ has."""
        name = self.folder / f"d_{source.name}"
        shutil.copyfile(source, name)
        return drivers.build(name, self.folder, [(compiler, *SANITIZE) for compiler in compilers()])

    def test_why_calls_are_refused(self) -> None:
        text = self.emit(DRIVERS / "pump.v")
        self.assertEqual(self.vault("bind", "library", str(text), "--to", str(self.folder)), 0)
        files = [RUNTIME / name for name in ("vault_rt.c", "numbers.c", "replay.c", "vault_library.c")]
        files += [self.folder / "pump_lib.c", Path(__file__).parent / "lib" / "refusals.c"]
        words = ["cc", *drivers.FLAGS, *SANITIZE, "-I", str(self.folder), "-I", str(RUNTIME), *map(str, files), "-o", str(self.folder / "refusals")]
        subprocess.run(words, check=True)
        answers = self.folder / "answers"
        usual = {"VAULT_ANSWERS": str(answers)}
        endings = {"": ["answers ended"] * 7, "1 2\n": ["answer 1 bad"] * 7, "1\n": ["came back"] * 5 + ["trap 2"] * 2}
        for answer, last in endings.items():
            with self.subTest(answer):
                answers.write_text(answer)
                self.assertEqual(self.refusals(usual), REFUSED + last)
        self.assertEqual(self.refusals({**usual, "VAULT_HEAP": "1"}), REFUSED[:3] + ["budget heap"] * (len(REFUSED) + 4))

    def refusals(self, environment: Dict[str, str]) -> List[str]:
        done = subprocess.run([str(self.folder / "refusals")], env=environment, stdout=subprocess.PIPE, universal_newlines=True, check=True)
        return [line for line in done.stdout.splitlines() if not line.startswith("@")]

    def test_a_library_knows_the_state_that_a_clause_leaves_open(self) -> None:
        pump = self.driver(DRIVERS / "pump.v")
        calls = ["install 1 1", "install 1 1", "is_faster #1 #2", "remove #2", "start #1", "is_faster #1 #1"]
        host, compiled = drivers.outcomes(pump, calls, [], self.folder)
        self.assertEqual(host.splitlines()[-3:], ["!remove #2", "!start #1", "call 6 bad"])
        self.assertEqual(set(compiled), {host})
        valve = self.driver(DRIVERS / "valve.v")
        calls = ["connect", "connect", "move #1 #2", "mend #1", "test #2", "mend #2", "test #2", "leave #2", "leave #1"]
        host, compiled = drivers.outcomes(valve, calls, ["0", "1", "2 2", "", "1 7", "", "0 1", "", ""], self.folder)
        self.assertEqual(host.splitlines()[-2:], ["!leave #1", "@detach #1"])
        self.assertEqual(set(compiled), {host})

    def test_a_text_that_keeps_states_is_the_emitted_one_with_lines(self) -> None:
        text = self.emit(DRIVERS / "valve.v")
        self.assertEqual(self.vault("bind", "library", str(text), "--to", str(self.folder)), 0)
        made = (self.folder / "valve_states.c").read_text().splitlines()
        self.assertEqual([line for line in made if not line.startswith("vault_")], text.read_text().split("/*VAULT-CERT")[0].splitlines())
        self.assertEqual(len([line for line in made if line.startswith("vault_set_state")]), 10)
        self.assertEqual(self.vault("bind", "library", str(self.emit(EXAMPLES / "device.v")), "--to", str(self.folder)), 0)
        self.assertFalse((self.folder / "device_states.c").exists())

    def test_the_echo_service(self) -> None:
        text = self.emit(EXAMPLES / "echo.v")
        self.assertEqual(self.vault("bind", "host", str(text), "--to", str(self.folder)), 0)
        client = self.folder / "client"
        subprocess.run(["cc", "-O1", "-o", str(client), str(RUNTIME / "echo_client.c")], check=True)
        files = [RUNTIME / name for name in ("vault_main.c", "vault_rt.c", "numbers.c", "vault_bind.c")]
        files += [self.folder / "echo_host.c", EXAMPLES / "hosts" / "echo_host.c"]
        for compiler in compilers():
            with self.subTest(compiler):
                service = self.folder / f"echo_{compiler}"
                words = [compiler, *drivers.FLAGS, *SANITIZE, f'-DVAULT_PROGRAM="{text}"', "-I", str(self.folder), "-I", str(RUNTIME)]
                subprocess.run([*words, *map(str, files), "-o", str(service)], check=True)
                done = subprocess.run([str(client), str(service)], stdout=subprocess.PIPE, universal_newlines=True, timeout=600)
                self.assertEqual(done.returncode, 0, done.stdout)

    def test_the_file_copier(self) -> None:
        source = self.folder / "copy.v"
        source.write_text((LIB / "file.v").read_text() + (EXAMPLES / "hosts" / "copy.v").read_text())
        text = self.emit(source)
        self.assertEqual(self.vault("bind", "host", str(text), "--name", "lib", "--to", str(self.folder)), 0)
        files = [RUNTIME / name for name in ("vault_main.c", "vault_rt.c", "numbers.c", "vault_bind.c")]
        files += [self.folder / "lib_host.c", LIB / "common.c", LIB / "file.c"]
        program = self.folder / "copy"
        words = ["cc", "-std=gnu99", *drivers.FLAGS[1:], *SANITIZE, f'-DVAULT_PROGRAM="{text}"', "-I", str(self.folder), "-I", str(RUNTIME)]
        subprocess.run([*words, *map(str, files), "-o", str(program)], check=True)
        data = bytes(range(256)) * 40
        (self.folder / "from").write_bytes(data)

        def copied(*names: str) -> int:
            return int(subprocess.run([str(program), *names], cwd=self.folder, stdout=subprocess.PIPE, check=True).stdout)

        self.assertEqual(copied("from", "to"), 0)
        self.assertEqual((self.folder / "to").read_bytes(), data)
        self.assertEqual(copied("nothing", "to"), errno.ENOENT)
        self.assertEqual(copied("from", "/dev/full"), errno.ENOSPC)
        self.assertEqual(copied(".", "to"), errno.EISDIR)
        self.assertEqual(copied("from"), errno.EINVAL)

    def test_objects_that_cannot_come_back_are_freed(self) -> None:
        self.assertLess(self.kilobytes("packets", PACKETS, PACKETS_HOST), 1000)

    def test_a_mutex_is_locked_a_million_times(self) -> None:
        self.assertLess(self.kilobytes("mutexes", MUTEXES, MUTEXES_HOST), 1000)

    def test_what_a_call_takes_in_some_cases_is_freed_there(self) -> None:
        self.assertLess(self.kilobytes("senders", SENDERS, SENDERS_HOST), 1000)

    def kilobytes(self, name: str, text: str, host: str) -> int:
        """The number that a program prints last, by which its memory grew."""
        (self.folder / f"{name}.v").write_text(text)
        emitted = self.emit(self.folder / f"{name}.v")
        self.assertEqual(self.vault("bind", "host", str(emitted), "--name", "it", "--to", str(self.folder)), 0)
        outside = self.folder / "outside.c"
        outside.write_text(MEMORY + host)
        files = [RUNTIME / it for it in ("vault_main.c", "vault_rt.c", "numbers.c", "vault_bind.c")] + [self.folder / "it_host.c", outside]
        words = ["cc", "-O1", "-DVAULT_REUSE", f'-DVAULT_PROGRAM="{emitted}"', "-I", str(self.folder), "-I", str(RUNTIME)]
        subprocess.run([*words, *map(str, files), "-o", str(self.folder / name)], check=True)
        measured = subprocess.run([str(self.folder / name)], stdout=subprocess.PIPE, universal_newlines=True, check=True)
        return int(measured.stdout.split()[-1])

    def test_records_of_objects_that_may_be_gone_are_not_used_again(self) -> None:
        heads = {
            "extern void id(tracked(L) m k) [];": "id",
            "extern void lend(tracked(L) box k) [+L];": "lend",
            "extern void peek(tracked(L) m k, L:box b) [+L];": "peek",
            "extern void back(tracked(L) m k) [+L];": "",
        }
        for told, error in heads.items():
            with self.subTest(told):
                source = self.folder / "told.v"
                source.write_text(f"abstract m;\nstruct box {{ int n; }}\n{told}\nvoid main() {{}}\n")
                self.assertEqual(self.vault("bind", "host", str(self.emit(source)), "--to", str(self.folder)), 0)
                words = ["cc", "-DVAULT_REUSE", "-fsyntax-only", "-I", str(RUNTIME), "-I", str(self.folder), str(self.folder / "told_host.c")]
                said = subprocess.run(words, stderr=subprocess.PIPE, universal_newlines=True)
                self.assertEqual(said.returncode == 0, error == "")
                self.assertIn(f"{error} may be told of an object that is gone" if error else "", said.stderr)


REFUSED = [
    "install: the library hasn't begun",
    "stop: p must be held@on",
    "came back",
    "came back",
    "is_faster: p and q must be different objects",
    "stop: p must be held@on",
    "came back",
    "remove: p must be held@off",
    "came back",
    "remove: p must be held@off",
    "came back",
]

# names that are macros or keywords of C++, or that stand for one name of C
ODD = """\
stateset a { b_c, linux }
stateset a_b { c }
abstract object;
variant which {
    'which(int),
    'errno(int),
    'begin
}
variant host {
    'class
}
struct schlüssel@a {
    int n;
}
struct schlufcssel@a {
    int n;
}
extern which begin(int errno, bool unix);
extern host class(int template);
extern tracked(K) object made(int stdin) [new K];
extern void drop(tracked(K) object this) [-K];
tracked(K) schlufcssel begin_() [new K@b_c] {
    tracked(N) schlufcssel s = new schlufcssel { n: 1 };
    return s;
}
tracked(K) schlüssel refused(int result, bool virtual) [new K@b_c] {
    tracked(N) schlüssel s = new schlüssel { n: result };
    return s;
}
void private(tracked(K) schlüssel objects, int errno) [-K@{ b_c, linux }] {
    release objects;
}
void main() {}
"""

ODD_HOST = """\
#include <errno.h>
#include <stddef.h>
#include "odd_host.h"
struct odd_object_ { int n; };
void odd_host_begin(void) {}
struct odd_which odd_host_begin_(long long errno_, bool unix_)
{
    struct odd_which given;
    given.which = unix_ ? odd_which_errno : odd_which_which;
    given.errno_.value_0 = errno_;
    given.which_.value_0 = odd_a_b_c;
    return given;
}
struct odd_host odd_host_class(long long template_)
{
    struct odd_host given;
    given.which = odd_host_class_;
    (void) template_;
    return given;
}
struct odd_object_ *odd_host_made(long long stdin_) { (void) stdin_; return NULL; }
void odd_host_drop(struct odd_object_ *this_) { (void) this_; (void) odd_a_b_c_; }
"""

ASKED = """\
stateset power { off, on, hot }
abstract dev@power;
variant found {
    'None,
    'Some(int)
}
extern tracked(D) dev make() [new D@off];
extern found ask(tracked(D) dev d) [D@off->{ on, hot }];
extern void drop(tracked(D) dev d) [-D];
void main() {
    tracked(D) dev d = make();
    found f = ask(d);
    drop(d);
    print(3);
}
"""

ASKED_HOST = """\
#include <stddef.h>
#include "asked_host.h"
struct asked_dev { int n; };
static struct asked_dev one;
void asked_host_begin(void) {}
struct asked_dev *asked_host_make(void) { return &one; }
struct asked_found asked_host_ask(struct asked_dev *d, enum asked_power *state_of_D)
{
    (void) d;
    (void) state_of_D;
    ANSWER
}
void asked_host_drop(struct asked_dev *d) { (void) d; }
"""

PACKETS = """\
abstract packet;
extern tracked(P) packet build(int n) [new P];
extern void send(tracked(P) packet p) [-P];
extern int memory();
void main() {
    int before = memory();
    int i = 0;
    while (i < 1000000) {
        tracked(P) packet p = build(i);
        send(p);
        i = i + 1;
    }
    int after = memory();
    print(after - before);
}
"""

MEMORY = """\
#include <malloc.h>
#include <stdlib.h>
#include "it_host.h"
void it_host_begin(void) {}
long long it_host_memory(void) { return (long long) mallinfo2().uordblks / 1024; }
"""

PACKETS_HOST = """\
struct it_packet { long long n; };
struct it_packet *it_host_build(long long n)
{
    struct it_packet *made = malloc(sizeof *made);
    made->n = n;
    return made;
}
void it_host_send(struct it_packet *p) { free(p); }
"""

# each turn makes an object that goes while the mutex stays
MUTEXES = """\
abstract mutex;
struct job {
    int n;
}
extern tracked(L) mutex create() [new L];
extern void acquire(tracked(L) mutex m) [+L];
extern void unlock(tracked(L) mutex m) [-L];
extern int memory();
void main() {
    tracked(L) mutex m = create();
    unlock(m);
    int before = memory();
    int i = 0;
    while (i < 1000000) {
        tracked(J) job j = new job { n: i };
        acquire(m);
        unlock(m);
        release j;
        i = i + 1;
    }
    int after = memory();
    print(after - before);
}
"""

MUTEXES_HOST = """\
struct it_mutex { int held; };
struct it_mutex *it_host_create(void) { return calloc(1, sizeof(struct it_mutex)); }
void it_host_acquire(struct it_mutex *m) { m->held++; }
void it_host_unlock(struct it_mutex *m) { m->held--; }
"""

# one packet stays, so that the table of things has an old one; of the others the call keeps each second one
SENDERS = """\
abstract packet;
variant sent<P: packet> {
    'Sent,
    'Kept { P }
}
extern tracked(P) packet build(int n) [new P];
extern tracked sent<P> send(tracked(P) packet p) [-P];
extern void drop(tracked(P) packet p) [-P];
extern int memory();
void try(int n) {
    tracked(P) packet p = build(n);
    tracked sent<P> s = send(p);
    switch (s) {
        case 'Sent: {}
        case 'Kept: {
            drop(p);
        }
    }
}
void main() {
    tracked(P) packet kept = build(0);
    int before = memory();
    int i = 0;
    while (i < 1000000) {
        try(i);
        i = i + 1;
    }
    int after = memory();
    drop(kept);
    print(after - before);
}
"""

SENDERS_HOST = """\
struct it_packet { long long n; };
struct it_packet *it_host_build(long long n)
{
    struct it_packet *made = malloc(sizeof *made);
    made->n = n;
    return made;
}
struct it_sent it_host_send(struct it_packet *p)
{
    struct it_sent sent = {.which = p->n % 2 == 0 ? it_sent_Sent : it_sent_Kept};
    if (sent.which == it_sent_Sent) {
        free(p);
    }
    return sent;
}
void it_host_drop(struct it_packet *p) { free(p); }
"""


class Names(unittest.TestCase):
    def test_keywords_and_clashes(self) -> None:
        self.assertEqual(c_name("int"), "int_")
        self.assertEqual(c_name("schlüssel"), "schlufcssel")
        scope = Scope()
        self.assertEqual([scope.add(name) for name in ("a", "a", "while", "while_")], ["a", "a_", "while_", "while__"])
        self.assertEqual(base_name(Path("10-driver.c")), "v_10u2ddriver")

    def test_states_below_a_bound(self) -> None:
        rows = [["vault", 2], ["states", "level", ["low", "mid", "high"], [[0, 1], [1, 2]]], ["abstract", "cpu", 0]]
        rows.append(["fn", "log", ["void"], 1, [[4, 0, 1, -1]], [["K", 0]], [["c", ["key", 0, 0, []]]], 0])
        heads = certificate.certificate(rows)
        self.assertEqual(heads.before(heads.functions[0], heads.functions[0].clause[0]), 0b011)
        self.assertEqual(sorted(bind.host_files("x", heads)), ["x_host.c", "x_host.h"])


if __name__ == "__main__":
    unittest.main()
