"""What must be believed of each clause stays below its ceiling, and is what docs/PROMISES.md says."""
from __future__ import annotations

import unittest

from vault import believed
from vault.paths import TOP


class Counts(unittest.TestCase):
    @classmethod
    def setUpClass(cls) -> None:
        cls.found = believed.all_believed(TOP)

    def of(self, name: str) -> believed.Believed:
        return next(found for found in self.found if found.clause.name == name)

    def test_no_clause_reaches_more_than_its_ceiling(self) -> None:
        self.assertEqual(believed.above_ceilings(TOP, self.found), [])

    def test_each_ceiling_is_of_a_clause(self) -> None:
        labels = {believed.label(found.clause) for found in self.found}
        self.assertEqual(set(believed.read_ceilings(TOP)) - labels, set())

    def test_every_name_is_found(self) -> None:
        for found in self.found:
            with self.subTest(found.clause.name):
                self.assertEqual([str(name) for name in found.code if "declared" not in name.module], [])

    def test_the_public_call_has_its_clauses(self) -> None:
        names = {found.clause.name for found in self.found if found.clause.call == believed.PUBLIC_CALLS[0]}
        self.assertLessEqual({"every_store", "told", "promised", "compiled", "verified", "hosted", "linked", "unread"}, names)

    def test_names_are_followed_where_they_stand(self) -> None:
        reached = {(found.file.name, found.name) for found in self.of("promised").definitions}
        self.assertLessEqual({("Derives.antt", "IsAccepted"), ("Promise.antt", "NeverGoesWrong"), ("Programs.antt", "IsProgramOf")}, reached)
        self.assertNotIn("Lowering.antt", {name for name, _ in reached})

    def test_constants_of_the_code_have_values(self) -> None:
        for constant in self.of("told").constants():
            with self.subTest(str(constant)):
                self.assertNotEqual(believed.value_of(TOP / "crates", constant), "")


class Imports(unittest.TestCase):
    def test_definitions_import_from_no_proofs(self) -> None:
        self.assertEqual(believed.imports_of_proofs(TOP / "crates"), [])


class Contracts(unittest.TestCase):
    def test_clauses_end_at_their_braces(self) -> None:
        module = believed.Module(TOP)
        contract = "pub fn f() ensures one { (a : List { b }) → c } ensures { d }\n    // ensured\n{"
        said = [(clause.name, clause.text) for clause in believed.clauses_of("x::f", contract, module)]
        self.assertEqual(said, [("one", "{ (a : List { b }) → c "), ("f", "{ d ")])


if __name__ == "__main__":
    unittest.main()
