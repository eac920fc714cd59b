"""Tests of tools/statements.py."""

import tempfile
import unittest
from pathlib import Path

import statements
from statements import Names

FIRST = "lemma : (xs : List ℕ) (n : ℕ) → n ≤ length xs → length xs ≡ 0 → All (λ k. k ≤ n) xs"


class Statements(unittest.TestCase):
    def said(self, text: str, parameters: str = "") -> str | None:
        head = statements.HEAD.match(text)
        return statements.says(head[2], parameters, Names()) if head else None

    def test_what_states_the_same(self) -> None:
        for text in (
            "other : (n : ℕ) (ys : List ℕ) → length ys ≡ 0 → n ≤ length ys → All (λ x. x ≤ n) ys",
            "pub other : {b : ℕ} (as : List ℕ) → (p : b ≤ length as) → length as ≡ 0 → All (λ k. k ≤ b) as",
        ):
            with self.subTest(text):
                self.assertEqual(self.said(text), self.said(FIRST))

    def test_parameters_of_modules_are_arguments(self) -> None:
        inner = "lemma : length xs ≡ 0 → All (λ k. k ≤ n) xs"
        self.assertEqual(self.said(inner, "(xs : List ℕ) (n : ℕ) (most : n ≤ length xs)"), self.said(FIRST))

    def test_what_states_something_else(self) -> None:
        for text in (
            "lemma : (xs : List ℕ) (n : ℕ) → n < length xs → length xs ≡ 0 → All (λ k. k ≤ n) xs",
            "lemma : (xs : List ℕ) (n : ℕ) → n ≤ length xs → All (λ k. k ≤ n) xs",
            "lemma : (xs : List ℕ) (n m : ℕ) → n ≤ length xs → length xs ≡ 0 → All (λ k. k ≤ m) xs",
            "lemma : (xs ys : List ℕ) (n : ℕ) → n ≤ length xs → length ys ≡ 0 → All (λ k. k ≤ n) xs",
        ):
            with self.subTest(text):
                self.assertNotEqual(self.said(text), self.said(FIRST))

    def test_what_a_definition_gives_is_no_statement(self) -> None:
        for text in ("most : List ℕ → ℕ", "Holds : (n : ℕ) → Type 0", "some : (A : Type 0) → List ℕ → Bool"):
            with self.subTest(text):
                self.assertIsNone(self.said(text))

    def test_a_bound_name_hides_others_in_its_brackets_alone(self) -> None:
        hidden = "lemma : (n : ℕ) → All (λ n. n ≤ 4) (upto n)"
        self.assertEqual(self.said(hidden), self.said("lemma : (m : ℕ) → All (λ k. k ≤ 4) (upto m)"))
        self.assertNotEqual(self.said(hidden), self.said("lemma : (m : ℕ) → All (λ k. m ≤ 4) (upto m)"))


class Files(unittest.TestCase):
    def setUp(self) -> None:
        folder = tempfile.TemporaryDirectory()
        self.addCleanup(folder.cleanup)
        self.root = Path(folder.name)
        self.write("crates.txt", "rc_a:\nrc_b: rc_a\n")

    def write(self, name: str, text: str) -> None:
        file = self.root / name
        file.parent.mkdir(parents=True, exist_ok=True)
        file.write_text(text)

    def again(self) -> list[list[str]]:
        return [list(map(str, lemmas)) for lemmas in statements.said_again(self.root)]

    def test_names_count_by_where_they_come_from(self) -> None:
        self.write("crates/rc_a/specs/A.antt", "pub most : ℕ → ℕ\nmost n = n\n")
        self.write("crates/rc_a/proofs/A.antt", "use Rattle.rc_a.specs.A.{most}\nleast : (n : ℕ) → most n ≡ n\nleast n = refl\n")
        same = "use Rattle.rc_a.specs.A.{most as top}\n\nmodule _ (k : ℕ) where\n  -- so it is\n  is :\n      top k ≡ k\n  is = refl\n"
        self.write("crates/rc_b/proofs/f/Answers.antt", same)
        self.write("crates/rc_b/proofs/B.antt", "most : ℕ → ℕ\nmost n = n\n\nis : (n : ℕ) → most n ≡ n\nis n = refl\n")
        self.assertEqual(self.again(), [["crates/rc_a/proofs/A.antt:2 least", "crates/rc_b/proofs/f/Answers.antt:5 is"]])

    def test_names_that_are_handed_on(self) -> None:
        self.write("crates/rc_a/specs/A.antt", "pub most : ℕ → ℕ\nmost n = n\n")
        self.write("crates/rc_a/specs/Lib.antt", "pub use Rattle.rc_a.specs.A.{most}\n")
        for crate, origin in (("rc_a", "A"), ("rc_b", "Lib")):
            text = f"use Rattle.rc_a.specs.{origin}.{{most}}\nis : (n : ℕ) → most n ≡ n\nis n = refl\n"
            self.write(f"crates/{crate}/proofs/A.antt", text)
        self.assertEqual(len(self.again()), 1)

    def test_what_is_no_lemma(self) -> None:
        fields = "pub record Sound (n : ℕ) : Type 0 where\n  pub most : n ≤ 4\n"
        for crate in ("rc_a", "rc_b"):
            goal = f"use Rattle.{crate}.proofs.f.Goals as goal\npub returns : goal.returns\nreturns c = refl\n"
            self.write(f"crates/{crate}/specs/A.antt", fields)
            self.write(f"crates/{crate}/proofs/f/Answers.antt", f"{goal}abbrev Few : (n : ℕ) → n ≤ 4\nFew n = n\n")
        self.assertEqual(self.again(), [])


if __name__ == "__main__":
    unittest.main()
