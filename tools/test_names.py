"""Tests of the names that `bench/names` has looked up."""

import unittest
from importlib.machinery import SourceFileLoader
from importlib.util import module_from_spec, spec_from_loader
from pathlib import Path
from types import ModuleType

from faults.tokens import tokens

SCRIPT = Path(__file__).resolve().parent.parent / "bench/names"


def script() -> ModuleType:
    """The script, which has no `.py` behind its name."""
    loader = SourceFileLoader("names", str(SCRIPT))
    spec = spec_from_loader("names", loader)
    assert spec
    module = module_from_spec(spec)
    loader.exec_module(module)
    return module


NAMES = script()
COUNT = 1000


class Words(unittest.TestCase):
    def test_all_differ_and_are_variables(self) -> None:
        for name, chosen in NAMES.WORDS.items():
            with self.subTest(name):
                words = list(chosen(COUNT))
                self.assertEqual(len(set(words)), COUNT)
                for word in words:
                    self.assertTrue(word.startswith(b"'") and len(word) <= 64 and all(byte in NAMES.ATOM for byte in word), word)

    def test_words_of_one_hash_have_one(self) -> None:
        self.assertEqual({NAMES.hash_of(word) for word in NAMES.colliding(COUNT)}, {0})

    def test_other_words_of_that_length_have_many(self) -> None:
        self.assertGreater(len({NAMES.hash_of(b"'%031d" % i) for i in range(COUNT)}), COUNT - 3)


class Sheets(unittest.TestCase):
    def test_each_stays_below_the_limit_and_has_all_names(self) -> None:
        for command, sheet, names, behind in NAMES.RUNS:
            for name in names:
                with self.subTest(f"{command} {sheet.__name__}, {name}"):
                    chosen = NAMES.WORDS[name]
                    words = set(chosen(COUNT))
                    source = sheet(iter(words)) + behind
                    atoms = {token.text.encode("latin-1") for token in tokens(source)}
                    self.assertTrue(all(word in atoms or word.lstrip(b"'") in atoms for word in words))
                    largest = sheet(chosen(NAMES.SIZES[-1])) + behind
                    self.assertLessEqual(len(largest), 33_554_432 if behind else 1_048_576)


if __name__ == "__main__":
    unittest.main()
