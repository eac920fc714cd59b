"""Tests that need the program, which are skipped, with a word, where it isn't built. They prove and build nothing."""

import os
import sys
import unittest
from functools import cache
from unittest.mock import patch

from checkout import BUILT, NOT_BUILT, ROOT, is_built

PROGRAM = ROOT / BUILT


@cache
def tell_once() -> None:
    print(f"\ntests are skipped: {NOT_BUILT}", file=sys.stderr)


def skip_unless_built() -> None:
    """Skips a test, or a class of them, where the program isn't built. This is told once, since unittest prints a letter alone."""
    if not is_here():
        tell_once()
        raise unittest.SkipTest(NOT_BUILT)


@cache
def is_here() -> bool:
    """Whether the program of this checkout is built."""
    return is_built()


def name_program() -> None:
    """Has the tools called by the tests of a module find the program: the one that the environment names, else that of this checkout,
    without which the module is skipped."""
    if not os.environ.get("CARDHOUSE"):
        skip_unless_built()
        names = patch.dict(os.environ, {"CARDHOUSE": str(PROGRAM)})
        names.start()
        unittest.addModuleCleanup(names.stop)


class Built(unittest.TestCase):
    @classmethod
    def setUpClass(cls) -> None:
        skip_unless_built()
