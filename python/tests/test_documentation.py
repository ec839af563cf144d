"""The examples in the module's own pages, and those of docs/BINDINGS.md."""

import doctest
import unittest

import lindypo
import lindypo.build
import lindypo.sheet

from places import ROOT

PAGE = "docs/BINDINGS.md"


def session():
    """What the page types at Python, one block after the other, at the top of the repository."""
    blocks = (ROOT / PAGE).read_text().split("```")[1::2]
    typed = "\n".join(block for block in blocks if ">>> " in block)
    return doctest.DocTestParser().get_doctest(typed, {}, PAGE, PAGE, 0)


def load_tests(loader, tests, pattern):
    for module in (lindypo, lindypo.build, lindypo.sheet):
        tests.addTests(doctest.DocTestSuite(module))
    tests.addTest(doctest.DocTestCase(session()))
    return tests


if __name__ == "__main__":
    unittest.main()
