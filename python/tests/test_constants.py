"""The constants are those of include/lindypo.h."""

import re
import unittest

from lindypo import constants

from places import ROOT

HEADER = (ROOT / "include/lindypo.h").read_text()

ENUMS = {
    "KIND": constants.Kind,
    "COLUMN": constants.Column,
    "RESULT": constants.Result,
    "CHANGE": constants.ChangeCell,
    "STATE": constants.State,
    "ORDER": constants.Order,
    "TIES": constants.Ties,
    "REFUSAL": constants.RefusalNumber,
}


class Constants(unittest.TestCase):
    def test_version(self):
        self.assertIn(f'#define LINDYPO_VERSION "{constants.VERSION}"\n', HEADER)

    def test_limits(self):
        defined = dict(re.findall(r"^#define LINDYPO_(\w+) (\d+)\b", HEADER, re.M))
        limits = {name: value for name, value in vars(constants).items() if type(value) is int}
        self.assertGreater(len(limits), 7)
        for name, value in limits.items():
            self.assertEqual(int(defined[name]), value, name)

    def test_enums(self):
        for prefix, enum in ENUMS.items():
            declared = re.findall(rf"^    LINDYPO_{prefix}_(\w+) = (\d+)\b", HEADER, re.M)
            members = {name: int(number) for name, number in declared}
            self.assertEqual(members, {it.name: it.value for it in enum}, prefix)

    def test_first_lines(self):
        lines = re.findall(r"^    LINDYPO_TIES_(\w+) = \d+,? +/\* .*; line one is `(.*)` \*/$", HEADER, re.M)
        self.assertEqual(dict(lines), {ties.name: ties.first_line for ties in constants.Ties})

    def test_letters(self):
        letters = re.findall(r"^    LINDYPO_KIND_(\w+) = \d+,? +/\* (\w) \*/$", HEADER, re.M)
        self.assertEqual(dict(letters), {kind.name: kind.letter for kind in constants.Kind})
