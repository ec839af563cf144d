"""Random sheets and the worst shapes, against the reference in Rust."""

import json
import unittest

from lindypo import Kind, Refusal, Sheet, print_text
from lindypo.build import Group
from lindypo.constants import Column, RESULT_CELLS, TABLE_CELLS, TEXT_MOST

from places import CASES
from prints import printed


def cases():
    """Each case's name, text, and what the reference wants."""
    for file in sorted(CASES.glob("*.sheet")):
        yield file.stem, file.read_bytes(), json.loads(file.with_suffix(".json").read_text())


def rows(cells, width):
    return [cells[at : at + width] for at in range(0, len(cells), width)]


class Cases(unittest.TestCase):
    def test_all(self):
        met = {}
        for name, text, wanted in cases():
            with self.subTest(name):
                met_here = self.check(text, wanted)
                met[met_here] = met.get(met_here, 0) + 1
                self.assertEqual(print_text(text), printed(text))
        # row 4 is about buffers, and those of the module are long enough; 17 and 18 are Follow's, 19 to 21 Retouch's
        self.assertEqual(sorted(met), [0, 1, 2, 3] + list(range(5, 17)))

    def check(self, text, wanted):
        """The refusal that the sheet met, 0 where it has none."""
        number = self.refusal(lambda: Sheet.read(text), wanted["read"], wanted["line"])
        if number:
            return number
        sheet = Sheet.read(text)
        self.lines(sheet, *wanted["read"]["buffers"])
        self.follow(sheet, wanted)
        number = self.refusal(sheet.plan, wanted["plan"], wanted["line"])
        if self.refusal(sheet.run, wanted["run"], wanted["line"]):
            return number
        self.run_is(sheet, wanted["run"])
        return 0

    def refusal(self, call, wanted, line):
        number, place, _, _ = wanted["reply"]
        try:
            call()
        except Refusal as refusal:
            found = (refusal.number, refusal.place, refusal.line)
            self.assertEqual(found, (number, place, line))
        else:
            self.assertEqual(number, 0)
        return number

    def lines(self, sheet, table):
        for line, cells in zip(sheet.lines, rows(table, TABLE_CELLS)):
            start, length = cells[Column.NAME_START], cells[Column.NAME_LENGTH]
            name = sheet.text[start : start + length].decode()
            kind, fields, links = cells[Column.KIND], cells[Column.A : Column.OWNER], cells[Column.OWNER :]
            self.assertEqual((line.kind, line.name or ""), (kind, name))
            self.assertEqual([line.a, line.b, line.c], fields)
            self.assertEqual([line.owner or 0, line.target or 0], links)
        self.assertEqual(TABLE_CELLS * len(sheet.lines), len(table))
        for name, label in sheet.names.items():
            self.assertEqual(sheet.find(name), label)

    def run_is(self, sheet, wanted):
        _, _, count, order = wanted["reply"]
        _, plan, results = wanted["buffers"]
        run = sheet.run()
        self.assertEqual(run.plan, (tuple(plan[:count]), order))
        self.values_are(sheet, run.values, results)

    def values_are(self, sheet, values, results):
        by_label = {label: (0, 0, 0) for label in range(1, len(sheet.lines) + 1)}
        for name, (state, number, steps) in values.items():
            by_label[sheet.find(name)] = (state, number or 0, steps)
        self.assertEqual([list(cells) for cells in by_label.values()], rows(results, RESULT_CELLS))

    def follow(self, sheet, wanted):
        order, (number, place, _, _) = wanted["order"], wanted["follow"]["reply"]
        try:
            values = sheet.follow(order)
        except Refusal as refusal:
            self.assertEqual((refusal.number, refusal.place), (number, place))
        else:
            self.assertEqual(number, 0)
            self.values_are(sheet, values, wanted["follow"]["buffers"][1])


class Retouched(unittest.TestCase):
    """New numbers in the N lines of a sheet: what comes of it is Run's, of the sheet with
    these numbers."""

    NUMBERS = (0, 1, -3, 10**9, -(10**9), 77)

    def test_numbers_put_in(self):
        changed = 0
        for name, text, wanted in cases():
            if wanted["run"]["reply"][0] == 0:
                with self.subTest(name):
                    changed += self.check(Sheet.read(text))
        self.assertGreater(changed, 100)

    def check(self, sheet):
        """Whether a value changed."""
        labels = [line.label for line in sheet.lines if line.kind is Kind.NUMBER]
        pairs = [(label, self.NUMBERS[(label + at) % 6]) for at, label in enumerate(labels[-4:] + labels[:2])]
        run, retouched = sheet.run(), sheet.retouch(pairs)
        text = sheet.with_numbers(pairs)
        if len(text) <= TEXT_MOST:
            self.assertEqual(Sheet.read(text).run(), (retouched.plan, retouched.values))
        if pairs:
            outcomes = retouched.values.values()
            failing = sum(outcome.number is None for outcome in outcomes)
            steps = sum(outcome.steps for outcome in outcomes)
            self.assertEqual(retouched.changes[-1][1:], (failing, steps))
        return run.values != retouched.values


class Built(unittest.TestCase):
    def test_what_a_sheet_holds_built_again(self):
        built = 0
        for name, text, wanted in cases():
            if wanted["read"]["reply"][0] == 0:
                with self.subTest(name):
                    self.check(Sheet.read(text), wanted["built"])
                    built += 1
        self.assertGreater(built, 100)

    def check(self, sheet, wanted):
        again = Sheet.read(Group.of_sheet(sheet).text())
        self.assertEqual(again.text.decode(), wanted)
        self.assertEqual(set(again.names), set(sheet.names))
        self.assertEqual(Group.of_sheet(again).text(), again.text)
        try:
            values = sheet.run().values
        except Refusal as refusal:
            with self.assertRaises(Refusal) as found:
                again.run()
            self.assertEqual(found.exception.number, refusal.number)
        else:
            self.assertEqual(again.run().values, values)
