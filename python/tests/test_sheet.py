"""What a sheet gives, on sheets written out here and on those of sheets/."""

import threading
import unittest

from lindypo import Kind, Order, Refusal, Sheet, State, Ties, print_text

from places import ROOT
from prints import printed

HEAD = "kind name a b c\nG - 0 - -\n"
EXAMPLE = (ROOT / "sheets/01-example.sheet").read_bytes()


def refusal_of(call, *words):
    """The refusal that a call has to raise."""
    try:
        call(*words)
    except Refusal as refusal:
        return refusal
    raise AssertionError("nothing was refused")


def refused(text):
    refusal = refusal_of(Sheet.read, text)
    return refusal.number, refusal.place, refusal.line


class Text(unittest.TestCase):
    def test_bytes_and_strings(self):
        for text in (EXAMPLE, EXAMPLE.decode(), bytearray(EXAMPLE), memoryview(EXAMPLE)):
            self.assertEqual(Sheet.read(text).text, EXAMPLE)

    def test_a_bytearray_may_change_afterwards(self):
        text = bytearray(EXAMPLE)
        sheet = Sheet.read(text)
        text[:] = b"x" * len(text)
        self.assertEqual(sheet.run(), Sheet.read(EXAMPLE).run())

    def test_what_is_no_text(self):
        for text in (7, None, ["kind"], 1.5):
            with self.assertRaises(TypeError):
                Sheet.read(text)

    def test_any_text_is_judged(self):
        for text in ("", "\0", "\ud800", "\u00e4\n", b"\xff", "x" * 1_000_000):
            self.assertEqual(refusal_of(Sheet.read, text).number, 1, text[:9])


class TieRules(unittest.TestCase):
    """Quotients that are a half, under either line one."""

    LINES = "G - 0 - -\nV x 1 3 -\nD - 4 5 -\nN - {} - -\nN - {} - -\n"

    def sheet(self, ties, a, b):
        return Sheet.read(f"{ties.first_line}\n{self.LINES.format(a, b)}")

    def test_quotients(self):
        for a, b, away, even in (
            (-3250, 100, -33, -32),
            (3250, 100, 33, 32),
            (50, 100, 1, 0),
            (150, 100, 2, 2),
            (-50, 100, -1, 0),
            (-150, 100, -2, -2),
            (350, -100, -4, -4),
            (250, -100, -3, -2),
            (3249, 100, 32, 32),
        ):
            for ties, number in ((Ties.AWAY, away), (Ties.EVEN, even)):
                sheet = self.sheet(ties, a, b)
                self.assertIs(sheet.ties, ties)
                values = {"x": (State.NUMBER, number, 3)}
                self.assertEqual(sheet.run().values, values, (a, b, ties))
                self.assertEqual(sheet.follow(["x"]), values)
                other = self.sheet(ties, 0, b).retouch([(4, a)])
                self.assertEqual(other.values, values)

    def test_line_one_is_kept(self):
        for ties in Ties:
            sheet = self.sheet(ties, 5, 2)
            self.assertIs(Sheet.read(sheet.with_numbers([(4, 7)])).ties, ties)
            for other in Ties:
                again = Sheet.read(sheet.with_ties(other))
                self.assertIs(again.ties, other)
                self.assertEqual(again.with_ties(ties), sheet.text)
        with self.assertRaises(ValueError):
            sheet.with_ties(3)

    def test_other_lines(self):
        for line in ("Kind2 name a b c", "kind3 name a b c", "kind 2 name a b c", "kind2 name a b"):
            self.assertEqual(refused(f"{line}\nG - 0 - -\n"), (2, 0, 1))
        self.assertEqual(refused("kind2 name a b c\r\nG - 0 - -\r\n"), (1, 0, 1))


class Lines(unittest.TestCase):
    def setUp(self):
        self.sheet = Sheet.read(EXAMPLE)

    def test_lines(self):
        lines = self.sheet.lines
        self.assertEqual([line.label for line in lines], list(range(1, 15)))
        self.assertEqual(lines[0], (1, Kind.GROUP, None, 0, 0, 0, None, None))
        self.assertEqual(lines[3], (4, Kind.VALUE, "prism", 3, 9, 0, 3, None))
        self.assertEqual(lines[6], (7, Kind.READ, "right.prism", 0, 0, 0, 2, 4))
        self.assertEqual(lines[13], (14, Kind.NUMBER, None, -325, 0, 0, 5, None))

    def test_names(self):
        names = {"total": 2, "right": 3, "right.prism": 4, "right.sphere": 5}
        self.assertEqual(self.sheet.names, names)
        self.assertEqual([self.sheet.full_name(label) for label in (1, 3, 5)], ["", "right", "right.sphere"])
        with self.assertRaises(KeyError):
            self.sheet.full_name(6)

    def test_find(self):
        for name, label in self.sheet.names.items():
            for typed in (name, name.upper(), name.capitalize(), name.swapcase()):
                self.assertEqual(self.sheet.find(typed), label, typed)
        for name in ("", ".", "sphere", "right.", "right.total", "rights", "right.prism\0", "\u00e4", "\ud800"):
            self.assertIsNone(self.sheet.find(name), name)

    def test_name(self):
        names = [self.sheet.name(label) for label in (1, 2, 7, 8, 14)]
        self.assertEqual(names, [None, "total", "right.prism", None, None])
        for label in (0, -1, 15, 2**63, 2**64 + 2):
            self.assertIsNone(self.sheet.name(label))


class Capitals(unittest.TestCase):
    TEXT = HEAD + "G Right 1 - -\nV sphere 2 4 -\nN - -325 - -\nV Total 1 6 -\nR RIGHT.Sphere - - -\n"

    def test_names_are_as_sent(self):
        sheet = Sheet.read(self.TEXT)
        self.assertEqual(sheet.names, {"Right": 2, "Right.sphere": 3, "Total": 5})
        self.assertEqual(sheet.name(6), "RIGHT.Sphere")
        self.assertEqual(sheet.lines[5].target, 3)
        self.assertEqual(list(sheet.run().values), ["Right.sphere", "Total"])

    def test_names_are_found(self):
        sheet = Sheet.read(self.TEXT)
        self.assertEqual(sheet.full_name(sheet.find("right.SPHERE")), "Right.sphere")
        self.assertEqual(sheet.follow(["RIGHT.SPHERE", "total"]), sheet.run().values)

    def test_letters_outside_ascii(self):
        # the Kelvin sign and the long s become k and s where case goes by Unicode
        sheet = Sheet.read(HEAD + "G ks 1 - -\n")
        self.assertEqual([sheet.find(name) for name in ("KS", "\u212as", "k\u017f")], [2, None, None])

    def test_one_name_twice(self):
        self.assertEqual(refused(HEAD + "G right 1 - -\nG Right 1 - -\n"), (12, 3, 4))
        self.assertEqual(refused(HEAD + "G a 1 - -\nG A 2 - -\nG b 2 - -\nG B 2 - -\n"), (12, 5, 6))

    def test_kinds_and_column_names(self):
        self.assertEqual(refused(HEAD + "g right 1 - -\n"), (6, 2, 3))
        self.assertEqual(refused(HEAD.replace("kind", "Kind")), (2, 0, 1))


class Orders(unittest.TestCase):
    def test_run(self):
        sheet = Sheet.read(EXAMPLE)
        run = sheet.run()
        self.assertEqual(run.plan, sheet.plan())
        self.assertEqual(run.plan, ((5, 4, 2), Order.WHOLE))
        self.assertEqual(list(run.values), ["right.sphere", "right.prism", "total"])
        self.assertEqual(run.values["right.prism"], (State.NUMBER, -33, 5))

    def test_no_values(self):
        sheet = Sheet.read(HEAD)
        self.assertEqual(sheet.run(), (((), Order.WHOLE), {}))
        self.assertEqual(sheet.follow([]), {})

    def test_mixed(self):
        plan = Sheet.read((ROOT / "sheets/03-mixed.sheet").read_bytes()).plan()
        self.assertEqual(plan, ((5, 6, 4, 7), Order.MIXED))

    def test_failures_have_no_number(self):
        outcome = Sheet.read(HEAD + "V x 1 3 -\nD - 4 5 -\nN - 7 - -\nN - 0 - -\n").run().values["x"]
        self.assertEqual(outcome, (State.ZERO_DIVISOR, None, 3))
        self.assertEqual(str(outcome), "divided by zero")

    def test_follow(self):
        sheet = Sheet.read(EXAMPLE)
        values = sheet.run().values
        for order in ([5, 4, 2], ["right.sphere", "right.prism", "total"], ("right.sphere", 4, "total")):
            self.assertEqual(sheet.follow(order), values)
        self.assertEqual(list(sheet.follow(iter([5, 4, 2]))), list(values))

    def test_orders_that_are_refused(self):
        sheet = Sheet.read(EXAMPLE)
        for order, number, place in (
            ([2, 4, 5], 18, 1),
            ([5, 4], 17, 3),
            ([5, 5], 17, 2),
            ([5, "right"], 17, 2),
            ([5, "nobody"], 17, 2),
            ([2**63], 17, 1),
            ([-(2**63)], 17, 1),
            ([2**64 + 5], 17, 1),
            ([5] * 5000, 17, 2),
        ):
            refusal = refusal_of(sheet.follow, order)
            self.assertEqual((refusal.number, refusal.place, refusal.line), (number, place, None))

    def test_what_is_no_label(self):
        for order in ([5.0], [None], [b"total"]):
            with self.assertRaises(TypeError):
                Sheet.read(EXAMPLE).follow(order)

    def test_threads(self):
        sheet = Sheet.read(EXAMPLE)
        wanted, found = sheet.run(), []
        work = lambda: found.extend(sheet.run() == wanted for _ in range(200))
        threads = [threading.Thread(target=work) for _ in range(4)]
        for thread in threads:
            thread.start()
        for thread in threads:
            thread.join()
        self.assertEqual(found, [True] * 800)


class Pairs(unittest.TestCase):
    # prism = dec * 3 / 100; right.dec is a number
    TEXT = HEAD + (
        "G right 1 - -\nV prism 1 5 -\nV dec 2 6 -\nD - 7 8 -\nN - 350 - -\n"
        "M - 9 10 -\nN - 100 - -\nR right.dec - - -\nN - 3 - -\n"
    )

    def setUp(self):
        self.sheet = Sheet.read(self.TEXT)

    def test_numbers(self):
        names = ("right.dec", "RIGHT.Dec", "prism", "right", "dec", "")
        self.assertEqual([self.sheet.find_number(name) for name in names], [6, 6, None, None, None, None])

    def test_changes(self):
        retouched = self.sheet.retouch([("Right.DEC", 250), (8, 0), (8, 10)])
        self.assertEqual(retouched.changes, ((2, 0, 6), (1, 1, 6), (1, 0, 6)))
        self.assertEqual(retouched.changes[1].failing, 1)
        self.assertEqual(retouched.plan, self.sheet.plan())
        self.assertEqual(list(retouched.values), ["right.dec", "prism"])
        self.assertEqual(retouched.values["prism"], (State.NUMBER, 75, 5))

    def test_values_are_those_of_run(self):
        for pairs in ([], [(6, 1)], {"right.dec": -7, 10: 4}, iter([(8, 0)]), [(10, 5), (10, 6)]):
            pairs = list(pairs.items() if isinstance(pairs, dict) else pairs)
            retouched = self.sheet.retouch(pairs)
            again = Sheet.read(self.sheet.with_numbers(pairs)).run()
            self.assertEqual((retouched.plan, retouched.values), again)
            self.assertEqual(len(retouched.changes), len(pairs))
        self.assertEqual(self.sheet.retouch({"right.dec": 1}).values["prism"].number, 0)
        self.assertEqual(self.sheet.text, self.TEXT.encode())

    def test_lists_that_are_refused(self):
        for pairs, wanted in (
            ([(6, 1)] * 1025, (19, 0, None)),
            ([("right.dec", 5), ("prism", 5)], (20, 2, 4)),
            ([("right", 5)], (20, 1, 3)),
            ([("nobody", 5)], (20, 1, None)),
            ([(0, 5)], (20, 1, None)),
            ([(11, 5)], (20, 1, None)),
            ([(2**63, 5)], (20, 1, None)),
            ([(2**64 + 6, 5)], (20, 1, None)),
            ([(-(2**64) + 6, 5)], (20, 1, None)),
            ([(7, 2**70)], (20, 1, 8)),
            ([(6, 10**9), (6, 10**9 + 1), (7, 0)], (21, 2, 7)),
            ([(6, -(2**70))], (21, 1, 7)),
            ([(6, 2**64)], (21, 1, 7)),
        ):
            refusal = refusal_of(self.sheet.retouch, pairs)
            self.assertEqual((refusal.number, refusal.place, refusal.line), wanted)
            kept = Sheet.read(self.sheet.with_numbers(pairs[-1:]))
            self.assertTrue(wanted[0] == 19 or kept.text == self.sheet.text)
        self.assertEqual(len(self.sheet.retouch([(6, 1)] * 1024).changes), 1024)

    def test_words(self):
        refusal = refusal_of(self.sheet.retouch, [("right.dec", 10**10)])
        self.assertEqual(str(refusal), "refusal 21, line 7, pair 1 of the list: a pair with a number out of range")
        refusal = refusal_of(self.sheet.retouch, [(11, 1)])
        self.assertEqual(str(refusal), f"refusal 20, pair 1 of the list: {refusal.words}")
        refusal = refusal_of(self.sheet.retouch, [(6, 1)] * 1025)
        self.assertEqual(str(refusal), "refusal 19: an odd list of pairs, or more than 1,024 pairs")

    def test_refusals_of_run_come_first(self):
        sheet = Sheet.read(HEAD + "V x 1 3 -\nR x - - -\n")
        for pairs in ([], [(0, 0)] * 1025):
            refusal = refusal_of(sheet.retouch, pairs)
            self.assertEqual((refusal.number, refusal.place, refusal.line), (16, 2, 3))

    def test_what_is_no_pair(self):
        for pairs in ([6], [(6,)], [(6, 1.5)], [(6, "7")], [(None, 7)], [(b"x", 7)], 6):
            with self.assertRaises((TypeError, ValueError)):
                self.sheet.retouch(pairs)


class Refusals(unittest.TestCase):
    def test_places_and_lines(self):
        for text, wanted in (
            ("", (1, 0, None)),
            ("x" * 65_537, (1, 0, None)),
            (HEAD + "G x 1 - -", (1, 0, 3)),
            (HEAD + "G\tx 1 - -\n", (1, 0, 3)),
            (HEAD + "G x 1 - -\n\r", (1, 0, 4)),
            ("kind name a b\n", (2, 0, 1)),
            ("kind name a b c\n", (3, 0, None)),
            (HEAD * 1 + "-\n" * 1024, (3, 0, None)),
            (HEAD + "G x 1 -\n", (5, 2, 3)),
            (HEAD + "V x 1 3 -\nR y - - -\n", (13, 3, 4)),
        ):
            self.assertEqual(refused(text), wanted, text[:60])

    def test_cycle(self):
        sheet = Sheet.read(HEAD + "V x 1 3 -\nR x - - -\n")
        for call in (sheet.plan, sheet.run):
            refusal = refusal_of(call)
            self.assertEqual((refusal.number, refusal.place, refusal.line), (16, 2, 3))
            self.assertEqual(str(refusal), "refusal 16, line 3: a value that reaches itself")

    def test_words(self):
        refusal = refusal_of(Sheet.read, "")
        self.assertEqual(refusal.words, "the text's length, its last byte, or a byte that is not allowed")
        self.assertEqual(str(refusal), f"refusal 1: {refusal.words}")
        early = refusal_of(Sheet.read(EXAMPLE).follow, [2, 4, 5])
        self.assertEqual(str(early), f"refusal 18, position 1 of the order: {early.words}")


class SampleSheets(unittest.TestCase):
    def test_prints(self):
        files = sorted((ROOT / "sheets").glob("*.sheet"))
        self.assertGreater(len(files), 25)
        for file in files:
            with self.subTest(file.name):
                wanted = file.with_suffix(".print").read_text()
                self.assertEqual(print_text(file.read_bytes()), wanted)
                self.assertEqual(printed(file.read_bytes()), wanted)
