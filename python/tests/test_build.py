"""The builder: what it builds, and what it says is wrong."""

import json
import random
import unittest

from lindypo import Refusal, Sheet, State, Ties
from lindypo.build import Expression, Group, Mistake, argument, call, choice, number, read

from places import CASES


def number_of(group, name="x"):
    return Sheet.read(group.text()).run().values[name].number


def mistake_of(group):
    """The mistake that a Group has to have."""
    try:
        group.text()
    except Mistake as mistake:
        return mistake.row, str(mistake)
    raise AssertionError("no mistake was found")


class Built(unittest.TestCase):
    def test_lines(self):
        lens = Group().value("sphere", -325).function("half", argument() / 2)
        group = Group().group("right", lens).value("total", call("right.half", read("right.sphere")))
        self.assertEqual(
            group.text().decode(),
            "kind name a b c\nG - 0 - -\nG right 1 - -\nV sphere 2 6 -\nF half 2 7 -\nV total 1 10 -\n"
            "N - -325 - -\nD - 8 9 -\nP - - - -\nN - 2 - -\nC right.half 11 - -\nR right.sphere - - -\n",
        )

    def test_names_in_any_case(self):
        group = Group().group("Right", Group().value("Sphere", -325)).value("x", read("RIGHT.sphere") + 5)
        self.assertIn(b"\nR RIGHT.sphere - - -\n", group.text())
        self.assertEqual(number_of(group), -320)
        with self.assertRaises(Refusal) as twice:
            Sheet.read(Group().value("right", 1).value("Right", 2).text())
        self.assertEqual((twice.exception.number, twice.exception.place), (12, 3))

    def test_tie_rules(self):
        half = Group().value("x", number(50) / 100)
        for ties, wanted in ((Ties.AWAY, 1), (Ties.EVEN, 0)):
            self.assertIs(half.ties(ties), half)
            self.assertEqual(half.text().splitlines()[0].decode(), ties.first_line)
            self.assertEqual(number_of(half), wanted)
            self.assertEqual(Group.of_sheet(Sheet.read(half.text())).text(), half.text())
        # that of a Group in another does not count
        self.assertEqual(number_of(Group().group("g", half), "g.x"), 1)
        with self.assertRaises(ValueError):
            half.ties(0)

    def test_nothing(self):
        self.assertEqual(Group().text(), b"kind name a b c\nG - 0 - -\n")

    def test_operators(self):
        six, four = number(6), number(4)
        for body, wanted in (
            (six + four, 10),
            (six - four, 2),
            (six * four, 24),
            (six / four, 2),
            (six + 1, 7),
            (1 + six, 7),
            (1 - six, -5),
            (2 * six, 12),
            (13 / six, 2),
            (choice(0, 1, 2), 2),
            (choice(six, four, 2), 4),
            (7, 7),
        ):
            self.assertEqual(number_of(Group().value("x", body)), wanted)

    def test_operands_in_their_places(self):
        x = Group().value("x", choice(read("y") - 3, read("y") / (2 - read("y")), 8) * 5).value("y", 7)
        self.assertEqual(number_of(x), -5)

    def test_an_expression_used_twice_is_written_twice(self):
        seven = number(7)
        self.assertEqual(number_of(Group().value("x", seven + seven).value("y", seven)), 14)

    def test_a_group_is_copied_when_it_is_added(self):
        lens = Group().value("x", 1)
        outermost = Group().group("right", lens)
        lens.value("y", 2)
        outermost.group("left", lens)
        self.assertEqual(list(Sheet.read(outermost.text()).names), ["right", "right.x", "left", "left.x", "left.y"])

    def test_a_group_in_itself(self):
        group = Group().value("x", 1)
        group.group("copy", group)
        self.assertEqual(list(Sheet.read(group.text()).names), ["x", "copy", "copy.x"])

    def test_deep_groups(self):
        group = Group()
        for _ in range(1023):
            group = Group().group("g", group)
        self.assertEqual(len(Sheet.read(group.text()).lines), 1024)

    def test_rows_12_to_16_are_for_the_library(self):
        for group, row in (
            (Group().value("x", 1).value("x", 2), 12),
            (Group().value("x", read("nobody")), 13),
            (Group().value("x", read("x.nobody")), 14),
            (Group().value("x", call("x", 1)), 15),
        ):
            with self.assertRaises(Refusal) as found:
                Sheet.read(group.text())
            self.assertEqual(found.exception.number, row)


class Mistakes(unittest.TestCase):
    def test_names(self):
        for name in ("", "1x", "x.y", "x y", "-", "x\n", "\u00e4", "x" * 17, "x\0"):
            row, words = mistake_of(Group().group(name, Group()))
            self.assertEqual(row, 7, name)
            self.assertIn("is not a name: 1 to 16 letters or digits, a letter first", words)
        Group().group("x" * 16, Group()).text()

    def test_paths(self):
        for path in ("", ".", "x.", ".x", "x..y", "x-y", "x" * 17, ".".join("x" * 9), "x\n"):
            row, words = mistake_of(Group().value("x", 1 + read(path)))
            self.assertEqual(row, 7, path)
            self.assertIn("is not a path: 1 to 8 names joined by dots", words)
            self.assertEqual(mistake_of(Group().function("f", call(path, argument())))[0], 7)
        Group().value("x", read(".".join(["x" * 16] * 8))).text()

    def test_numbers(self):
        for bad in (1_000_000_001, -1_000_000_001, 2**64, -(2**64), 10**5000):
            row, words = mistake_of(Group().value("x", bad))
            self.assertEqual(row, 7)
            self.assertIn("is not a whole number: -1000000000 to 1000000000", words)
        for good in (1_000_000_000, -1_000_000_000, 0):
            self.assertEqual(number_of(Group().value("x", good)), good)

    def test_argument(self):
        group = Group().group("right", Group().value("x", 1 + argument()))
        sentence = "the value `right.x`: the argument stands in it; only a function has one"
        self.assertEqual(mistake_of(group), (10, sentence))

    def test_levels(self):
        def nested(levels):
            body = number(1)
            for _ in range(levels - 1):
                body = 1 + body
            return Group().value("x", body)

        self.assertEqual(number_of(nested(32)), 32)
        sentence = "the value `x`: an expression is at level 33; at most 32 levels are allowed"
        self.assertEqual(mistake_of(nested(33)), (11, sentence))

    def test_lines(self):
        def values(count):
            group = Group()
            for at in range(count):
                group.value(f"v{at}", at)
            return group

        self.assertEqual(len(Sheet.read(values(511).text()).lines), 1023)
        words = "the sheet would have {} lines; at most 1024 are allowed"
        self.assertEqual(mistake_of(values(512)), (3, words.format(1025)))
        self.assertEqual(mistake_of(values(5_000)), (3, words.format(10_001)))

    def test_nothing_is_too_large_to_be_judged(self):
        body, group = number(1), Group().value("x", 1)
        for _ in range(1000):
            body, group = body + body, Group().group("a", group).group("b", group)
        self.assertEqual(mistake_of(Group().value("x", body))[0], 3)
        self.assertEqual(mistake_of(group)[0], 3)
        for _ in range(100_000):
            body, group = 1 + body, Group().group("a", group)
        self.assertEqual(mistake_of(Group().value("x", body))[0], 3)
        self.assertEqual(mistake_of(group)[0], 3)

    def test_bytes(self):
        group = Group()
        for at in range(450):
            group.value(f"v{at}", read(".".join(["x" * 16] * 8)))
        row, words = mistake_of(group)
        self.assertEqual(row, 1)
        self.assertIn("bytes; at most 65536 are allowed", words)

    def test_what_is_no_expression(self):
        for body in (1.5, "x", None, b"1", Group()):
            with self.assertRaises(TypeError):
                Group().value("x", body)
            with self.assertRaises(TypeError):
                number(1) + body
        for name in (1, None, b"x"):
            with self.assertRaises(TypeError):
                Group().value(name, 1)
            with self.assertRaises(TypeError):
                read(name)
        with self.assertRaises(TypeError):
            Group().group("x", Expression)


class SameWords(unittest.TestCase):
    """What is said of each mistake is what the builder in Rust says."""

    def test_mistakes(self):
        nested = number(1)
        for _ in range(32):
            nested = 1 + nested
        cases = (
            ("1x", number(1), 1),
            ("abcdefghijklmnopq", number(1), 1),
            ("x", number(1_000_000_001), 1),
            ("x", read("x..y"), 1),
            ("x", 2 * read("a.b.c.d.e.f.g.h.i"), 1),
            ("x", 1 + argument(), 1),
            ("x", nested, 1),
            ("x", number(1), 512),
            ("x", read(".".join(["decentration0001"] * 8)), 500),
            ("abcdefghijklmnopqrstuvwxyzabcdefghijklmnop", number(1), 1),
        )
        said = []
        for name, body, count in cases:
            right = Group()
            for _ in range(count):
                right.value(name, body)
            row, words = mistake_of(Group().group("right", right))
            said.append(f"{row:d} {words}")
        self.assertEqual(said, json.loads((CASES / "mistakes.json").read_text()))


class RandomBuilder:
    """Random Groups, mistakes among them, from a seed."""

    def __init__(self, seed):
        self.random = random.Random(seed)

    def name(self):
        return self.random.choice(["a", "b", "c", "d", "e" * 16] * 8 + ["", "1", "f" * 17])

    def body(self, depth):
        pick = self.random.randrange(9 if depth else 3)
        if pick == 0:
            return number(self.random.choice([0, 1, -7, 10**9] * 9 + [10**9 + 1]))
        if pick == 1:
            return argument() if self.random.random() < 0.2 else number(2)
        if pick == 2:
            return read(".".join(self.name() for _ in range(self.random.randint(1, 3))))
        if pick == 3:
            return call(self.name(), self.body(depth - 1))
        if pick == 4:
            return choice(self.body(depth - 1), self.body(depth - 1), self.body(depth - 1))
        a, b = self.body(depth - 1), self.body(depth - 1)
        return [a + b, a - b, a * b, a / b][pick - 5]

    def group(self, depth):
        group = Group()
        for _ in range(self.random.randrange(4)):
            pick = self.random.randrange(3)
            if pick == 0 and depth:
                group.group(self.name(), self.group(depth - 1))
            elif pick == 1:
                group.function(self.name(), self.body(4))
            else:
                group.value(self.name(), self.body(4))
        return group


class RandomGroups(unittest.TestCase):
    def test_what_is_built_passes_rows_1_to_11(self):
        mistakes, refused, evaluated = 0, 0, 0
        for seed in range(3000):
            try:
                text = RandomBuilder(seed).group(3).text()
            except Mistake:
                mistakes += 1
                continue
            try:
                run = Sheet.read(text).run()
            except Refusal as refusal:
                self.assertGreater(refusal.number, 11, text)
                refused += 1
            else:
                self.assertTrue(all(it.state in State for it in run.values.values()))
                evaluated += 1
        self.assertGreater(min(mistakes, refused, evaluated), 300)
