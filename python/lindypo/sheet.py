"""Sheets that read, and what they come to."""

import ctypes
import re
from collections.abc import Mapping
from operator import index
from typing import Dict, NamedTuple, Optional, Tuple

from .constants import CHANGE_CELLS, LABELS_MOST, NUMBER_MOST, PRINT_MOST, RESULT_CELLS, TABLE_CELLS, TEXT_MOST
from .constants import Column, Kind, Order, RefusalNumber, Result, State, Ties
from .library import cells, library

_NOT_ALLOWED = re.compile(rb"[^\n -~]")


class Refusal(Exception):
    """Why a sheet, an order or a list of pairs is refused.

    `number` and `place` are those that the library proves: the place is 0 for the
    text (1 to 3) and the list of pairs (19) as a whole, a label (5 to 16), a position
    in the order, from 1 (17 and 18), or a pair of the list, from 1 (20 and 21). `line`
    is the line of the text to look at, from 1, where it is in the text. `words` say
    what the number stands for.
    """

    def __init__(self, number, place, line):
        self.number = number
        self.place = place
        self.line = line
        self.words = library().lindypo_refusal_words(number).decode()
        super().__init__(number, place, line)

    def __str__(self):
        where = f", line {self.line}" if self.line else ""
        if self.number in (RefusalNumber.LISTED, RefusalNumber.EARLY):
            where = f", position {self.place} of the order"
        if self.number in (RefusalNumber.PAIR_LABEL, RefusalNumber.PAIR_NUMBER):
            where += f", pair {self.place} of the list"
        return f"refusal {self.number}{where}: {self.words}"


class Line(NamedTuple):
    """What Read's table says of a line.

    `name` is a definition's name or the path of a read or call, as it was sent; a, b
    and c are labels, or the number of an N line, and 0 for a missing field.
    """

    label: int
    kind: Kind
    name: Optional[str]
    a: int
    b: int
    c: int
    #: a definition's Group, an expression's definition; None for label 1
    owner: Optional[int]
    #: what the path of a read or call leads to
    target: Optional[int]


class Plan(NamedTuple):
    """The order in which the values of a sheet are evaluated."""

    #: all values, each after every value that it reaches
    labels: Tuple[int, ...]
    order: Order


class Outcome(NamedTuple):
    """How evaluating a value went; as text, the number or why there is none."""

    state: State
    #: None where the state is not State.NUMBER
    number: Optional[int]
    steps: int

    def __str__(self):
        if self.state is State.NUMBER:
            return str(self.number)
        return library().lindypo_state_words(self.state).decode()


class Run(NamedTuple):
    """A plan, and each value's outcome by its full name as it was sent, in the order of
    the plan."""

    plan: Plan
    values: Dict[str, Outcome]


class Change(NamedTuple):
    """What one pair of a list brought about, as it stood before the next."""

    #: values that were evaluated again
    redone: int
    #: values of the sheet that then have no number
    failing: int
    #: the sum of the steps of all values then
    steps: int


class Retouched(NamedTuple):
    """A plan, each value's outcome with all numbers put in, by its full name and in the
    order of the plan, and what each pair brought about."""

    plan: Plan
    values: Dict[str, Outcome]
    changes: Tuple[Change, ...]


class Sheet:
    """A sheet in which Read finds nothing to refuse.

    It does not change, so several threads may use it.
    """

    def __init__(self, text):
        self._text = _bytes_of(text)
        labels = min(max(self._text.count(b"\n") - 1, 0), LABELS_MOST)
        self._table = cells(TABLE_CELLS * labels)
        self._labels = self._call("lindypo_read", *self._table).count
        self._lines = tuple(self._line(label) for label in range(1, self._labels + 1))
        self._full_names = self._name_definitions()

    @classmethod
    def read(cls, text):
        """Judges a text, bytes or a string; a `Refusal` where it breaks a rule."""
        return cls(text)

    @property
    def text(self):
        """The text that was read, as bytes."""
        return self._text

    @property
    def ties(self):
        """The tie rule that line one names: where a quotient goes that is a half.

        >>> Sheet.read("kind2 name a b c\\nG - 0 - -\\n").ties
        <Ties.EVEN: 2>
        """
        return Ties(library().lindypo_tie_rule(*self._lent_text()))

    @property
    def lines(self):
        """All lines, label 1 first."""
        return self._lines

    @property
    def names(self):
        """The label of each definition by its full name, upward through the labels.

        A full name has the names of the Groups around before it, outermost first,
        joined by dots, each as it was sent; the outermost Group has none. `find`
        takes a name in any case.
        """
        return {name: label for label, name in self._full_names.items() if name}

    def full_name(self, label):
        """The full name of a definition; "" for label 1; a KeyError for others."""
        return self._full_names[label]

    def find(self, full_name):
        """The label of the definition with this full name, in any case, or None.

        >>> sheet = Sheet.read("kind name a b c\\nG - 0 - -\\nG Right 1 - -\\n")
        >>> sheet.find("RIGHT"), sheet.find("right"), sheet.find("left")
        (2, 2, None)
        >>> sheet.full_name(2)
        'Right'
        """
        path = full_name.encode("utf-8", "surrogatepass")
        if b"\0" in path:
            return None
        return library().lindypo_find(*self._lent_text(), *self._table, path) or None

    def find_number(self, full_name):
        """The label of the N line that is the body of the value with this full name, in
        any case, or None where there is no such value or its body is something else."""
        value = self._line_with(self.find(full_name))
        body = self._line_with(value.b) if value else None
        if value and body and value.kind is Kind.VALUE and body.kind is Kind.NUMBER:
            return body.label
        return None

    def name(self, label):
        """A label's name field, by Name; None where it is `-` or there is none."""
        if not 1 <= label <= self._labels:
            return None
        part = library().lindypo_name(*self._lent_text(), *self._spare_table(), label)
        return self._text[part.start : part.start + part.length].decode() or None

    def plan(self):
        """Plan: the order in which the values are evaluated."""
        plan, length = cells(self._labels)
        reply = self._call("lindypo_plan", *self._spare_table(), plan, length)
        return _plan_of(reply, plan)

    def run(self):
        """Run: settles the order and evaluates the values down it."""
        plan, length = cells(self._labels)
        results = self._blank_results()
        reply = self._call("lindypo_run", *self._spare_table(), plan, length, *results)
        settled = _plan_of(reply, plan)
        return Run(settled, self._values(settled.labels, results))

    def follow(self, order):
        """Follow: evaluates the values down an order of labels or full names, in any case.

        It has to list every value once, each after every value that it reaches.
        Gives each value's outcome by its full name, in that order.
        """
        labels = [self._label_of(entry) for entry in order]
        results = self._blank_results()
        self._call("lindypo_follow", *cells(labels), *self._spare_table(), *results)
        return self._values(labels, results)

    def retouch(self, pairs):
        """Retouch: runs the sheet, then puts new numbers into N lines, one after the other,
        and evaluates again what depends on them, and nothing else.

        A pair is the label of an N line, or the full name of a value whose body is one, in
        any case, and the new number; a dictionary will do. The values are those of a run
        with all numbers put in.

        >>> sheet = Sheet.read("kind name a b c\\nG - 0 - -\\nV x 1 3 -\\nN - 7 - -\\n")
        >>> sheet.retouch({"X": 8}).values["x"].number
        8
        >>> sheet.retouch([(3, 8), (2, 9)])
        Traceback (most recent call last):
            ...
        lindypo.sheet.Refusal: refusal 20, line 3, pair 2 of the list: a pair with a label that is no N line
        """
        pairs = self._list_of(pairs)
        plan, length = cells(self._labels)
        results, changes = self._blank_results(), cells(CHANGE_CELLS * len(pairs))
        try:
            reply = self._call(
                "lindypo_retouch",
                *cells(_cell_of(cell) for pair in pairs for cell in pair),
                *self._spare_table(),
                plan,
                length,
                *results,
                *changes,
            )
        except Refusal as refusal:
            raise self._at_pair(refusal, pairs) from None
        settled = _plan_of(reply, plan)
        return Retouched(settled, self._values(settled.labels, results), _changes_of(changes))

    def with_numbers(self, pairs):
        """The text with new numbers in N lines, as bytes; pairs that `retouch` would refuse
        are left out. It may be longer than a sheet may be.

        >>> sheet = Sheet.read("kind name a b c\\nG - 0 - -\\nV x 1 3 -\\nN - 7 - -\\n")
        >>> sheet.with_numbers({"x": -40})
        b'kind name a b c\\nG - 0 - -\\nV x 1 3 -\\nN - -40 - -\\n'
        """
        lines = self._text.splitlines(keepends=True)
        for label, number in self._list_of(pairs):
            line = self._line_with(label)
            if line and line.kind is Kind.NUMBER and abs(number) <= NUMBER_MOST:
                lines[label] = b"N - %d - -\n" % number
        return b"".join(lines)

    def with_ties(self, ties):
        """The text under a tie rule, as bytes: with the line one that names it, and else
        as it is. It may be longer than a sheet may be.

        >>> sheet = Sheet.read("kind name a b c\\nG - 0 - -\\n")
        >>> sheet.with_ties(Ties.EVEN)
        b'kind2 name a b c\\nG - 0 - -\\n'
        """
        return Ties(ties).first_line.encode() + self._text[len(self.ties.first_line) :]

    def _call(self, name, *lent):
        """Makes a call that may refuse."""
        reply = getattr(library(), name)(*self._lent_text(), *lent)
        if reply.refusal != 0:
            line = _line_of(self._text, reply.refusal, reply.place)
            raise Refusal(reply.refusal, reply.place, line)
        return reply

    def _lent_text(self):
        return self._text, len(self._text)

    def _spare_table(self):
        """A table for a call that writes it once more."""
        return cells(TABLE_CELLS * self._labels)

    def _blank_results(self):
        return cells(RESULT_CELLS * self._labels)

    def _line(self, label):
        table, _ = self._table
        start = TABLE_CELLS * (label - 1)
        row = table[start : start + TABLE_CELLS]
        at = row[Column.NAME_START]
        name = self._text[at : at + row[Column.NAME_LENGTH]].decode()
        return Line(
            label,
            Kind(row[Column.KIND]),
            name or None,
            row[Column.A],
            row[Column.B],
            row[Column.C],
            row[Column.OWNER] or None,
            row[Column.TARGET] or None,
        )

    def _name_definitions(self):
        """The full name of each definition; a Group stands above its members."""
        names = {}
        for line in self._lines:
            if line.kind.is_definition:
                around = names.get(line.owner, "")
                names[line.label] = f"{around}.{line.name}" if around else line.name or ""
        return names

    def _line_with(self, label):
        """The line of a label, or None where there is none."""
        return self._lines[label - 1] if label and 1 <= label <= self._labels else None

    def _list_of(self, pairs):
        """Pairs as labels and numbers. A name that leads to no N line stands for what it
        leads to, and 0 for nothing, which the library refuses."""
        pairs = pairs.items() if isinstance(pairs, Mapping) else pairs
        return [(self._number_label_of(entry), index(number)) for entry, number in pairs]

    def _number_label_of(self, entry):
        if isinstance(entry, str):
            return self.find_number(entry) or self.find(entry) or 0
        return index(entry)

    def _at_pair(self, refusal, pairs):
        """The refusal of a list, with the line that the pair names."""
        if refusal.number not in (RefusalNumber.PAIR_LABEL, RefusalNumber.PAIR_NUMBER):
            return refusal
        line = self._line_with(pairs[refusal.place - 1][0])
        return Refusal(refusal.number, refusal.place, line.label + 1 if line else None)

    def _label_of(self, entry):
        """An entry of an order; 0, which is no value's, for one that no cell can hold."""
        if isinstance(entry, str):
            return self.find(entry) or 0
        label = index(entry)
        return label if abs(label) < 2**63 else 0

    def _values(self, labels, results):
        table, _ = results
        return {self._full_names[label]: _outcome_of(table, label) for label in labels}


def print_text(text):
    """The program's print of a text, bytes or a string: a line for each value in the
    order of the plan, or the number and the place of the refusal.

    >>> print(print_text("kind name a b c\\nG - 0 - -\\nV x 1 3 -\\nN - 7 - -\\n"), end="")
    label name order state number steps
    2 x whole 1 7 1
    >>> print(print_text(""), end="")
    refusal place
    1 0
    """
    text = _bytes_of(text)
    out = ctypes.create_string_buffer(PRINT_MOST)
    printed = library().lindypo_print(text, len(text), out, PRINT_MOST)
    return out.raw[: printed.length].decode()


def _bytes_of(text):
    """Bytes as they are, and any string as bytes: what is not ASCII is for the library to
    refuse."""
    if isinstance(text, str):
        return text.encode("utf-8", "surrogatepass")
    return bytes(memoryview(text))


def _plan_of(reply, plan):
    return Plan(tuple(plan[: reply.count]), Order(reply.order))


def _changes_of(changes):
    cells, length = changes
    return tuple(Change(*cells[at : at + CHANGE_CELLS]) for at in range(0, length, CHANGE_CELLS))


def _cell_of(number):
    """A label or number of a pair; one that no cell can hold is no label and no number."""
    return max(-(2**63), min(number, 2**63 - 1))


def _outcome_of(results, label):
    start = RESULT_CELLS * (label - 1)
    row = results[start : start + RESULT_CELLS]
    state = State(row[Result.STATE])
    number = row[Result.NUMBER] if state is State.NUMBER else None
    return Outcome(state, number, row[Result.STEPS])


def _line_of(text, number, place):
    """The line that a refusal points at, where it is in the text."""
    if number == RefusalNumber.TEXT:
        return _line_of_byte(text)
    if number == RefusalNumber.FIRST_LINE:
        return 1
    if RefusalNumber.FIELDS <= number <= RefusalNumber.CYCLE:
        return place + 1
    return None


def _line_of_byte(text):
    """The line of the first byte that is not allowed, else the last line."""
    if not 1 <= len(text) <= TEXT_MOST:
        return None
    found = _NOT_ALLOWED.search(text)
    return 1 + text.count(b"\n", 0, found.start() if found else len(text))
