"""Sheets made by programs: Groups, values, functions and expressions go in, and the
text of a sheet comes out, its labels numbered. It is `lindypo::build` in Python.

>>> from lindypo import Sheet
>>> from lindypo.build import Group, argument, call, read
>>> lens = Group().value("sphere", -325).value("prism", call("percent", read("sphere")))
>>> outermost = (
...     Group()
...     .value("total", read("right.prism") + read("left.prism"))
...     .function("percent", argument() * 10 / 100)
...     .group("right", lens)
...     .group("left", lens)
... )
>>> Sheet.read(outermost.text()).run().values["total"].number
-66

What is built passes rows 1 to 3 and 5 to 11 of the table of refusals, or `text`
raises a `Mistake` that says what is wrong. Whether names are there once and paths
lead somewhere, rows 12 to 16, is for `Sheet.read` and `Sheet.plan` to judge.
"""

import re
from operator import index
from typing import NamedTuple, Optional

from .constants import LABELS_MOST, LEVELS_MOST, NAME_MOST, NUMBER_MOST, PATH_MOST, TEXT_MOST
from .constants import Kind, RefusalNumber, Ties

_NAME = f"[A-Za-z][A-Za-z0-9]{{0,{NAME_MOST - 1}}}"
_IS_NAME = re.compile(_NAME)
_IS_PATH = re.compile(f"{_NAME}(?:[.]{_NAME}){{0,{PATH_MOST - 1}}}")
_OUTERMOST = 1
_QUOTED_MOST = 40


class Mistake(ValueError):
    """Why no sheet can be built.

    `row` is that of the table of refusals which would refuse the sheet: 1, 3, 7, 10
    or 11. `definition` is the kind and full name of the definition that it is in,
    or None. `sentence` says what is wrong.
    """

    def __init__(self, row, definition, sentence):
        self.row = row
        self.definition = definition
        self.sentence = sentence
        super().__init__(row, definition, sentence)

    def __str__(self):
        return f"{self.definition}: {self.sentence}" if self.definition else self.sentence


class Expression:
    """The body of a value or function, or a part of it; it does not change.

    `+`, `-`, `*` and `/` make sums, differences, products and rounded quotients,
    also with whole numbers. One that is used twice is written twice.
    """

    __slots__ = ("_kind", "_content", "_operands", "_size")

    def __init__(self, kind, content, operands):
        self._kind = kind
        # a number, a path, or None
        self._content = content
        self._operands = operands
        self._size = 1 + sum(operand._size for operand in operands)

    def __add__(self, other):
        return _over(Kind.SUM, self, other)

    def __radd__(self, other):
        return _over(Kind.SUM, other, self)

    def __sub__(self, other):
        return _over(Kind.DIFFERENCE, self, other)

    def __rsub__(self, other):
        return _over(Kind.DIFFERENCE, other, self)

    def __mul__(self, other):
        return _over(Kind.PRODUCT, self, other)

    def __rmul__(self, other):
        return _over(Kind.PRODUCT, other, self)

    def __truediv__(self, other):
        return _over(Kind.QUOTIENT, self, other)

    def __rtruediv__(self, other):
        return _over(Kind.QUOTIENT, other, self)


def number(number):
    """N: a number, from -1,000,000,000 to 1,000,000,000."""
    return Expression(Kind.NUMBER, index(number), ())


def argument():
    """P: the argument of the function."""
    return Expression(Kind.ARGUMENT, None, ())


def read(path):
    """R: reads the value that a path leads to."""
    return Expression(Kind.READ, _string(path), ())


def call(path, argument):
    """C: calls the function that a path leads to."""
    return Expression(Kind.CALL, _string(path), (_expression(argument),))


def choice(test, then, otherwise):
    """I: the second where the first is not 0, else the third."""
    return _over(Kind.CHOICE, test, then, otherwise)


def _over(kind, *operands):
    return Expression(kind, None, tuple(_expression(operand) for operand in operands))


def _expression(it):
    return it if isinstance(it, Expression) else number(it)


def _string(it):
    if not isinstance(it, str):
        raise TypeError(f"a name or path is a string, not {type(it).__name__}")
    return it


class _Definition(NamedTuple):
    #: how many Groups it stands in, the one that holds the list aside
    depth: int
    kind: Kind
    name: str
    body: Optional[Expression]


class Group:
    """The members of a Group, in sequence; the outermost Group is a sheet."""

    def __init__(self):
        # each Group followed by all under it; of more than a sheet can have none is kept
        self._definitions = []
        # how many lines they take
        self._lines = 0
        self._ties = Ties.AWAY

    def ties(self, ties):
        """The tie rule of the sheet whose outermost Group this is; gives this Group.

        A sheet has one rule, so that of a Group in another does not count. Where
        nothing is said, halves go away from zero.

        >>> outermost = Group().ties(Ties.EVEN).value("prism", number(-3250) / 100)
        >>> outermost.text().splitlines()[0]
        b'kind2 name a b c'
        """
        self._ties = Ties(ties)
        return self

    def value(self, name, body):
        """Adds a value after the members that are there; gives this Group."""
        return self._add(0, Kind.VALUE, name, _expression(body))

    def function(self, name, body):
        """Adds a function of one argument after the members that are there."""
        return self._add(0, Kind.FUNCTION, name, _expression(body))

    def group(self, name, members):
        """Adds a Group with the members that another has now, and not its tie rule."""
        if not isinstance(members, Group):
            raise TypeError(f"the members of a Group are a Group, not {type(members).__name__}")
        deeper = [it._replace(depth=it.depth + 1) for it in members._definitions]
        lines = members._lines
        self._add(0, Kind.GROUP, name, None)
        return self._extend(lines, deeper)

    def text(self):
        """The text, as bytes, of the sheet whose outermost Group this is.

        Labels are numbered so: label 1, then all definitions in the sequence in which
        they were added, each Group followed by its members, then the bodies in that
        sequence, each expression followed by its operands. A `Mistake` where no such
        sheet can be.

        >>> print(Group().function("half", argument() / 2).text().decode(), end="")
        kind name a b c
        G - 0 - -
        F half 1 3 -
        D - 4 5 -
        P - - - -
        N - 2 - -
        >>> Group().value("two", argument()).text()
        Traceback (most recent call last):
            ...
        lindypo.build.Mistake: the value `two`: the argument stands in it; only a function has one
        """
        _check_within(1 + self._lines, LABELS_MOST, "lines", RefusalNumber.LABELS)
        for at, definition in enumerate(self._definitions):
            _check_definition(definition, lambda at=at: _title(self._definitions, at))
        text = _text_of(self._ties, self._definitions)
        _check_within(len(text), TEXT_MOST, "bytes", RefusalNumber.TEXT)
        return text

    @classmethod
    def of_sheet(cls, sheet):
        """What a sheet holds, and its tie rule. The members of each Group keep their
        sequence; how those of different Groups stand among each other is not kept."""
        members = {line.label: [] for line in sheet.lines if line.kind.is_definition}
        for line in sheet.lines:
            if line.kind.is_definition and line.owner is not None:
                members[line.owner].append(line)
        group = cls().ties(sheet.ties)
        # the Groups entered, by what is still to come of them
        entered = [iter(members[_OUTERMOST])]
        while entered:
            line = next(entered[-1], None)
            if line is None:
                entered.pop()
                continue
            body = _of_sheet(sheet, line.b) if line.b else None
            group._add(len(entered) - 1, line.kind, line.name, body)
            entered.append(iter(members[line.label]))
        return group

    def _add(self, depth, kind, name, body):
        definition = _Definition(depth, kind, _string(name), body)
        return self._extend(1 + (body._size if body else 0), [definition])

    def _extend(self, lines, definitions):
        self._lines += lines
        self._definitions += definitions
        if self._lines >= LABELS_MOST:
            self._definitions.clear()
        return self


def _of_sheet(sheet, label):
    """The expression at a label, whose operands have larger labels; it is at most 32
    levels deep."""
    line = sheet.lines[label - 1]
    operands = tuple(
        _of_sheet(sheet, operand)
        for operand in (line.a, line.b, line.c)
        if operand and line.kind is not Kind.NUMBER
    )
    content = line.a if line.kind is Kind.NUMBER else line.name
    return Expression(line.kind, content, operands)


def _title(definitions, at):
    """A definition's kind and full name: "the value `right.prism`"."""
    names = []
    depth = definitions[at].depth + 1
    for definition in reversed(definitions[: at + 1]):
        if definition.depth < depth:
            depth = definition.depth
            names.append(definition.name)
    kind = "Group" if definitions[at].kind is Kind.GROUP else definitions[at].kind.name.lower()
    return f"the {kind} {_quoted('.'.join(reversed(names)))}"


def _quoted(field):
    return f"`{field[:_QUOTED_MOST]}...`" if len(field) > _QUOTED_MOST else f"`{field}`"


# ---- what of a sheet's rules a program can break; the others up to row 11 hold however
# the definitions are made


def _check_within(count, most, what, row):
    """Rows 1 and 3."""
    if count > most:
        sentence = f"the sheet would have {count} {what}; at most {most} are allowed"
        raise Mistake(row, None, sentence)


def _check_definition(definition, title):
    """Rows 7, 10 and 11."""
    if not _IS_NAME.fullmatch(definition.name):
        raise Mistake(RefusalNumber.FORM, title(), _not_a_name(definition.name))
    if definition.body is None:
        return
    for expression, level in _in_sequence(definition.body):
        found = _wrong_form(expression)
        if found:
            raise Mistake(RefusalNumber.FORM, title(), found)
        if expression._kind is Kind.ARGUMENT and definition.kind is not Kind.FUNCTION:
            sentence = "the argument stands in it; only a function has one"
            raise Mistake(RefusalNumber.ARGUMENT, title(), sentence)
        if level > LEVELS_MOST:
            raise Mistake(
                RefusalNumber.LEVEL,
                title(),
                f"an expression is at level {level}; at most {LEVELS_MOST} levels are allowed",
            )


def _not_a_name(name):
    return f"{_quoted(name)} is not a name: 1 to {NAME_MOST} letters or digits, a letter first"


def _wrong_form(expression):
    """What is wrong with a number or path."""
    kind, content = expression._kind, expression._content
    if kind is Kind.NUMBER and abs(content) > NUMBER_MOST:
        written = f"`{content}`" if -(2**63) <= content < 2**63 else "what is beyond 64 bits"
        return (
            f"{written} is not a whole number: -{NUMBER_MOST} to {NUMBER_MOST}, "
            "with no leading zero, plus sign or `-0`"
        )
    if kind in (Kind.READ, Kind.CALL) and not _IS_PATH.fullmatch(content):
        return (
            f"{_quoted(content)} is not a path: 1 to {PATH_MOST} names joined by dots, "
            f"each of 1 to {NAME_MOST} letters or digits, a letter first"
        )
    return None


# ---- labels for all, and the text


def _in_sequence(body):
    """Each expression with its level, before all of its operands a, then b, then c."""
    waiting = [(body, 1)]
    while waiting:
        expression, level = waiting.pop()
        yield expression, level
        waiting += [(operand, level + 1) for operand in reversed(expression._operands)]


def _text_of(ties, definitions):
    lines = [ties.first_line, _line(Kind.GROUP, None, [0])]
    # the labels of the Groups around, by depth
    groups = [_OUTERMOST]
    body = len(definitions) + 2
    for label, (depth, kind, name, expression) in enumerate(definitions, _OUTERMOST + 1):
        del groups[depth + 1 :]
        fields = [groups[depth]] if expression is None else [groups[depth], body]
        lines.append(_line(kind, name, fields))
        groups.append(label)
        body += expression._size if expression else 0
    label = len(definitions) + 2
    for definition in definitions:
        if definition.body:
            lines += _lines_of(definition.body, label)
            label += definition.body._size
    return "".join(line + "\n" for line in lines).encode("ascii")


def _lines_of(body, label):
    """The lines of a body, the first with this label."""
    for own, (expression, _) in enumerate(_in_sequence(body), label):
        if expression._kind is Kind.NUMBER:
            yield _line(Kind.NUMBER, None, [expression._content])
            continue
        operands, at = [], own + 1
        for operand in expression._operands:
            operands.append(at)
            at += operand._size
        yield _line(expression._kind, expression._content, operands)


def _line(kind, name, fields):
    fields = [str(field) for field in fields] + ["-"] * (3 - len(fields))
    return " ".join([kind.letter, name or "-"] + fields)
