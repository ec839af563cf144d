"""Random Groups, built here and by `lindypo::build` in Rust: the same sheets, and the
same mistakes in the same words."""

import json
import operator
import unittest

from lindypo.build import Group, Mistake, argument, call, choice, number, read

from places import CASES

# what makes an expression of each kind, from operands that are expressions already
KINDS = {
    "argument": argument,
    "call": call,
    "choice": choice,
    "difference": operator.sub,
    "product": operator.mul,
    "quotient": operator.truediv,
    "read": read,
    "sum": operator.add,
}


def expression(body):
    """The expression that a case describes; strings are paths."""
    if isinstance(body, (int, str)):
        return number(body) if isinstance(body, int) else body
    return KINDS[body[0]](*(expression(part) for part in body[1:]))


def group(members):
    built = Group()
    for kind, name, content in members:
        if kind == "group":
            built.group(name, group(content))
        else:
            getattr(built, kind)(name, expression(content))
    return built


def outcome(members):
    try:
        return {"text": group(members).text().decode()}
    except Mistake as mistake:
        return {"row": int(mistake.row), "words": str(mistake)}


class Groups(unittest.TestCase):
    def test_all(self):
        met = {}
        for case in (CASES / "groups.jsonl").read_text().splitlines():
            wanted = json.loads(case)
            members = wanted.pop("members")
            self.assertEqual(outcome(members), wanted)
            row = wanted.get("row", 0)
            met[row] = met.get(row, 0) + 1
        for row in (0, 3, 7, 10, 11):
            self.assertGreater(met.get(row, 0), 20, met)
