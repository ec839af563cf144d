"""Order sheets of a lens laboratory: read, planned and evaluated by proved code.

A sheet is a small program: values and functions in nested Groups that name each
other by dotted paths, in capitals or small letters. `Sheet.read` judges its text;
the sheet then gives its lines and names, its plan, and its values, by the plan or
by an order of the caller's, or with new numbers put in.

>>> import lindypo
>>> sheet = lindypo.Sheet.read('''kind name a b c
... G - 0 - -
... V total 1 4 -
... V part 1 7 -
... D - 5 6 -
... R part - - -
... N - 2 - -
... N - 7 - -
... ''')
>>> sheet.names
{'total': 2, 'part': 3}
>>> run = sheet.run()
>>> run.plan.order
<Order.WHOLE: 1>
>>> for name, outcome in run.values.items():
...     print(f"{name}: {outcome} in {outcome.steps} steps")
part: 7 in 1 steps
total: 4 in 3 steps
>>> run.values["total"].number
4

Line one names the tie rule, which says where a quotient goes that is a half: away
from zero under `kind name a b c`, to the even neighbour under `kind2 name a b c`:

>>> sheet.ties
<Ties.AWAY: 1>
>>> even = lindypo.Sheet.read(sheet.with_ties(lindypo.Ties.EVEN))
>>> [it.retouch({"part": 5}).values["total"].number for it in (sheet, even)]
[3, 2]

New numbers are put in one after the other, and only what depends on them is
evaluated again:

>>> retouched = sheet.retouch([("part", 9), (6, 0)])
>>> retouched.changes[0]
Change(redone=2, failing=0, steps=4)
>>> retouched.changes[1]
Change(redone=1, failing=1, steps=4)
>>> print(retouched.values["total"])
divided by zero

A sheet that breaks a rule is refused, with the number and the place that the
library proves, the line to look at, and words:

>>> lindypo.Sheet.read("kind name a b c\\nG - 0 - -\\nV x 1 3 -\\nR y - - -\\n")
Traceback (most recent call last):
    ...
lindypo.sheet.Refusal: refusal 13, line 4: the head of a path is not found

`lindypo.build` makes sheets. Nothing but `ctypes` and `liblindypo.so` is needed;
`lindypo.library` says where that is looked for. This module is tested, and not
proved.
"""

from .constants import VERSION as __version__
from .constants import Kind, Order, State, Ties
from .library import LibraryError
from .sheet import Change, Line, Outcome, Plan, Refusal, Retouched, Run, Sheet, print_text

__all__ = [
    "Change",
    "Kind",
    "LibraryError",
    "Line",
    "Order",
    "Outcome",
    "Plan",
    "Refusal",
    "Retouched",
    "Run",
    "Sheet",
    "State",
    "Ties",
    "__version__",
    "print_text",
]
