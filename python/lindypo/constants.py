"""The constants of include/lindypo.h, by the same names; a test holds them to it."""

from enum import IntEnum

VERSION = "0.6.0"

# limits of a sheet
TEXT_MOST = 65536
LABELS_MOST = 1024
NAME_MOST = 16
PATH_MOST = 8
NUMBER_MOST = 1000000000
LEVELS_MOST = 32

# limit of a list of pairs
PAIRS_MOST = 1024

# bytes of a print
PRINT_MOST = 49188

# cells for each label
TABLE_CELLS = 8
RESULT_CELLS = 3

# cells for each pair
PAIR_CELLS = 2
CHANGE_CELLS = 3


class Kind(IntEnum):
    """The kind of a line."""

    GROUP = 1
    VALUE = 2
    FUNCTION = 3
    NUMBER = 4
    ARGUMENT = 5
    READ = 6
    CALL = 7
    SUM = 8
    DIFFERENCE = 9
    PRODUCT = 10
    QUOTIENT = 11
    CHOICE = 12

    @property
    def letter(self):
        """The letter that stands for the kind in a sheet."""
        return "GVFNPRCASMDI"[self - 1]

    @property
    def is_definition(self):
        """Groups, values and functions are definitions, all others expressions."""
        return self in (Kind.GROUP, Kind.VALUE, Kind.FUNCTION)


class Column(IntEnum):
    """The cells of a label in the table."""

    KIND = 0
    NAME_START = 1
    NAME_LENGTH = 2
    A = 3
    B = 4
    C = 5
    OWNER = 6
    TARGET = 7


class Result(IntEnum):
    """The cells of a label in the results."""

    STATE = 0
    NUMBER = 1
    STEPS = 2


class ChangeCell(IntEnum):
    """The cells of a pair in the changes."""

    REDONE = 0
    FAILING = 1
    STEPS = 2


class State(IntEnum):
    """What evaluating a value ends in."""

    NUMBER = 1
    OUT_OF_RANGE = 2
    ZERO_DIVISOR = 3
    OUT_OF_STEPS = 4
    TOO_DEEP = 5


class Order(IntEnum):
    """Whether a plan keeps the values of every Group together."""

    WHOLE = 1
    MIXED = 2


class Ties(IntEnum):
    """The tie rule: where a quotient goes that is a half."""

    AWAY = 1
    EVEN = 2

    @property
    def first_line(self):
        """Line one of a sheet with this rule, without its line end."""
        return "kind name a b c" if self is Ties.AWAY else "kind2 name a b c"


class RefusalNumber(IntEnum):
    """The rows of the table of refusals."""

    TEXT = 1
    FIRST_LINE = 2
    LABELS = 3
    BUFFERS = 4
    FIELDS = 5
    KIND = 6
    FORM = 7
    STRUCTURE = 8
    USES = 9
    ARGUMENT = 10
    LEVEL = 11
    DUPLICATE = 12
    HEAD = 13
    LATER = 14
    TARGET = 15
    CYCLE = 16
    LISTED = 17
    EARLY = 18
    PAIRS = 19
    PAIR_LABEL = 20
    PAIR_NUMBER = 21
