"""A second reading of scripts: what `chanrun check` has to print for the bytes of a script. It was written from
docs/SCRIPTS.md and docs/CHANNELS.md alone, by one that hadn't seen the sources, and shares no code with the program.
One place was mended since, where the page could be read in two ways: which numbers are too large to be read.

`line` gives that line. It goes in the order of the fault lines: the size and the text, the outline of the tree, the
channels, the seats with their transactions. The first fault is raised and ends the reading. A fault of the reader and
want of memory aren't part of it.

The text is parsed by Python's `json`. Where that takes more than JSON, or more than `serde_json` does, `tree_of`
refuses it; the nesting is measured before, so that neither the parser nor what follows it gets deeper than 127 levels.
A whole number is an `int` in the tree, and every other number a `float`.
"""

import json
import math
import re
from itertools import accumulate

KINDS = ("TQueue", "TBQueue", "TChan", "TMQueue", "TBMQueue", "TMChan")
BOUNDED = ("TBQueue", "TBMQueue")
BROADCAST = ("TChan", "TMChan")
CLOSABLE = ("TMQueue", "TBMQueue", "TMChan")

# The operands that an operation takes, one string for each form: `c` a channel, `r` a reader, `b` a body.
FORMS = {
    "write": ("cb",),
    "try-write": ("cb",),
    "read": ("c", "cr"),
    "try-read": ("c", "cr"),
    "peek": ("c", "cr"),
    "try-peek": ("c", "cr"),
    "put-back": ("cb", "crb"),
    "close": ("c",),
    "is-closed": ("c",),
    "is-empty": ("c", "cr"),
    "is-full": ("c",),
    "dup": ("c",),
    "clone": ("c", "cr"),
    "flush": ("c", "cr"),
    "length": ("c",),
}

# The kinds that have an operation, where not all have it.
HAVE = {
    "try-write": ("TBMQueue",),
    "close": CLOSABLE,
    "is-closed": CLOSABLE,
    "is-full": BOUNDED,
    "dup": BROADCAST,
    "clone": BROADCAST,
    "flush": ("TQueue", "TBQueue"),
    "length": ("TBQueue",),
}

MOST_BYTES = 1_048_576
MOST_NESTING = 127
MOST_WHOLE = 18_446_744_073_709_551_615
MOST_CHANNELS = 8
MOST_BOUND = 65_535
MOST_READERS = 64
MOST_SEATS = 16
MOST_NUMBER = 65_535  # of a channel or a reader in a step
MOST_OPERATIONS = 64
MOST_ALTERNATIVES = 8  # in one another
MOST_NAMED = 4  # channels in one transaction

FORM_OF = {(name, len(form)): form for name, forms in FORMS.items() for form in forms}

ESCAPE = re.compile(r"\\.", re.DOTALL)
BRACKET = re.compile(r"[\[\]{}]")
LEVELS = {"[": 1, "{": 1, "]": -1, "}": -1}
PAIR = re.compile(r"\\u[dD][89abAB][0-9a-fA-F]{2}\\u[dD][c-fC-F][0-9a-fA-F]{2}")
HALF = re.compile(r"\\u[dD][89a-fA-F]")


class Fault(Exception):
    """The fault of a script; its text is what stands behind `fault: `."""


class Refusal(Exception):
    """What is wrong with a transaction; whoever knows the seat and the number makes it a `Fault`."""


def line(script: bytes) -> str:
    """The line that `chanrun check` prints for this script, without the line feed."""
    try:
        channels, seats, transactions = counts(script)
    except Fault as fault:
        return f"fault: {fault}"
    return f"ok {channels} channels {seats} seats {transactions} transactions"


def counts(script):
    """How many channels, seats and transactions a script without a fault has."""
    if len(script) > MOST_BYTES:
        raise Fault("script too large")
    channels, seats = outline(tree_of(script))
    if len(channels) > MOST_CHANNELS:
        raise Fault("too many channels")
    kinds = [kind_of(number, channel) for number, channel in enumerate(channels)]
    if not 1 <= len(seats) <= MOST_SEATS:
        raise Fault("bad seat count")
    for number, seat in enumerate(seats):
        check_seat(number, seat, kinds)
    return len(channels), len(seats), sum(map(len, seats))


def tree_of(script):
    """The tree of a text, as `serde_json` reads it: of a key that stands twice the last value counts."""
    try:
        text = script.decode("utf-8")
        if nesting(text) > MOST_NESTING or has_half_a_pair(text):
            raise ValueError
        return PARSER.decode(text)
    except ValueError:
        raise Fault("not JSON") from None


def nesting(text):
    """How many lists and objects stand in one another; of a text that isn't JSON, no fewer than its parser enters."""
    outside_strings = "".join(ESCAPE.sub("", text).split('"')[::2])
    return max(accumulate(map(LEVELS.get, BRACKET.findall(outside_strings))), default=0)


def has_half_a_pair(text):
    """Whether a string has an escape for one half of a surrogate pair, without the other half."""
    without_backslashes = text.replace(r"\\", "  ")
    return HALF.search(PAIR.sub(" ", without_backslashes)) is not None


def integer(digits):
    """A number without fraction and exponent: whole only where it has no sign and fits into 64 bits."""
    if digits[0] != "-" and len(digits) <= len(str(MOST_WHOLE)):
        value = int(digits)
        if value <= MOST_WHOLE:
            return value
    return real(digits)


def real(digits):
    """A number that isn't whole, as the nearest float of 64 bits; there is none that is infinite then."""
    value = float(digits)
    if math.isinf(value):
        raise ValueError(digits)
    return value


def no_constant(name):
    """Refuses `NaN`, `Infinity` and `-Infinity`, which JSON hasn't."""
    raise ValueError(name)


PARSER = json.JSONDecoder(parse_int=integer, parse_float=real, parse_constant=no_constant)


def is_whole(value):
    """Whether this is a whole number; `True` and `False` are none."""
    return type(value) is int


def outline(tree):
    """The list of channels and the list of seats."""
    if type(tree) is not dict or not is_whole(tree.get("version")):
        raise Fault("shape")
    if tree["version"] != 1:
        raise Fault("version")
    if tree.keys() != {"version", "channels", "seats"}:
        raise Fault("shape")
    channels, seats = tree["channels"], tree["seats"]
    if type(channels) is not list or type(seats) is not list:
        raise Fault("shape")
    return channels, seats


def kind_of(number, channel):
    """The kind of a channel, whose shape is looked at first and then its limits."""
    kind = channel.get("kind") if type(channel) is dict else None
    if kind not in KINDS:
        raise Fault("shape")
    limits = {key: value for key, value in channel.items() if key != "kind"}
    if kind in BOUNDED:
        has_its_keys = limits.keys() == {"bound"}
    elif kind in BROADCAST:
        has_its_keys = limits.keys() <= {"readers"}
    else:
        has_its_keys = not limits
    if not has_its_keys or not all(map(is_whole, limits.values())):
        raise Fault("shape")
    if limits.get("bound", 0) > MOST_BOUND:
        raise Fault(f"channel {number}: bound too large")
    if limits.get("readers", 1) > MOST_READERS:
        raise Fault(f"channel {number}: too many readers")
    return kind


def check_seat(number, seat, kinds):
    """Reads and checks the transactions of a seat, one after another."""
    if type(seat) is not list:
        raise Fault("shape")
    for position, transaction in enumerate(seat):
        if type(transaction) is not list:
            raise Fault("shape")
        try:
            check_parts(walk(transaction, 0), kinds)
        except Refusal as refusal:
            raise Fault(f"seat {number} txn {position}: {refusal}") from None


def walk(steps, depth):
    """Reads steps that stand in `depth` alternatives: a list of what is to be checked, in the order of the text.

    It has the depth of each alternative, and name, channel and reader of each operation.
    """
    found = []
    for step in steps:
        if type(step) is not list or not step or type(step[0]) is not str:
            raise Fault("shape")
        name = step[0]
        if name == "or":
            branches = step[1:]
            if not all(type(branch) is list for branch in branches):
                raise Fault("shape")
            found.append(depth + 1)
            for branch in branches:
                found += walk(branch, depth + 1)
        elif name == "retry":
            if len(step) > 1:
                raise Fault("shape")
        elif name in FORMS:
            found.append(operation(step))
        else:
            raise Refusal("unknown operation")
    return found


def operation(step):
    """Name, channel and reader of a step that begins with the name of an operation."""
    name, *operands = step
    form = FORM_OF.get((name, len(operands)))
    if form is None or not all(map(fits, form, operands)):
        raise Fault("shape")
    return name, operands[0], operands[1] if form[1:2] == "r" else 0


def fits(letter, operand):
    """Whether an operand is what its letter says."""
    if letter == "b":
        return is_whole(operand) or operand == "last"
    return is_whole(operand) and operand <= MOST_NUMBER


def check_parts(found, kinds):
    """Checks the alternatives and operations that `walk` found, for channels of these kinds."""
    operations = 0
    named = set()
    for part in found:
        if type(part) is int:
            if part > MOST_ALTERNATIVES:
                raise Refusal("too deep")
            continue
        operations += 1
        if operations > MOST_OPERATIONS:
            raise Refusal("too long")
        check_operation(*part, kinds)
        named.add(part[1])
        if len(named) > MOST_NAMED:
            raise Refusal("too many channels")


def check_operation(name, channel, reader, kinds):
    """Checks one operation by itself: its channel, the kind, the reader."""
    if channel >= len(kinds):
        raise Refusal("no channel")
    kind = kinds[channel]
    if kind not in HAVE.get(name, KINDS):
        raise Refusal("not for kind")
    if reader != 0 and kind not in BROADCAST:
        raise Refusal("no reader")
