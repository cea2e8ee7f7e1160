"""Firrozka for Python: the operations, and records taken apart for looking at.

A record is any bytes-like object: bytes, bytearray, memoryview, array and so on; docs/FORMATS.md describes them. Records that are made
are bytes, the traffic page is a str, and a tally is a Tally. Names are document 01's and 02's.

ctypes needs a shared object: bindings/python/build makes target/libfirrozka.so from the library. It is looked for there, or in the file
that FIRROZKA_SO names. The proof covers the library, not this module.
"""

import copy
import ctypes
import operator
import os
import struct
from pathlib import Path
from typing import NamedTuple

# The version that this module was written for, 100 × major + minor: 1.9 is 109. version() is the library's own.
VERSION = 109

# Buffers of so many bytes are long enough for every call. ARCHIVE_BYTES is the length of every archive.
SHEET_BYTES = 32780
PLAN_BYTES = 524
MOVES_BYTES = 32264
LEAST_BYTES = 256
PAGE_BYTES = 1625
ARCHIVE_BYTES = 16392
GROUPS_BYTES = 516

# The kind of a plan, by its number.
KINDS = ("primary", "kept", "rebuilt")

# Which of two plans has the tree in force.
OLD_PLAN = 1
NEW_PLAN = 2

# The entry of a node that is in no group of a colour.
NO_GROUP = 64

# Of what, and why.
REFUSALS = {
    1: ("sheet", "under 12 bytes"),
    2: ("sheet", "N is not 1 to 64"),
    3: ("sheet", "t is not 1 to 999"),
    4: ("sheet", "E is above N × N"),
    5: ("sheet", "the length is not 4 × (3 + 2E) bytes"),
    6: ("sheet", "a cell does not rise, or names a node not below N"),
    7: ("sheet", "a count is 0, or the running sum is above 1,000,000,000"),
    11: ("plan", "under 12 bytes"),
    12: ("plan", "N is not 1 to 64"),
    13: ("plan", "the kind is above 2, or not 0 with one node"),
    14: ("plan", "the limit is above 1,999,000,000"),
    15: ("plan", "the length is not 4 × (3 + 2N) bytes"),
    16: ("plan", "a helpand is not below N"),
    17: ("plan", "the wrong shape: kind 0 has only roots; kinds 1 and 2 have one root, which every chain of helpands reaches"),
    18: ("plan", "a share is above the limit, or not 0 at a root"),
    21: ("weigh, plan a step, open tally", "the N of sheet and plan differ"),
    22: ("plan a step", "the plan's buffer is too short"),
    23: ("plan a step", "the moves' buffer is too short"),
    24: ("weigh, open tally", "the plan is kind 0 and has no tree"),
    25: ("weigh", "the buffer is under 4N bytes"),
    31: ("moves", "under 8 bytes"),
    32: ("moves", "N is not 1 to 64"),
    33: ("moves", "E is above N × (N−1)"),
    34: ("moves", "the length is not 4 × (2 + 2E) bytes"),
    35: ("moves", "a route does not rise, names a node not below N, or has one node as sender and receiver"),
    36: ("moves", "a count is 0 or above 1,000,000,000"),
    41: ("carry out, traffic page", "the N of sheet and moves differ"),
    42: ("carry out, traffic page", "some cell sends in all more than the old sheet gives it"),
    43: ("carry out", "the buffer is too short"),
    51: ("join sheets", "the N or the t of the two sheets differ"),
    52: ("join sheets", "the buffer is too short"),
    53: ("traffic page", "the buffer is under 25 × (N+1) bytes"),
    54: ("archive", "the length is not 16,392 bytes"),
    55: ("archive", "a count is above 0 at a node not below N, or the sum is above 1,000,000,000"),
    56: ("write archive, read archive", "the buffer is too short"),
    57: ("groups", "the buffer is under 4 × (1 + 2N) bytes"),
    58: ("tally add, tally remove", "a node is not below N, or the count is 0"),
    59: ("tally remove", "the cell has fewer than are removed"),
    60: ("tally add", "the total would be above 1,000,000,000"),
}

# The numbers of a sheet that read archive has, too.
ARCHIVE_REFUSALS = {
    2: ("archive", "N is not 1 to 64"),
    3: ("archive", "t is not 1 to 999"),
}


class Refused(Exception):
    """An operation refuses: its number, what it belongs to, and the reason in words."""

    refusals = REFUSALS

    def __init__(self, number):
        # The arguments are what copying and pickling make the exception from again.
        super().__init__(number)
        self.number = number
        self.subject, self.reason = self.refusals[number]

    def __str__(self):
        return f"refused {self.number}: {self.subject}: {self.reason}"


class ArchiveRefused(Refused):
    """Read archive refuses: 2 and 3 belong to the archive."""

    refusals = {**REFUSALS, **ARCHIVE_REFUSALS}


class Cell(NamedTuple):
    holder: int
    subdomain: int
    count: int


class Sheet(NamedTuple):
    n: int
    t: int
    e: int
    p: int
    limit: int
    cells: list


class Plan(NamedTuple):
    n: int
    kind: int
    limit: int
    helpands: list
    shares: list


class Move(NamedTuple):
    subdomain: int
    sender: int
    receiver: int
    count: int


class Moves(NamedTuple):
    n: int
    e: int
    moves: list


class Weighed(NamedTuple):
    holds: bool
    leasts: list


class Step(NamedTuple):
    """What plan a step gives: kind and limit, and the two records as bytes."""

    kind: int
    limit: int
    plan: bytes
    moves: bytes


class Groups(NamedTuple):
    """What groups gives: the record as bytes, and its entries. An entry is the number of the group's owner, or NO_GROUP."""

    record: bytes
    even: list
    odd: list


def to_bytes(words):
    """Words in bytes: 4 bytes each, unsigned, low byte first."""
    return struct.pack(f"<{len(words)}I", *words)


def to_words(record):
    """The whole words in the bytes; what is over is left out."""
    record = _bytes("record", record)
    count = len(record) // 4
    return list(struct.unpack_from(f"<{count}I", record))


def _bytes(name, record):
    """The bytes of any bytes-like object, as they lie in memory."""
    try:
        view = memoryview(record)
    except TypeError:
        raise TypeError(f"{name}: a bytes-like object is needed, not {type(record).__name__}") from None
    if not view.c_contiguous:
        raise TypeError(f"{name}: the bytes of this {type(record).__name__} do not lie side by side")
    return view.tobytes()


def _word(name, number):
    """A whole number that a word holds: ctypes would cut off the rest of a larger one."""
    number = operator.index(number)
    if not 0 <= number < 2**32:
        raise ValueError(f"{name}: {number} is not 0 to 4,294,967,295")
    return number


def _answer(*values):
    """An answer laid out as include/firrozka.h has it."""
    fields = [(value, ctypes.c_uint32) for value in values]
    return type("Answer", (ctypes.Structure,), {"_fields_": fields})


class _TallyWords(ctypes.Structure):
    """A tally laid out as include/firrozka.h has it: at holder × 64 + subdomain stands a count."""

    _fields_ = [
        *[(name, ctypes.c_uint32) for name in ("n", "limit", "total")],
        *[(name, ctypes.c_uint32 * 64) for name in ("helpands", "totals", "leasts")],
        ("counts", ctypes.c_uint32 * 4096),
    ]


_WRITTEN = _answer("refusal", "bytes")
_HOLDS = _answer("refusal", "holds")

# A record or a buffer is handed over by its place and its length, and a tally by its place.
_SLICE = [ctypes.c_char_p, ctypes.c_size_t]
_TALLY = [ctypes.POINTER(_TallyWords)]
_CELL_AND_COUNT = [ctypes.c_uint32] * 3

# Each function: what it takes, and what it answers.
_FUNCTIONS = {
    "version": ([], ctypes.c_uint32),
    "read_sheet": (_SLICE, _answer("refusal", "n", "t", "e", "p", "limit")),
    "read_plan": (_SLICE, _answer("refusal", "n", "kind", "limit")),
    "read_moves": (_SLICE, _answer("refusal", "n", "e")),
    "weigh": (_SLICE * 3, _HOLDS),
    "plan_step": (_SLICE * 4, _answer("refusal", "kind", "limit", "plan_bytes", "moves_bytes")),
    "carry_out": (_SLICE * 3, _WRITTEN),
    "join_sheets": (_SLICE * 3, _WRITTEN),
    "traffic_page": (_SLICE * 3, _WRITTEN),
    "write_archive": (_SLICE * 2, _WRITTEN),
    "read_archive": (_SLICE * 2, _WRITTEN),
    "groups": (_SLICE * 2, _WRITTEN),
    "open_tally": (_SLICE * 2 + _TALLY, _HOLDS),
    "tally_add": (_TALLY + _CELL_AND_COUNT, _HOLDS),
    "tally_remove": (_TALLY + _CELL_AND_COUNT, _HOLDS),
    "tree_in_force": (_SLICE * 2, _answer("source", "start", "length")),
}


def _load():
    built = Path(__file__).resolve().parents[2] / "target" / "libfirrozka.so"
    try:
        library = ctypes.CDLL(os.environ.get("FIRROZKA_SO", str(built)))
    except OSError as error:
        raise ImportError(f"{error} (run bindings/python/build, or set FIRROZKA_SO)") from error
    for name, (arguments, answer) in _FUNCTIONS.items():
        try:
            function = getattr(library, "firrozka_" + name)
        except AttributeError as error:
            raise ImportError(f"{error} (another version: run bindings/python/build again)") from error
        function.argtypes = arguments
        function.restype = answer
    return library


_LIBRARY = _load()


def version():
    """The library's version, 100 × major + minor."""
    return _LIBRARY.firrozka_version()


def _slices(*records):
    """Records (bytes) and buffers as a function takes them."""
    return [part for record in records for part in (record, len(record))]


def _call(name, *slices):
    """The answer for these records (bytes) and buffers; raises Refused."""
    return _ask(name, *_slices(*slices))


def _ask(name, *arguments):
    """The answer for these arguments; raises Refused."""
    answer = getattr(_LIBRARY, "firrozka_" + name)(*arguments)
    if getattr(answer, "refusal", 0):
        refused = ArchiveRefused if name == "read_archive" else Refused
        raise refused(answer.refusal)
    return answer


def read_sheet(sheet):
    """Read sheet, with its cells. Its t is in tenths of a percent."""
    sheet = _bytes("sheet", sheet)
    answer = _call("read_sheet", sheet)
    words = to_words(sheet)
    pairs = zip(words[3 : 3 + answer.e], words[3 + answer.e :])
    cells = [Cell(cell // 64, cell % 64, count) for cell, count in pairs]
    return Sheet(answer.n, answer.t, answer.e, answer.p, answer.limit, cells)


def read_plan(plan):
    """Read plan, with its helpands and shares."""
    plan = _bytes("plan", plan)
    answer = _call("read_plan", plan)
    words = to_words(plan)
    return Plan(answer.n, answer.kind, answer.limit, words[3 : 3 + answer.n], words[3 + answer.n :])


def read_moves(moves):
    """Read moves, with its moves."""
    moves = _bytes("moves", moves)
    answer = _call("read_moves", moves)
    words = to_words(moves)
    pairs = zip(words[2 : 2 + answer.e], words[2 + answer.e :])
    entries = [Move(route // 4096, route // 64 % 64, route % 64, count) for route, count in pairs]
    return Moves(answer.n, answer.e, entries)


def weigh(sheet, plan):
    """Weigh: whether the plan's tree holds under the sheet's limit, and the leasts."""
    sheet, plan = _bytes("sheet", sheet), _bytes("plan", plan)
    least = ctypes.create_string_buffer(LEAST_BYTES)
    answer = _call("weigh", sheet, plan, least)
    n = read_plan(plan).n
    return Weighed(bool(answer.holds), to_words(least.raw)[:n])


def plan_step(sheet, old_plan=None):
    """Plan a step. Where there is no old plan, it is None or empty."""
    sheet = _bytes("sheet", sheet)
    old_plan = b"" if old_plan is None else _bytes("old_plan", old_plan)
    plan = ctypes.create_string_buffer(PLAN_BYTES)
    moves = ctypes.create_string_buffer(MOVES_BYTES)
    answer = _call("plan_step", sheet, old_plan, plan, moves)
    return Step(answer.kind, answer.limit, plan.raw[: answer.plan_bytes], moves.raw[: answer.moves_bytes])


def _written(name, longest, *records):
    """What a function writes for these records, at most so many bytes."""
    buffer = ctypes.create_string_buffer(longest)
    answer = _call(name, *records, buffer)
    return buffer.raw[: answer.bytes]


def carry_out(sheet, moves):
    """Carry out: the sheet that follows, as bytes."""
    return _written("carry_out", SHEET_BYTES, _bytes("sheet", sheet), _bytes("moves", moves))


def join_sheets(first, second):
    """Join sheets: the sheet that has in each cell the sum of both, as bytes.

    Refusals 1 to 7 may be either sheet's, and 7 also that of the joint total: read_sheet of each tells which.
    """
    return _written("join_sheets", SHEET_BYTES, _bytes("first", first), _bytes("second", second))


def traffic_page(sheet, moves):
    """Traffic page: what each node sends and receives, as text.

    A line has node, sent and received, in 2, 10 and 10 columns with a blank between; the last has == and the two totals.
    """
    return _written("traffic_page", PAGE_BYTES, _bytes("sheet", sheet), _bytes("moves", moves)).decode("ascii")


def write_archive(sheet):
    """Write archive: the archive of a sheet, ARCHIVE_BYTES long whatever the sheet.

    An archive is N, t and 4,096 counts. Bit i of the subdomain is bit 2i of a count's position, and bit i of the holder is bit 2i + 1.
    """
    return _written("write_archive", ARCHIVE_BYTES, _bytes("sheet", sheet))


def read_archive(archive):
    """Read archive: the sheet that was written to it, as bytes. A refusal raises ArchiveRefused, which is a Refused."""
    return _written("read_archive", SHEET_BYTES, _bytes("archive", archive))


def groups(plan):
    """Groups: each node's group in the even colour and in the odd, for a message library.

    Each family with a helper is a group. It is named by its owner, and even or odd as its owner's distance from the root is.
    """
    record = _written("groups", GROUPS_BYTES, _bytes("plan", plan))
    n, *entries = to_words(record)
    return Groups(record, entries[:n], entries[n:])


class Tally:
    """A tally: the counts of a sheet with the tree of a plan, kept up to date as particles arrive and leave between two steps.

    Tally(sheet, plan) opens it, also where the tree does not hold; the plan is of kind 1 or 2. The limit stays that of the opening sheet.
    add and remove say whether the tree holds. A call that is refused raises Refused and alters nothing.
    """

    def __init__(self, sheet, plan):
        self._now = _TallyWords()
        self._ask("open_tally", *_slices(_bytes("sheet", sheet), _bytes("plan", plan)), ctypes.byref(self._now))

    def _ask(self, name, *arguments):
        self._holds = bool(_ask(name, *arguments).holds)
        return self._holds

    def _change(self, name, holder, subdomain, count):
        numbers = _word("holder", holder), _word("subdomain", subdomain), _word("count", count)
        return self._ask(name, ctypes.byref(self._now), *numbers)

    def add(self, holder, subdomain, count):
        """Tally add: so many particles more of a subdomain at a holder. Whether the tree holds."""
        return self._change("tally_add", holder, subdomain, count)

    def remove(self, holder, subdomain, count):
        """Tally remove: so many fewer. Whether the tree holds."""
        return self._change("tally_remove", holder, subdomain, count)

    def count(self, holder, subdomain):
        """How many particles of a subdomain a node holds."""
        for node in (holder, subdomain):
            if not 0 <= node < self.n:
                raise IndexError(f"node {node} is not below N, which is {self.n}")
        return self._now.counts[64 * holder + subdomain]

    @property
    def holds(self):
        """Whether the tree holds the present counts."""
        return self._holds

    @property
    def n(self):
        """The number of nodes."""
        return self._now.n

    @property
    def limit(self):
        """The limit of the opening sheet."""
        return self._now.limit

    @property
    def total(self):
        """How many particles there are in all."""
        return self._now.total

    @property
    def helpands(self):
        """The helpands of the plan."""
        return self._now.helpands[: self.n]

    @property
    def totals(self):
        """How many particles there are of each subdomain."""
        return self._now.totals[: self.n]

    @property
    def leasts(self):
        """The leasts of the nodes, for the present counts and the limit."""
        return self._now.leasts[: self.n]

    def __copy__(self):
        # A copy that shared the memory would be the same tally.
        return copy.deepcopy(self)

    def __repr__(self):
        return f"<Tally n={self.n} limit={self.limit} total={self.total} holds={self.holds}>"


def tree_in_force(old_plan, new_plan):
    """Tree in force: the helpands, or an empty list.

    A new plan of kind 0 gives its roots. An empty old plan gives the empty list; only plan_step takes it as none.
    """
    old_plan, new_plan = _bytes("old_plan", old_plan), _bytes("new_plan", new_plan)
    part = _call("tree_in_force", old_plan, new_plan)
    source = old_plan if part.source == OLD_PLAN else new_plan
    return to_words(source[part.start : part.start + part.length])
