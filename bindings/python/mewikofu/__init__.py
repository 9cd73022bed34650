"""Settlement of one gas day by the proved code of libengine_c.a and libcutter_c.a (include/mewikofu.h), for Python programs.

Every function takes any bytes-like object and raises Refusal for the first fault met in the order of document 01's table,
"Where each refusal is checked". Lines, steps and schedules count from 0. The functions may be called from several threads.

The shared object is in the package: bindings/python/build or pip put it there. MEWIKOFU_LIBRARY in the environment names another.
"""

from __future__ import annotations

import ctypes
import operator
import os
import struct
import warnings
from dataclasses import dataclass
from pathlib import Path
from typing import TYPE_CHECKING, Any, Dict, Iterable, List, Optional, SupportsIndex, Tuple, Type

if TYPE_CHECKING:
    from _typeshed import ReadableBuffer, WriteableBuffer

__all__ = [
    "ACCREDITED",
    "MATCHES",
    "MOST_AD_HOC",
    "MOST_EXCESS",
    "MOST_LINES",
    "MOST_STEPS",
    "NOT_ACCREDITED",
    "SCHEDULES",
    "AdHoc",
    "Book",
    "BookLine",
    "Cut",
    "Excess",
    "Refusal",
    "View",
    "accreditation_in",
    "accredited",
    "ad_hoc_records",
    "book_bytes",
    "cut",
    "line_part",
    "line_views",
    "settle",
    "settle_into",
    "uplift",
    "view",
    "with_ad_hoc",
]
__version__ = "0.3.0"

MOST_LINES = 64
SCHEDULES = 5
MOST_STEPS = 56
MATCHES = 10
# The most ad hoc records of a day.
MOST_AD_HOC = 64
# The most MJ by which a pricing or operating total may be above the greatest break of its line's bids.
MOST_EXCESS = 1000

# Words of a line's accreditation, which stands at byte 12 of the line: in no schedule and in all. accreditation_in makes those of sets.
NOT_ACCREDITED = 0
ACCREDITED = 1

# Place and words of each number.
# tools/refusals writes from here, from docs/REFUSALS.md.
_REFUSALS: Dict[int, Tuple[str, str]] = {
    1: ("header", "the file is under 64 bytes"),
    2: ("header", "the line count is 0 or above 64"),
    3: ("header", "the header's offsets or length, or the file's length, aren't those of its counts of lines and ad hoc records"),
    4: ("market", "a market price or the administered price cap is above 10,000,000 price units"),
    5: ("market", "a cap mark or the clawback switch is above 1"),
    6: ("each line", "a line's side is above 1, or its accreditation is 2 to 31 or above 63"),
    7: ("each line", "a bid's count is 0 in schedule 1, or above 11"),
    8: ("each line", "a bid's breaks aren't strictly rising from above 0, or one is above 200,000,000 MJ"),
    9: ("each line", "a bid's price is above 10,000,000 price units, or falls (withdrawal: rises)"),
    10: ("each line", "an unused slot of a bid isn't 0"),
    11: ("each line", "a hedge is above the line's greatest break, or isn't 0 on a withdrawal"),
    12: ("each line", "a pricing or operating total is more than 1,000 MJ above the line's greatest break"),
    13: ("each line", "an actual is above 200,000,000 MJ"),
    14: ("all lines", "two lines have the same participant, point and side"),
    15: ("book", "the lent book is under 96 + 56 n bytes"),
    16: ("view, line part", "the day has no such line"),
    17: ("view", "the line has no such step"),
    18: ("cutter", "the line isn't 660 bytes"),
    19: ("header", "the count of ad hoc records is above 64"),
    20: ("ad hoc records", "an ad hoc record names a line that the day doesn't have, or a schedule other than 1 to 5"),
    21: ("ad hoc records", "two ad hoc records have the same line, schedule and order number"),
}
# tools/refusals writes to here.


class Refusal(Exception):
    """A refused input: its number, its place in document 01's table and what is wrong in words."""

    number: int
    place: str
    words: str

    def __init__(self, number: int) -> None:
        self.number = number
        self.place, self.words = _REFUSALS[number]
        super().__init__(f'refused {number}: {self.words} (document 01, "Where each refusal is checked", {self.place})')

    def __reduce__(self) -> Tuple[Type[Refusal], Tuple[int]]:
        return Refusal, (self.number,)


@dataclass(frozen=True)
class AdHoc:
    """An ad hoc record of a day file (document 02, F-5): a row of operating quantities, in MJ by interval, that stands for the line's own in one schedule.
    Line and schedule count from 0; the file counts schedules from 1. Of the records for a line and a schedule the one with the highest order number is in
    force, wherever it stands in the file."""

    line: int
    schedule: int
    order: int
    quantities: Tuple[int, ...]


@dataclass(frozen=True)
class BookLine:
    """One line of a book. Payments are by schedule, in $0.0000001."""

    participant: int
    point: int
    withdrawal: bool
    steps: int
    payments: Tuple[int, ...]


@dataclass(frozen=True)
class Book:
    """A settled day: lines in the day's order, t and a by schedule in $0.0000001, and the book's bytes."""

    lines: Tuple[BookLine, ...]
    totals: Tuple[int, ...]
    adjusted: Tuple[int, ...]
    data: bytes


@dataclass(frozen=True)
class Excess:
    """What no step takes of a line's operating total, pricing total and effective actual, since it is above the greatest break of the line's bids
    (document 02, F-2). In MJ, at most MOST_EXCESS. It is never constrained on and never paid. Tuples are by schedule, counted from 0. The fields' order is
    operating, pricing, actual; the row of the program `steps` has pricing first."""

    operating: Tuple[int, ...]
    pricing: Tuple[int, ...]
    actual: int


@dataclass(frozen=True)
class View:
    """The figures of one step; tuples are by schedule, counted from 0, but matches, of which matched(r, s) is one. Payments are in $0.0000001.
    The excess is the line's, so the same for each of its steps."""

    end: int
    width: int
    actual: int
    price: Tuple[int, ...]
    flag: Tuple[int, ...]
    operating: Tuple[int, ...]
    pricing: Tuple[int, ...]
    agino: Tuple[int, ...]
    msiq: Tuple[int, ...]
    constrained: Tuple[int, ...]
    matches: Tuple[int, ...]
    initial: Tuple[int, ...]
    revised: Tuple[int, ...]
    modified: Tuple[int, ...]
    finals: Tuple[int, ...]
    excess: Excess

    def matched(self, r: int, s: int) -> int:
        """How much of the fall in schedule s is matched with the rise in r: document 01's m(r + 1, s + 1). Schedules count from 0, r below s."""
        if not 0 <= r < s < SCHEDULES:
            raise ValueError("r and s are schedules counted from 0, r below s")
        return self.matches[s * (s - 1) // 2 + r]

    def match(self, r: int, s: int) -> int:
        """m(r, s) with schedules counted from 1, as no other place of this module counts them. Deprecated: use matched(r - 1, s - 1)."""
        warnings.warn("View.match counts schedules from 1; use View.matched, which counts from 0", DeprecationWarning, stacklevel=2)
        if not 1 <= r < s <= SCHEDULES:
            raise ValueError("r and s are schedules counted from 1, r below s")
        return self.matched(r - 1, s - 1)


@dataclass(frozen=True)
class Cut:
    """The steps of one line: upper ends; uncapped prices and flags by schedule and step; how many flags are set."""

    ends: Tuple[int, ...]
    prices: Tuple[Tuple[int, ...], ...]
    flags: Tuple[Tuple[bool, ...], ...]
    missing: Tuple[int, ...]

    def pulled(self, s: SupportsIndex) -> bool:
        """Whether the bid of schedule s, counted from 0, was pulled (document 02, F-6): its count is 0. Every step is then flagged and has the last
        price of the nearest earlier bid that wasn't pulled. A bid with steps has a price for the line's first step."""
        return self.flags[_schedule(s)][0]


def settle(day: ReadableBuffer) -> Book:
    """The book of a day."""
    data = bytearray(book_bytes(MOST_LINES))
    settle_into(day, data)
    return _book(bytes(data))


def settle_into(day: ReadableBuffer, book: WriteableBuffer) -> None:
    """Settles a day into the lent bytes, a bytearray or another that can be written. Those beyond 96 + 56 n are unchanged; refused, all are."""
    data = _bytes(day)
    lent = memoryview(book).cast("B")
    place = (ctypes.c_uint8 * lent.nbytes).from_buffer(lent)
    _accept(_library.mewikofu_settle(data, len(data), place, lent.nbytes))


def uplift(day: ReadableBuffer) -> Tuple[int, ...]:
    """Each schedule's uplift (document 02, F-1): its share of its group's adjusted totals, in $0.0000001. A group is a longest run of neighbouring schedules
    whose totals are all above 0 or all below 0. The shares of a group add up to its adjusted totals, and each is less than one unit from the schedule's
    total times the group's summed adjusted totals, over the group's summed totals. A total of 0 has the share 0."""
    data = _bytes(day)
    shares = _MONEY()
    _accept(_library.mewikofu_uplift(data, len(data), shares))
    return tuple(shares)


def view(day: ReadableBuffer, line: SupportsIndex, step: SupportsIndex) -> View:
    """Every figure of a step of a line, both counted from 0."""
    data = _bytes(day)
    answer = _library.mewikofu_view(data, len(data), _size(line), _size(step))
    _accept(answer.number)
    return _view(answer)


def line_views(day: ReadableBuffer, line: SupportsIndex) -> Tuple[View, ...]:
    """Every figure of all steps of a line, counted from 0: what view answers for each step, in order, by one call that works the day out once.
    The library is lent all 56 places whatever the line's step count; those past the count keep their bytes and aren't answered."""
    data = _bytes(day)
    views, count = _VIEWS(), ctypes.c_size_t()
    _accept(_library.mewikofu_line_views(data, len(data), _size(line), views, count))
    return tuple(map(_view, views[: count.value]))


def cut(line: ReadableBuffer) -> Cut:
    """Cuts the 660 bytes of one line into its steps. The cutter reads the line's own operating rows, so of an accepted day with ad hoc records it may refuse
    a line's part with 12."""
    data = _bytes(line)
    answer = _library.mewikofu_cut(data, len(data))
    _accept(answer.number)
    count = answer.count
    return Cut(
        ends=tuple(answer.ends[:count]),
        prices=tuple(tuple(row[:count]) for row in answer.prices),
        flags=tuple(tuple(bool(word >> k & 1) for k in range(count)) for word in answer.flags),
        missing=tuple(answer.missing),
    )


def line_part(day: ReadableBuffer, k: SupportsIndex) -> memoryview:
    """The bytes of line k (from 0) within the day's own, as a memoryview of them, with the line's own operating rows. Only the header is checked."""
    data = _bytes(day)
    at, length = ctypes.c_size_t(), ctypes.c_size_t()
    _accept(_library.mewikofu_line_part(data, len(data), _size(k), at, length))
    return memoryview(day).cast("B")[at.value : at.value + length.value]


def ad_hoc_records(day: ReadableBuffer) -> Tuple[AdHoc, ...]:
    """The ad hoc records of a day, in the file's order; none in the layout without them. The header is checked, and of each record that it names a line and a
    schedule (20)."""
    data = _bytes(day)
    _, records = _parts(data)
    n = struct.unpack_from("<I", data)[0]
    found = []
    for line, schedule, order, *quantities in _RECORD.iter_unpack(records):
        if line >= n or not 1 <= schedule <= SCHEDULES:
            raise Refusal(20)
        found.append(AdHoc(line, schedule - 1, order, tuple(quantities)))
    return tuple(found)


def with_ad_hoc(day: ReadableBuffer, records: Iterable[AdHoc]) -> bytes:
    """The same day with these records after those that it has, in the layout with ad hoc records. Only the header is checked. With more than MOST_AD_HOC
    records in all the day is refused with 19. A number that a word can't hold raises ValueError, as a schedule does that isn't 0 to 4."""
    data = _bytes(day)
    market_and_lines, before = _parts(data)
    behind = before + b"".join(map(_record, records))
    at = _AD_HOC_HEADER.size + len(market_and_lines)
    n = struct.unpack_from("<I", data)[0]
    header = _AD_HOC_HEADER.pack(n, _AD_HOC_HEADER.size, _AD_HOC_HEADER.size + _MARKET_BYTES, at + len(behind), len(behind) // _RECORD.size, at)
    return header + market_and_lines + behind


def accreditation_in(schedules: Iterable[SupportsIndex]) -> int:
    """The accreditation word of a line that is accredited in these schedules alone, counted from 0: 32 and bit s for schedule s. With none of
    them it is settled as NOT_ACCREDITED, with all five as ACCREDITED."""
    word = _NO_SCHEDULE
    for s in schedules:
        word |= 1 << _schedule(s)
    return word


def accredited(word: SupportsIndex, s: SupportsIndex) -> bool:
    """Whether a line with this accreditation word is accredited in schedule s, counted from 0. Words that are refused (6) raise ValueError."""
    number, place = operator.index(word), _schedule(s)
    if number in (NOT_ACCREDITED, ACCREDITED):
        return number == ACCREDITED
    if not _NO_SCHEDULE <= number <= _ALL_SCHEDULES:
        raise ValueError("an accreditation word is 0, 1 or 32 to 63")
    return number >> place & 1 == 1


def book_bytes(n: int) -> int:
    """The length of a book of n lines."""
    return 96 + 56 * n


def _parts(data: bytes) -> Tuple[bytes, bytes]:
    """A day's market table with its lines, and its ad hoc records."""
    line_part(data, 0)  # checks the header
    n, market_at = struct.unpack_from("<2I", data)
    lines_end = market_at + _MARKET_BYTES + _LINE_BYTES * n
    return data[market_at:lines_end], data[lines_end:]


def _record(record: AdHoc) -> bytes:
    """The bytes of an ad hoc record in the file."""
    schedule = _schedule(record.schedule) + 1
    if len(record.quantities) != SCHEDULES:
        raise ValueError("an ad hoc record has five quantities")
    try:
        return _RECORD.pack(record.line, schedule, record.order, *record.quantities)
    except struct.error as error:
        raise ValueError(f"a number of an ad hoc record isn't a word of the file: {error}") from None


def _book(data: bytes) -> Book:
    n = struct.unpack_from("<I", data)[0]
    pairs = struct.unpack_from("<10q", data, 16)
    entries = struct.iter_unpack("<4I5q", data[96 : book_bytes(n)])
    lines = tuple(BookLine(entry[0], entry[1], entry[2] == 1, entry[3], entry[4:]) for entry in entries)
    return Book(lines, pairs[0::2], pairs[1::2], data[: book_bytes(n)])


def _bytes(data: ReadableBuffer) -> bytes:
    """A copy of the caller's bytes, which no call can change."""
    return memoryview(data).tobytes()


def _size(place: SupportsIndex) -> int:
    """A place from 0. Those that size_t can't hold are beyond every line and step, as its greatest is."""
    index = operator.index(place)
    if index < 0:
        raise ValueError("a line or step counts from 0")
    return min(index, ctypes.c_size_t(-1).value)


def _schedule(s: SupportsIndex) -> int:
    place = operator.index(s)
    if not 0 <= place < SCHEDULES:
        raise ValueError("schedules count from 0 to 4")
    return place


def _view(answer: _View) -> View:
    """An accepted answer without its number."""
    figures = _values(answer)
    del figures["number"]
    figures["excess"] = Excess(**_values(answer.excess))
    return View(**figures)


def _values(answer: ctypes.Structure) -> Dict[str, Any]:
    """The fields of an answer by their names, arrays as tuples."""
    values = ((field[0], getattr(answer, field[0])) for field in answer._fields_)
    return {name: tuple(value) if isinstance(value, ctypes.Array) else value for name, value in values}


def _accept(number: int) -> None:
    if number != 0:
        raise Refusal(number)


# Parts of the day file: a header with ad hoc records, the market table, a line, a record.
_AD_HOC_HEADER = struct.Struct("<6I")
_MARKET_BYTES = 48
_LINE_BYTES = 660
_RECORD = struct.Struct("<8I")
# Accreditation words of the empty and the full set of schedules.
_NO_SCHEDULE = 32
_ALL_SCHEDULES = 63
_WORDS = ctypes.c_uint32 * SCHEDULES
_MONEY = ctypes.c_int64 * SCHEDULES


class _Excess(ctypes.Structure):
    """The header's struct mewikofu_excess."""

    _fields_ = [("operating", _WORDS), ("pricing", _WORDS), ("actual", ctypes.c_uint32)]


class _View(ctypes.Structure):
    """The header's struct mewikofu_view."""

    _fields_ = [
        ("initial", _MONEY),
        ("revised", _MONEY),
        ("modified", _MONEY),
        ("finals", _MONEY),
        ("number", ctypes.c_uint32),
        ("end", ctypes.c_uint32),
        ("width", ctypes.c_uint32),
        ("actual", ctypes.c_uint32),
        ("price", _WORDS),
        ("flag", _WORDS),
        ("operating", _WORDS),
        ("pricing", _WORDS),
        ("agino", _WORDS),
        ("msiq", _WORDS),
        ("constrained", _WORDS),
        ("matches", ctypes.c_uint32 * MATCHES),
        ("excess", _Excess),
    ]


_VIEWS = _View * MOST_STEPS


class _Cut(ctypes.Structure):
    """The header's struct mewikofu_cut."""

    _fields_ = [
        ("flags", ctypes.c_uint64 * SCHEDULES),
        ("number", ctypes.c_uint32),
        ("count", ctypes.c_uint32),
        ("missing", _WORDS),
        ("ends", ctypes.c_uint32 * MOST_STEPS),
        ("prices", ctypes.c_uint32 * MOST_STEPS * SCHEDULES),
        ("reserved", ctypes.c_uint32),
    ]


# What makes the package's own shared object.
_BUILD = (
    "In the repository, after `tools/build engine_c cutter_c`, run `bindings/python/build`, or "
    "`pip install ./bindings/python`; or name another shared object in MEWIKOFU_LIBRARY."
)


def _open(named: Optional[str]) -> ctypes.CDLL:
    file = Path(named) if named else Path(__file__).parent / "libmewikofu.so"
    try:
        return ctypes.CDLL(str(file))
    except OSError as error:
        if named:
            raise ImportError(f"MEWIKOFU_LIBRARY names a shared object that can't be loaded: {error}") from error
        if file.exists():
            raise ImportError(f"the shared object can't be loaded: {error}") from error
        raise ImportError(f"{file} is missing. {_BUILD}") from None


def _load() -> ctypes.CDLL:
    named = os.environ.get("MEWIKOFU_LIBRARY")
    library = _open(named)
    remedy = f"Unset MEWIKOFU_LIBRARY, or name a libmewikofu of version {__version__} in it." if named else _BUILD
    data, size, number = ctypes.c_char_p, ctypes.c_size_t, ctypes.c_uint32
    lent = ctypes.POINTER
    functions: Dict[str, Tuple[Any, List[Any]]] = {
        "mewikofu_version": (data, []),
        "mewikofu_settle": (number, [data, size, ctypes.c_void_p, size]),
        "mewikofu_uplift": (number, [data, size, lent(ctypes.c_int64)]),
        "mewikofu_view": (_View, [data, size, size, size]),
        "mewikofu_line_views": (number, [data, size, size, lent(_View), lent(size)]),
        "mewikofu_line_part": (number, [data, size, size, lent(size), lent(size)]),
        "mewikofu_cut": (_Cut, [data, size]),
    }
    for name, (answer, arguments) in functions.items():
        try:
            function = getattr(library, name)
        except AttributeError:
            raise ImportError(f"{library._name} isn't a libmewikofu of version {__version__}: it has no {name}. {remedy}") from None
        function.restype, function.argtypes = answer, arguments
    # Another version may take or answer something else.
    version = library.mewikofu_version().decode()
    if version != __version__:
        raise ImportError(f"{library._name} isn't a libmewikofu of version {__version__}: it is of version {version}. {remedy}")
    return library


_library = _load()
