"""The calls of include/corridor.h, for testers: bytes in, bytes out.

Each call answers with one of the small classes below, or with Refused, which
is false where it is asked as a condition:

    >>> import corridor
    >>> link = corridor.Link(corridor.MATRIX)
    >>> corridor.write_block(link, corridor.TEXT, corridor.ETX, text=b"A")
    Written(line=b'\\x82A\\x03B')
    >>> corridor.read_block(link, b"\\x82A\\x03C")
    Refused(number=12, value=3)
    >>> print(corridor.read_block(link, b"\\x82A\\x03C").question)
    methods 1, 2 and 7: are all parities right?

`python3 -m corridor --help` names what can be typed. bindings/python/build
makes the shared object. It stands beside this file, in target/sharedlib, or
where CORRIDOR_LIBRARY says; the list of numbers, NUMBERS.md, beside this file
or in docs.
"""

import ctypes
import os
import re
from dataclasses import dataclass, field
from functools import lru_cache
from pathlib import Path
from typing import NamedTuple

# Methods of a block.
PARITY = 1
MATRIX = 2
CYCLIC = 3
CYCLIC_ALTERNATIVE = 4
DIAGONAL = 7

# Methods of a frame.
FRAME_16 = 5
FRAME_32 = 6

# Polynomials of a fixed block, by their degrees.
DEGREE_8 = 8
DEGREE_16 = 16
DEGREE_24 = 24

# Parities.
EVEN = 0
ODD = 1

# Codes of the signs.
KOI7 = 0
DKOI = 1

# Shapes of a block.
HEADER = 1
TEXT = 2
HEADER_TEXT = 3
CLEAR_TEXT = 4
HEADER_CLEAR_TEXT = 5

# End signs, under either code.
ETX = 0x03
ETB = 0x17
US = 0x1F

# What a received number tells.
NEW = 1
REPEAT = 2
LOST = 3

# Limits.
LONGEST_LINE = 16384
LONGEST_COUNT = 4096
LONGEST_CONTENT_16 = 32768
LONGEST_CONTENT_32 = 524288
LONGEST_FIXED_8 = 16
LONGEST_FIXED_16 = 16
LONGEST_FIXED_24 = 256
CELL = 4096
LONGEST_STORED = 4095
RECORD = 16
NOTES = 12


# --- what the calls answer


@dataclass(frozen=True)
class Refused:
    """The number of the first question answered with "no", and its value."""

    number: int
    value: int = 0
    call: str = field(default="", compare=False, repr=False)

    def __bool__(self):
        return False

    @property
    def question(self):
        """The question of docs/NUMBERS.md behind the number."""
        return self._meant()[0]

    @property
    def carries(self):
        """What the value is, by docs/NUMBERS.md."""
        return self._meant()[1]

    def _meant(self):
        # 1 is the number of any code outside its list, and may be a call's own
        tables = questions()
        return tables[self.call].get(self.number) or tables[CODES][self.number]


@dataclass(frozen=True)
class Taken:
    """A block that was read."""

    shape: int
    end_sign: int
    header: bytes
    text: bytes
    counted: int


@dataclass(frozen=True)
class Written:
    """The line of a block, also of a stored one, a fixed block, or an
    interleaved text."""

    line: bytes


@dataclass(frozen=True)
class Framed:
    """A frame: how many bits, and the bytes that hold them."""

    bits: int
    lent: bytes


@dataclass(frozen=True)
class FrameContent:
    """The content of a frame: how many bits, and the bytes that hold them."""

    bits: int
    content: bytes


@dataclass(frozen=True)
class Content:
    """The content of a fixed block, or the text of a line."""

    content: bytes


@dataclass(frozen=True)
class Judged:
    """What a received number tells, and the number awaited from now on."""

    arrival: int
    awaited: int


@dataclass(frozen=True)
class Submitted:
    """The number that a block got."""

    number: int


@dataclass(frozen=True)
class Freed:
    """How many blocks an acknowledgement freed."""

    count: int


@dataclass(frozen=True)
class Ordered:
    """The number of an order: that of the first block under its method."""

    number: int


@dataclass(frozen=True)
class Noted:
    """The receiver has the order."""


@dataclass(frozen=True)
class Told:
    """What a block's number told the receiver: NEW, REPEAT or LOST; and of a
    new block, what its line held."""

    arrival: int
    block: Taken = None


@dataclass(frozen=True)
class Replayed:
    """The record and the awaited number at the end of a trace, what the store
    holds then, and the notes, which the service reader alone is told."""

    station: "Station"
    awaited: int
    store: bytes = field(repr=False)
    notes: bytes = None


@dataclass(frozen=True)
class Joined:
    """The check of two parts joined."""

    check: int


# --- what the calls take


class Link(NamedTuple):
    """What a link sets for all its blocks."""

    method: int
    parity: int = EVEN
    code: int = KOI7


class Kept(ctypes.Structure):
    """A record that a station keeps: fresh, and altered by the calls."""

    def values(self):
        """The fields by their names."""
        fields = {name: getattr(self, name) for name, _ in self._fields_}
        for name, value in fields.items():
            if isinstance(value, ctypes.Array):
                fields[name] = tuple(value)
        return fields

    def __eq__(self, other):
        return type(other) is type(self) and self.values() == other.values()

    def __repr__(self):
        fields = ", ".join("%s=%r" % pair for pair in self.values().items())
        return "%s(%s)" % (type(self).__name__, fields)


class Station(Kept):
    """The record of a sending station."""

    _fields_ = [
        ("next", ctypes.c_uint8),
        ("stored", ctypes.c_uint8),
        ("cell", ctypes.c_uint8),
        ("lengths", ctypes.c_uint16 * 7),
        ("method", ctypes.c_uint8),
        ("former", ctypes.c_uint8),
        ("older", ctypes.c_uint8),
    ]


class Receiver(Kept):
    """The record of a receiving station: Receiver(n, w) is a fresh one."""

    _fields_ = [
        ("n", ctypes.c_uint8),
        ("w", ctypes.c_uint8),
        ("c", ctypes.c_uint8),
        ("method", ctypes.c_uint8),
        ("waiting", ctypes.c_uint8),
        ("number", ctypes.c_uint8),
    ]


class Lent:
    """Bytes that a call may alter: an output, filled with AA, or a store."""

    FILL = b"\xaa"

    def __init__(self, room):
        self.room = room
        # never empty, so that there is always a pointer
        self.array = ctypes.create_string_buffer(self.FILL * max(room, 1), max(room, 1))

    def __bytes__(self):
        return self.array.raw[: self.room]


class Store(Lent):
    """The store of a sending station, a cell for each of w blocks."""

    def __init__(self, w):
        super().__init__(w * CELL)


# --- the library

U8 = ctypes.c_uint8
U16 = ctypes.c_uint16
U32 = ctypes.c_uint32
SIZE = ctypes.c_size_t
SIZES = ctypes.POINTER(SIZE)
BYTES = ctypes.POINTER(U8)
STATION = ctypes.POINTER(Station)
CONST_STATION = STATION  # a record that the call only reads
RECEIVER = ctypes.POINTER(Receiver)
IN = (ctypes.c_char_p, SIZE)
OUT = (ctypes.POINTER(ctypes.c_char), SIZE)

# Each call: its result, then its arguments. A slice is a pointer and a length.
CALLS = {
    "read_block": (U32, U8, U8, U8, *IN, *OUT, SIZES),
    "write_block": (U32, U8, U8, U8, U8, U8, *IN, *IN, *OUT, SIZES),
    "read_frame": (U32, U8, SIZE, *IN, *OUT, SIZES),
    "write_frame": (U32, U8, SIZE, *IN, *OUT, SIZES),
    "receive": (U32, U8, U8, U8, U8, BYTES),
    "submit": (U32, U8, U8, STATION, *OUT, *IN, SIZES),
    "acknowledge": (U32, U8, U8, STATION, *IN, U8, SIZES),
    "order": (U32, U8, U8, STATION, U8, SIZES),
    "send": (U32, U8, U8, CONST_STATION, *IN, U8, *OUT, SIZES),
    "tell_order": (U32, RECEIVER, U8, U8),
    "tell_block": (U32, RECEIVER, U8, *IN, *OUT, SIZES),
    "interleave": (U32, SIZE, *IN, *OUT),
    "deinterleave": (U32, SIZE, *IN, *OUT),
    "replay_panel": (U32, U8, U8, *IN, *OUT, STATION, BYTES, SIZES),
    "replay_service": (U32, U8, U8, *IN, *OUT, STATION, BYTES, BYTES, SIZES),
    "write_fixed": (U32, U8, *IN, *OUT, SIZES),
    "read_fixed": (U32, U8, *IN, *OUT, SIZES),
    "check_3": (U16, *IN),
    "check_4": (U16, *IN),
    "check_5": (U16, *IN),
    "check_6": (U32, *IN),
    "join_3": (U32, U16, SIZE, U16, SIZE, SIZES),
    "join_4": (U32, U16, SIZE, U16, SIZE, SIZES),
    "join_5": (U32, U16, SIZE, U16, SIZE, SIZES),
    "join_6": (U32, U32, SIZE, U32, SIZE, SIZES),
}

HERE = Path(__file__).resolve().parent
REPOSITORY = HERE.parent.parent


def _first(name, how, *folders):
    """The first of the folders' files of that name."""
    for folder in folders:
        if (folder / name).is_file():
            return folder / name
    raise FileNotFoundError("there is no %s: %s" % (name, how))


@lru_cache(maxsize=None)
def library():
    """The shared object, its calls declared."""
    path = os.environ.get("CORRIDOR_LIBRARY") or _first(
        "libcorridor.so",
        "run bindings/python/build at the top of the repository",
        HERE,
        REPOSITORY / "target" / "sharedlib",
    )
    loaded = ctypes.CDLL(str(path))
    for name, (result, *arguments) in CALLS.items():
        call = getattr(loaded, "corridor_" + name)
        call.restype = result
        call.argtypes = arguments
    return loaded


def _call(name, *arguments):
    """The result of a call. Bytes and Lent stand for a pointer and a length;
    after a refusal what is lent, also a record, has to be as it was."""
    given, before = [], []
    for argument in arguments:
        if isinstance(argument, Lent):
            given += [argument.array, argument.room]
            before.append((argument, bytes(argument)))
        elif isinstance(argument, (bytes, bytearray)):
            given += [bytes(argument), len(argument)]
        else:
            given.append(argument)
        if isinstance(argument, Kept):
            before.append((argument, bytes(argument)))
    call = getattr(library(), "corridor_" + name)
    for argument, kind in zip(given, call.argtypes):
        # the machine would cut it off without a word
        limit = 1 << 8 * ctypes.sizeof(kind)
        if isinstance(argument, int) and not 0 <= argument < limit:
            raise ValueError("%d is not from 0 to %d" % (argument, limit - 1))
    result = call(*given)
    if result != 0 and any(bytes(lent) != was for lent, was in before):
        raise AssertionError("corridor_%s refused and altered what is lent" % name)
    return result


def _with_output(name, room, *arguments):
    """Number, value and output of a call whose last arguments they are."""
    out, value = Lent(room), SIZE()
    number = _call(name, *arguments, out, ctypes.byref(value))
    return number, value.value, bytes(out)


# --- the numbers

# The heading above the number that every call with a code answers.
CODES = "Codes of the C calls"


def _calls_of(heading):
    """The calls that a heading of NUMBERS.md names."""
    calls = []
    for to, name in re.findall(r"( to )?`corridor_(\w+)`", heading):
        if to:
            stem, first, last = name[:-1], int(calls[-1][-1]), int(name[-1])
            calls += ["%s%d" % (stem, digit) for digit in range(first + 1, last)]
        calls.append(name)
    return calls


@lru_cache(maxsize=None)
def questions():
    """By call and number, the question and what the value is: the tables of
    docs/NUMBERS.md, in the order in which each call asks. Of a number that a
    call gives to two questions, both."""
    path = _first("NUMBERS.md", "it is in docs", HERE, REPOSITORY / "docs")
    tables, calls, before = {call: {} for call in [*CALLS, CODES]}, [], {}
    for line in path.read_text(encoding="utf-8").splitlines():
        if line.startswith("## "):
            calls = [CODES] if line[3:] == CODES else _calls_of(line)
        row = re.match(r"\| (\d+(?:, \d+)*) \| (.*) \| (.*) \|$", line)
        if not row:
            continue
        for number in map(int, row[1].split(", ")):
            meant = before[number] if row[2] == "as above" else row.group(2, 3)
            before[number] = meant
            for table in (tables[call] for call in calls):
                first, carries = table.get(number, meant)
                both = first if meant[0] == first else "%s Or: %s" % (first, meant[0])
                table[number] = both, carries
    return tables


# --- blocks


def _taken(answer, out):
    """The block of an answer: header and text stand in the output."""
    shape, end_sign, header, text, counted = answer
    found = bytes(out)
    return Taken(shape, end_sign, found[:header], found[header : header + text], counted)


def read_block(link, line, room=None):
    """Taken, or Refused. The output has `room` bytes, else enough."""
    out = Lent(len(line) if room is None else room)
    answer = (SIZE * 5)()
    number = _call("read_block", *link, line, out, answer)
    if number != 0:
        return Refused(number, answer[0], "read_block")
    return _taken(answer, out)


def write_block(link, shape, end_sign, header=b"", text=b"", room=None):
    """Written, or Refused. The output has `room` bytes, else enough."""
    enough = len(header) + 2 * len(text) + 7
    number, value, out = _with_output(
        "write_block",
        enough if room is None else room,
        *link,
        shape,
        end_sign,
        header,
        text,
    )
    if number != 0:
        return Refused(number, value, "write_block")
    return Written(out[:value])


# --- frames


def holding(bits):
    """How many bytes so many bits take."""
    return (bits + 7) // 8


def read_frame(method, bits, lent, room=None):
    """FrameContent, or Refused. The output has `room` bytes, else enough."""
    room = len(lent) if room is None else room
    number, value, out = _with_output("read_frame", room, method, bits, lent)
    if number != 0:
        return Refused(number, value, "read_frame")
    return FrameContent(value, out[: holding(value)])


def write_frame(method, content, bits=None, room=None):
    """Framed, or Refused. The content has `bits` bits, else all of its bytes;
    the output has `room` bytes, else enough."""
    bits = 8 * len(content) if bits is None else bits
    room = 2 * len(content) + 16 if room is None else room
    number, value, out = _with_output("write_frame", room, method, bits, content)
    if number != 0:
        return Refused(number, value, "write_frame")
    return Framed(value, out[: holding(value)])


# --- numbers, the sender and the receiver


def receive(n, w, c, received):
    """Judged, or Refused."""
    answer = (U8 * 2)()
    number = _call("receive", n, w, c, received, answer)
    if number != 0:
        return Refused(number, 0, "receive")
    return Judged(*answer)


def submit(n, w, station, store, block):
    """Submitted, or Refused; record and store are altered."""
    value = SIZE()
    number = _call("submit", n, w, station, store, block, ctypes.byref(value))
    if number != 0:
        return Refused(number, value.value, "submit")
    return Submitted(value.value)


def acknowledge(n, w, station, store, named):
    """Freed, or Refused; the record is altered."""
    value = SIZE()
    number = _call("acknowledge", n, w, station, store, named, ctypes.byref(value))
    if number != 0:
        return Refused(number, value.value, "acknowledge")
    return Freed(value.value)


def order(n, w, station, method):
    """Ordered, or Refused; the record is altered."""
    value = SIZE()
    number = _call("order", n, w, station, method, ctypes.byref(value))
    if number != 0:
        return Refused(number, value.value, "order")
    return Ordered(value.value)


def send(n, w, station, store, named, room=None):
    """Written, or Refused. The output has `room` bytes, else enough."""
    room = 2 * LONGEST_STORED + 6 if room is None else room
    number, value, out = _with_output("send", room, n, w, station, store, named)
    if number != 0:
        return Refused(number, value, "send")
    return Written(out[:value])


def tell_order(receiver, number, method):
    """Noted, or Refused; the record is altered."""
    refused = _call("tell_order", receiver, number, method)
    return Refused(refused, 0, "tell_order") if refused else Noted()


def tell_block(receiver, number, line, room=None):
    """Told, or Refused; the record is altered. The output has `room` bytes,
    else enough."""
    out = Lent(len(line) if room is None else room)
    answer = (SIZE * 6)()
    refused = _call("tell_block", receiver, number, line, out, answer)
    if refused != 0:
        return Refused(refused, answer[1], "tell_block")
    arrival, *block = answer
    return Told(arrival, _taken(block, out) if arrival == NEW else None)


# --- interleaving


def interleave(d, text, room=None):
    """Written, or Refused. The output has `room` bytes, else enough."""
    out = Lent(len(text) if room is None else room)
    number = _call("interleave", d, text, out)
    if number != 0:
        return Refused(number, 0, "interleave")
    return Written(bytes(out)[: len(text)])


def deinterleave(d, line, room=None):
    """Content, or Refused. The output has `room` bytes, else enough."""
    out = Lent(len(line) if room is None else room)
    number = _call("deinterleave", d, line, out)
    if number != 0:
        return Refused(number, 0, "deinterleave")
    return Content(bytes(out)[: len(line)])


# --- recorded lines


def record(event, number=0, length=0, notes=bytes(NOTES)):
    """A record of a trace: 1 submitted, 2 acknowledged, 3 received."""
    return bytes([event, number]) + length.to_bytes(2, "big") + notes


def replay_panel(n, w, trace, store=None):
    """Replayed, or Refused."""
    store = Store(w) if store is None else store
    station, c, value = Station(), U8(), SIZE()
    end = (station, ctypes.byref(c), ctypes.byref(value))
    number = _call("replay_panel", n, w, trace, store, *end)
    if number != 0:
        return Refused(number, value.value, "replay_panel")
    return Replayed(station, c.value, bytes(store))


def replay_service(n, w, trace, store=None):
    """Replayed with notes, or Refused."""
    store = Store(w) if store is None else store
    station, c, notes, value = Station(), U8(), (U8 * NOTES)(), SIZE()
    end = (station, ctypes.byref(c), notes, ctypes.byref(value))
    number = _call("replay_service", n, w, trace, store, *end)
    if number != 0:
        return Refused(number, value.value, "replay_service")
    return Replayed(station, c.value, bytes(store), bytes(notes))


# --- fixed blocks


def write_fixed(degree, content, room=None):
    """Written, or Refused. The output has `room` bytes, else enough."""
    room = len(content) + 3 if room is None else room
    number, value, out = _with_output("write_fixed", room, degree, content)
    if number != 0:
        return Refused(number, value, "write_fixed")
    return Written(out[:value])


def read_fixed(degree, block, room=None):
    """Content, or Refused. The output has `room` bytes, else enough."""
    room = len(block) if room is None else room
    number, value, out = _with_output("read_fixed", room, degree, block)
    if number != 0:
        return Refused(number, value, "read_fixed")
    return Content(out[:value])


# --- checks


def check(method, content):
    """The check of a content by method 3, 4, 5 or 6, a number."""
    return _call("check_%d" % method, content)


def join(method, first, first_length, second, second_length):
    """Joined, or Refused: the check of two parts by method 3, 4, 5 or 6."""
    name, value = "join_%d" % method, SIZE()
    parts = (first, first_length, second, second_length)
    number = _call(name, *parts, ctypes.byref(value))
    if number != 0:
        return Refused(number, value.value, name)
    return Joined(value.value)


if __name__ == "__main__":
    import corridor_commands

    raise SystemExit(corridor_commands.main())
