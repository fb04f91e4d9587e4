"""What can be typed: python3 -m corridor COMMAND ...

Bytes are two hexadecimal digits each. Where a command is given none, it reads
them from standard input, so that commands can stand in a row:

    python3 -m corridor write 2e --text "ROOM 12" |
        python3 -m corridor damage 3.0 | python3 -m corridor read 2e

SETTINGS are the method, 1 to 4 or 7, then e or o for even or odd parity, then
d where the code is DKOI: 2e, 3o, 3ed. A frame is its number of bits and a
colon, then the bytes that hold it: 42: 7E DF 01 BE FB 01. So is the content of
a frame that ends inside a byte: 9: 41 01.

The lines that send prints are steps of tell, which is the receiving station:

    python3 -m corridor send 3 2 submit:37 line:0 | grep line |
        python3 -m corridor tell 3 2

The exit status is 0 for success, 1 for a refusal (send and tell go on behind
one) and 2 for what is no command.
"""

import argparse
import re
import sys

import corridor

ARRIVALS = {corridor.NEW: "new", corridor.REPEAT: "repeat", corridor.LOST: "lost"}
EVENTS = {"submitted": 1, "acknowledged": 2, "received": 3}


class Unknown(Exception):
    """What was typed is no command."""


# --- words


def words(given):
    """The words given, or those of standard input."""
    return given if given else sys.stdin.read().split()


def one_byte(word):
    if not re.fullmatch("[0-9A-Fa-f]{2}", word):
        raise Unknown("no byte of two hexadecimal digits: %r" % word)
    return int(word, 16)


def bytes_of(given, text=None):
    if text is not None:
        return text.encode("latin-1")
    return bytes(map(one_byte, words(given)))


def whole(word):
    if not word.isdigit():
        raise Unknown("no whole number: %r" % word)
    return int(word)


def content_of_frame(given, text=None):
    """Its bytes, and how many bits they are where it says so."""
    if text is None:
        given = words(given)
        if given and given[0].endswith(":"):
            bits, content = frame_of(given)
            return content, bits
    return bytes_of(given, text), None


def frame_of(given):
    """The bits and bytes of "42: 7E DF"."""
    first, *rest = words(given) or [""]
    if not re.fullmatch("[0-9]+:", first):
        raise Unknown("no number of bits with a colon: %r" % first)
    return int(first[:-1]), bytes(map(one_byte, rest))


def link_of(word):
    found = re.fullmatch("([1-47])([eo])(d?)", word)
    if not found:
        raise Unknown("no settings: %r" % word)
    return corridor.Link(
        int(found[1]),
        corridor.ODD if found[2] == "o" else corridor.EVEN,
        corridor.DKOI if found[3] else corridor.KOI7,
    )


def shown(data):
    return data.hex(" ").upper()


def with_letters(name, data):
    """The bytes, and their letters where all are printable."""
    letters = data.decode("ascii", "replace")
    readable = letters.isascii() and letters.isprintable()
    line = "%s %s" % (name, shown(data))
    return line + "  %s" % letters if readable else line


def line_of(answer):
    """Prints the line of a success."""
    if answer:
        print(shown(answer.line))
    return answer


def content_of(name, answer):
    """Prints the content of a success."""
    if answer:
        print(with_letters(name, answer.content))
    return answer


def block_of(block):
    """Prints header and text of a block."""
    for name, data in (("header", block.header), ("text", block.text)):
        if data:
            print(with_letters(name, data))


def step_of(step, answer, said):
    """Prints a step and what was answered to it."""
    refused = "refused %d %d"
    print("%s: %s" % (step, said if answer else refused % (answer.number, answer.value)))


# --- commands


def read(given):
    answer = corridor.read_block(link_of(given.settings), bytes_of(given.bytes))
    if answer:
        header, text = answer.header, answer.text
        form = (answer.shape, answer.end_sign, len(header), len(text), answer.counted)
        print("taken %d %02X %d %d %d" % form)
        block_of(answer)
    return answer


def write(given):
    header = given.header_text.encode("latin-1")
    if given.header is not None:
        header = bytes(map(one_byte, given.header.split()))
    text = bytes_of(given.bytes, given.text)
    shape = given.shape
    if shape is None:
        start = 3 if header else 2
        shape = start + 2 if given.clear else start
    link, end_sign = link_of(given.settings), one_byte(given.end)
    return line_of(corridor.write_block(link, shape, end_sign, header, text))


def damage(given):
    flips = [word for word in given.words if "." in word]
    line = words([word for word in given.words if "." not in word])
    bits, line = ([line[0]], line[1:]) if line and line[0].endswith(":") else ([], line)
    data = bytearray(map(one_byte, line))
    for flip in flips:
        found = re.fullmatch(r"([0-9]+)\.([0-7])", flip)
        if not found or int(found[1]) >= len(data):
            raise Unknown("no bit of the line: %r" % flip)
        data[int(found[1])] ^= 1 << int(found[2])
    print(*bits, shown(data))


def frame(given):
    content, bits = content_of_frame(given.bytes, given.text)
    answer = corridor.write_frame(given.method, content, bits)
    if answer:
        print("%d: %s" % (answer.bits, shown(answer.lent)))
    return answer


def read_frame(given):
    answer = corridor.read_frame(given.method, *frame_of(given.words))
    if answer and answer.bits % 8:
        print("content %d: %s" % (answer.bits, shown(answer.content)))
        return answer
    return content_of("content", answer)


def number(given):
    answer = corridor.receive(given.n, given.w, given.c, given.received)
    if answer:
        print("%s, then %d is awaited" % (ARRIVALS[answer.arrival], answer.awaited))
    return answer


def send(given):
    link = (given.n, given.w)
    station, store = corridor.Station(), corridor.Store(given.w)
    for step in given.words:
        what, _, rest = step.partition(":")
        if what == "submit":
            block = bytes(map(one_byte, re.findall("..?", rest)))
            answer = corridor.submit(*link, station, store, block)
            said = answer and "number %d" % answer.number
        elif what == "acknowledge":
            answer = corridor.acknowledge(*link, station, store, whole(rest))
            said = answer and "%d freed" % answer.count
        elif what == "order":
            answer = corridor.order(*link, station, whole(rest))
            said = answer and "from number %d on" % answer.number
        elif what == "line":
            answer = corridor.send(*link, station, store, whole(rest))
            said = answer and shown(answer.line)
        else:
            raise Unknown("none of %s: %r" % (SENDING, step))
        step_of(step, answer, said)


def tell(given):
    receiver, steps = corridor.Receiver(given.n, given.w), []
    for word in words(given.words):
        if ":" in word:
            steps.append((word.rstrip(":"), []))
        elif steps:
            steps[-1][1].append(word)
        else:
            raise Unknown("none of %s: %r" % (RECEIVING, word))
    for step, line in steps:
        order = re.fullmatch("order:([0-9]+):([0-9]+)", step)
        sent = re.fullmatch("line:([0-9]+)", step)
        if order and not line:
            answer = corridor.tell_order(receiver, int(order[1]), int(order[2]))
            step_of(step, answer, "noted")
        elif sent:
            answer = corridor.tell_block(receiver, int(sent[1]), bytes(map(one_byte, line)))
            told = answer and (ARRIVALS[answer.arrival], receiver.c)
            step_of(step, answer, told and "%s, then %d is awaited" % told)
            if answer and answer.block:
                block_of(answer.block)
        else:
            raise Unknown("none of %s: %r" % (RECEIVING, step))


def replay(given):
    trace = b""
    for step in given.words:
        event, _, rest = step.partition(":")
        if event not in EVENTS or not rest.isdigit():
            raise Unknown("none of %s with its number: %r" % (", ".join(EVENTS), step))
        length, of_block = (int(rest), 0) if event == "submitted" else (0, int(rest))
        trace += corridor.record(EVENTS[event], of_block, length)
    answer = corridor.replay_panel(given.n, given.w, trace)
    if answer:
        print("%d is awaited, %r" % (answer.awaited, answer.station))
    return answer


def interleave(given):
    return line_of(corridor.interleave(given.d, bytes_of(given.bytes, given.text)))


def deinterleave(given):
    return content_of("text", corridor.deinterleave(given.d, bytes_of(given.bytes)))


def fixed(given):
    content = bytes_of(given.bytes, given.text)
    return line_of(corridor.write_fixed(given.degree, content))


def read_fixed(given):
    block = bytes_of(given.bytes)
    return content_of("content", corridor.read_fixed(given.degree, block))


def digits(method):
    return 8 if method == corridor.FRAME_32 else 4


def check(given):
    content = bytes_of(given.bytes, given.text)
    print("%0*X" % (digits(given.method), corridor.check(given.method, content)))


def join(given):
    parts = (given.first, given.first_length, given.second, given.second_length)
    answer = corridor.join(given.method, *parts)
    if answer:
        print("%0*X" % (digits(given.method), answer.check))
    return answer


def refusal(given):
    """Every call that answers the number, with its question."""
    found = 0
    for call, table in corridor.questions().items():
        if given.number in table:
            found += 1
            question, carries = table[given.number]
            print("%s: %s Value: %s" % (call, question, carries))
    if not found:
        raise Unknown("no number of any call: %d" % given.number)


# --- what is typed


def told(refused):
    lines = ["refused %d %d" % (refused.number, refused.value)]
    lines.append("asked: %s" % refused.question)
    if not refused.carries.startswith(("0", "none", "an answer")):
        lines.append("%d: %s" % (refused.value, refused.carries))
    return "\n".join(lines)


def hexadecimal(word):
    return int(word, 16)


# What stands before the bytes of a command, or in their place.
SETTINGS = ("settings", str)
METHOD = ("method", int)
DEGREE = ("degree", int)
ROW = ("d", int)
NUMBERS = (("n", int), ("w", int))
PART = (("first", hexadecimal), ("first_length", int))
PARTS = PART + (("second", hexadecimal), ("second_length", int))

# The steps of the two stations.
SENDING = "submit:BYTES, acknowledge:NUMBER, order:METHOD or line:NUMBER"
RECEIVING = "order:NUMBER:METHOD or line:NUMBER: BYTE"

# Each command: what it does, what is said of it, its arguments, and the words
# behind them: BYTE takes bytes or, where TEXT is said, --text; otherwise words.
BYTE = "BYTE"
TEXT = "TEXT"
COMMANDS = {
    "read": (read, "reads a block", [SETTINGS], BYTE),
    "write": (write, "writes a block", [SETTINGS], TEXT),
    "damage": (damage, "flips bits of a line", [], "PLACE.BIT or BYTE"),
    "frame": (frame, "writes a frame", [METHOD], TEXT),
    "read-frame": (read_frame, "reads a frame", [METHOD], "BITS: or BYTE"),
    "number": (
        number,
        "judges a received number",
        [*NUMBERS, ("c", int), ("received", int)],
        None,
    ),
    "send": (send, "the steps of a sending station", NUMBERS, SENDING),
    "tell": (tell, "the steps of a receiving station", NUMBERS, RECEIVING),
    "replay": (
        replay,
        "replays a trace",
        NUMBERS,
        "submitted:LENGTH, acknowledged:NUMBER or received:NUMBER",
    ),
    "interleave": (interleave, "spreads a text over a line", [ROW], TEXT),
    "deinterleave": (deinterleave, "gives back the text of a line", [ROW], BYTE),
    "fixed": (fixed, "writes a fixed block", [DEGREE], TEXT),
    "read-fixed": (read_fixed, "reads a fixed block", [DEGREE], BYTE),
    "check": (check, "the check of a content", [METHOD], TEXT),
    "join": (join, "the check of two parts", [METHOD, *PARTS], None),
    "refusal": (refusal, "what a number means", [("number", int)], None),
}


def usage():
    lines = ["%-14s%s" % (name, entry[1]) for name, entry in COMMANDS.items()]
    return "%s\nCommands, each with --help:\n\n    %s" % (__doc__, "\n    ".join(lines))


def parsed(name, arguments):
    _, said, before, behind = COMMANDS[name]
    parser = argparse.ArgumentParser(prog="python3 -m corridor " + name, description=said)
    for argument, kind in before:
        parser.add_argument(argument, type=kind)
    if behind in (BYTE, TEXT):
        metavar = "BITS: or BYTE" if name == "frame" else BYTE
        parser.add_argument("bytes", nargs="*", metavar=metavar)
    elif behind:
        parser.add_argument("words", nargs="*", metavar=behind)
    if behind == TEXT:
        parser.add_argument("--text", help="letters in place of bytes")
    if name == "write":
        parser.add_argument("--header", help="bytes of a header, in one word")
        parser.add_argument("--header-text", default="", help="the same, as letters")
        parser.add_argument("--clear", action="store_true", help="the text is clear text")
        parser.add_argument("--end", default="03", help="03, 17 or 1F")
        parser.add_argument("--shape", type=int, help="1 to 5, where it is none of these")
    return parser.parse_intermixed_args(arguments)


def main(arguments=None):
    name, *rest = (sys.argv[1:] if arguments is None else arguments) or [""]
    if name not in COMMANDS:
        helped = name in ("-h", "--help")
        print(usage(), file=sys.stdout if helped else sys.stderr)
        return 0 if helped else 2
    try:
        answer = COMMANDS[name][0](parsed(name, rest))
    except (Unknown, FileNotFoundError, ValueError) as error:
        print("corridor: %s" % error, file=sys.stderr)
        return 2
    if isinstance(answer, corridor.Refused):
        print(told(answer))
        return 1
    return 0
