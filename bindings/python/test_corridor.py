"""Each call of corridor.py against values that are obtained otherwise: the
owner's rows, published check values, division of whole polynomials, strings
of bits, and what the other call writes. At the end every call has answered
with success and with every number of its table in docs/NUMBERS.md.
"""

import collections
import io
import random
import re
import subprocess
import sys
import unittest
import zlib
from contextlib import redirect_stderr, redirect_stdout
from pathlib import Path
from unittest import mock

import corridor
import corridor_commands
from corridor import Content, FrameContent, Framed, Freed, Joined, Judged, Link, Noted
from corridor import Ordered, Refused, Submitted, Taken, Told, Written

HERE = Path(__file__).resolve().parent
DIGITS = b"123456789"
EVEN = Link(corridor.MATRIX)
CYCLIC = Link(corridor.CYCLIC)

# the numbers that each call answered
met = collections.defaultdict(set)


def setUpModule():
    call = corridor._call

    def recording(name, *arguments):
        result = call(name, *arguments)
        met[name].add(0 if name.startswith("check") else result)
        return result

    corridor._call = recording


def tearDownModule():
    for call in corridor.CALLS:
        table = corridor.questions()[call]
        missing = {0, *table} - met[call]
        strange = met[call] - {0, 1, *table}
        if missing or strange:
            raise AssertionError("%s: %s not met, %s met" % (call, missing, strange))


# --- other ways to the same values


def bits_of(data):
    """The bits in the order sent, as a string."""
    return "".join(format(byte, "08b")[::-1] for byte in data)


def bytes_of(bits):
    padded = bits + "0" * (-len(bits) % 8)
    return bytes(int(padded[i : i + 8][::-1], 2) for i in range(0, len(padded), 8))


def divided(polynomial, ones, inverted, sent):
    """The check of bits, as bits: whole polynomials as whole numbers, divided."""
    width = polynomial.bit_length() - 1
    dividend = int(sent or "0", 2) << width
    if ones:
        dividend ^= ((1 << width) - 1) << len(sent)
    while dividend.bit_length() > width:
        dividend ^= polynomial << (dividend.bit_length() - width - 1)
    if inverted:
        dividend ^= (1 << width) - 1
    return format(dividend, "0%db" % width)


APPENDIX_1 = (1 << 16 | 1 << 12 | 1 << 5 | 1, True, True)
APPENDIX_2 = (0x104C11DB7, True, True)
APPENDIX_3 = (1 << 16 | 1 << 15 | 1 << 2 | 1, False, False)
CHECKS = {3: APPENDIX_1, 4: APPENDIX_3, 5: APPENDIX_1, 6: APPENDIX_2}
FIXED = {
    8: sum(1 << power for power in (8, 2, 1, 0)),
    16: sum(1 << power for power in (16, 15, 13, 11, 5, 3, 1, 0)),
    24: sum(1 << power for power in (24, 22, 12, 10, 9, 2, 1, 0)),
}


def checked(method, content):
    check = divided(*CHECKS[method], bits_of(content))
    return int.from_bytes(bytes_of(check), "little")


def framed(method, sent):
    """Flag, stuffed bits, flag."""
    body = (sent + divided(*CHECKS[method], sent)).replace("11111", "111110")
    bits = "01111110" + body + "01111110"
    return Framed(len(bits), bytes_of(bits))


def even(byte):
    return byte | 0x80 if bin(byte).count("1") % 2 else byte


def matrix(start, counted):
    """The line of a block by the matrix, even parity."""
    check = 0
    for byte in counted:
        check ^= byte
    return bytes(map(even, start + counted + bytes([check])))


def clear_line(method, block):
    """The line of a stored block."""
    check = checked(method, block + b"\x03").to_bytes(2, "little")
    return b"\x10\x02" + block.replace(b"\x10", b"\x10\x10") + b"\x10\x03" + check


def drawn(seed, count, longest, bits=8):
    source = random.Random(seed)
    for _ in range(count):
        length = source.randrange(longest + 1)
        yield bytes(source.getrandbits(bits) for _ in range(length))


def refusals(test, answers):
    for answer, number, *value in answers:
        test.assertEqual(answer, Refused(number, *value))
        test.assertFalse(answer)
        test.assertTrue(answer.question and answer.carries)


# --- the calls


class Blocks(unittest.TestCase):
    def test_rows(self):
        """Lines of document 01."""
        rows = {
            (EVEN, "82 41 03 42"): Taken(2, 3, b"", b"A", 2),
            (Link(2, 1), "02 C1 83 C2"): Taken(2, 3, b"", b"A", 2),
            (EVEN, "82 96 41 96 03 42"): Taken(2, 3, b"", b"A", 2),
            (EVEN, "81 48 82 D4 17 09"): Taken(3, 0x17, b"H", b"T", 4),
            (Link(4), "02 03 40 01"): Taken(2, 3, b"", b"", 1),
            (CYCLIC, "02 03 E3 C2"): Taken(2, 3, b"", b"", 1),
            (CYCLIC, "10 02 10 03 E3 C2"): Taken(4, 3, b"", b"", 1),
            (Link(7), "82 41 03 42 05"): Taken(2, 3, b"", b"A", 2),
        }
        for (link, line), answer in rows.items():
            self.assertEqual(corridor.read_block(link, bytes.fromhex(line)), answer)

    def test_written(self):
        for text in drawn(1, 200, 60, bits=7):
            text = bytes(set(text) - {1, 2, 3, 0x10, 0x16, 0x17, 0x1F})
            line = corridor.write_block(EVEN, corridor.TEXT, corridor.ETX, text=text).line
            self.assertEqual(line, matrix(b"\x02", text + b"\x03"))
            read = corridor.read_block(EVEN, line)
            self.assertEqual(read, Taken(2, 3, b"", text, len(text) + 1))

    def test_clear_text_there_and_back(self):
        link = Link(corridor.CYCLIC_ALTERNATIVE, corridor.EVEN, corridor.DKOI)
        for text in drawn(2, 200, 300):
            written = corridor.write_block(link, 5, corridor.ETB, b"7B", text)
            counted = b"7B\x10\x02" + text.replace(b"\x10", b"\x10\x10") + b"\x10\x26"
            self.assertEqual(written.line[:-2], b"\x01" + counted)
            read = corridor.read_block(link, written.line)
            self.assertEqual((read.shape, read.end_sign), (5, corridor.ETB))
            self.assertEqual((read.header, read.text), (b"7B", text))

    def test_reading_refuses(self):
        def read(link, line, **more):
            return corridor.read_block(link, bytes.fromhex(line), **more)

        long = corridor.LONGEST_LINE
        overlong = b"\x02" + b"A" * corridor.LONGEST_COUNT + b"\x03\x00\x00"
        refusals(
            self,
            [
                (read(Link(5), "82 41 03 42"), 1),
                (read(Link(2, 0, 1), "82 41 03 42"), 58),
                (corridor.read_block(CYCLIC, b"\x02" + b"A" * long), 11),
                (read(EVEN, "82 41 03 43"), 12, 3),
                (read(EVEN, ""), 13),
                (read(Link(1), "82 90 03"), 14, 1),
                (read(CYCLIC, "02 41"), 15),
                (read(EVEN, "82 41 03"), 52, 3),
                (read(EVEN, "82 41 03 42 42"), 53, 3),
                (corridor.read_block(CYCLIC, overlong), 17),
                (read(CYCLIC, "02 03 E3 C3"), 18),
                (read(Link(7), "82 41 03 42 06"), 54),
                (read(EVEN, "82 41 03 42", room=0), 19, 1),
            ],
        )

    def test_writing_refuses(self):
        def write(link, shape, *parts, **more):
            return corridor.write_block(link, shape, corridor.ETX, *parts, **more)

        refusals(
            self,
            [
                (write(Link(2, 0, 1), 2), 58),
                (write(EVEN, 4), 1),
                (write(EVEN, 6), 1),
                (write(EVEN, 1, b"", b"A"), 4),
                (write(EVEN, 3, b"A\x16", b"A"), 2, 1),
                (write(EVEN, 2, b"", b"AB\xff"), 3, 2),
                (write(CYCLIC, 2, b"", b"A" * corridor.LONGEST_COUNT), 5),
                (write(EVEN, 2, b"", b"A", room=3), 6, 4),
            ],
        )


class Frames(unittest.TestCase):
    def test_rows(self):
        """Frames of document 01."""
        self.assertEqual(corridor.write_frame(5, b"\xff").bits, 42)
        self.assertEqual(corridor.write_frame(5, b"\xff\xff").bits, 54)
        self.assertEqual(corridor.write_frame(6, b"\xff").bits, 58)

    def test_there_and_back(self):
        for method in (corridor.FRAME_16, corridor.FRAME_32):
            for content in [b"\xff" * 40, b"\xf8\x1f" * 9, *drawn(method, 150, 60)]:
                content += b"\x00"
                written = corridor.write_frame(method, content)
                self.assertEqual(written, framed(method, bits_of(content)))
                read = corridor.read_frame(method, written.bits, written.lent)
                self.assertEqual(read, FrameContent(8 * len(content), content))

    def test_inside_a_byte(self):
        """Of any number of bits; what stands behind them is ignored."""
        for method in (corridor.FRAME_16, corridor.FRAME_32):
            for content in [b"\xff" * 5, *drawn(method + 10, 30, 6)]:
                for bits in range(1, 8 * len(content) + 1):
                    sent = bits_of(content)[:bits]
                    written = corridor.write_frame(method, content, bits)
                    self.assertEqual(written, framed(method, sent))
                    read = corridor.read_frame(method, written.bits, written.lent)
                    self.assertEqual(read, FrameContent(bits, bytes_of(sent)))

    def test_refusals(self):
        sent = bits_of(corridor.write_frame(5, b"\xff").lent)[:42]

        def read(bits, method=5, **more):
            return corridor.read_frame(method, len(bits), bytes_of(bits), **more)

        flag = "01111110"
        bits = corridor.LONGEST_CONTENT_16 + 1
        long = framed(5, "0" * bits)
        refusals(
            self,
            [
                (read(sent, method=4), 1),
                (corridor.read_frame(5, 49, bytes(6)), 31),
                (read(sent[1:]), 32),
                (read(sent[:13] + "1" + sent[14:]), 33, 13),
                (read(flag + "0" * 16 + flag), 35),
                (corridor.read_frame(5, *vars(long).values()), 36),
                (read(flag + "0" * 24 + flag), 37),
                (read(flag + "0" * 25 + flag), 37),
                (read(sent, room=0), 38, 1),
                (corridor.write_frame(4, b"\xff"), 1),
                (corridor.write_frame(5, b"\xff", 9), 66),
                (corridor.write_frame(5, b"\xff", 2**64 - 1), 66),
                (corridor.write_frame(5, b""), 21),
                (corridor.write_frame(5, b"\xff", 0), 21),
                (corridor.write_frame(5, bytes(4097), bits), 22),
                (corridor.write_frame(5, b"\xff", room=5), 23, 6),
            ],
        )


class Numbers(unittest.TestCase):
    def test_every_small_case(self):
        for n in (1, 2, 3):
            for w in range(1, 2**n):
                for c in range(2**n):
                    for b in range(2**n):
                        behind = (c - b) % 2**n
                        told = corridor.NEW, (c + 1) % 2**n
                        if behind:
                            told = (corridor.REPEAT if behind <= w else corridor.LOST), c
                        self.assertEqual(corridor.receive(n, w, c, b), Judged(*told))

    def test_refusals(self):
        refusals(
            self,
            [
                (corridor.receive(8, 2, 2, 2), 41),
                (corridor.receive(3, 8, 2, 2), 51),
                (corridor.receive(3, 2, 8, 2), 42),
                (corridor.receive(3, 2, 2, 8), 43),
            ],
        )

    def test_what_does_not_fit(self):
        for value in (-1, 256):
            with self.assertRaises(ValueError):
                corridor.receive(3, 2, value, 0)


class Sender(unittest.TestCase):
    def test_a_history(self):
        """Beside a queue of the numbers that are kept."""
        source, n, w = random.Random(4), 3, 5
        station, store = corridor.Station(), corridor.Store(w)
        queue, following = [], 0
        for block in drawn(5, 400, 50):
            if source.random() < 0.6:
                answer = corridor.submit(n, w, station, store, block)
                if len(queue) == w:
                    self.assertEqual(answer, Refused(55))
                    continue
                self.assertEqual(answer, Submitted(following))
                cell = (station.cell + w - 1) % w * corridor.CELL
                self.assertEqual(bytes(store)[cell:][: len(block)], block)
                queue.append(following)
                following = (following + 1) % 2**n
            else:
                named = source.randrange(2**n)
                answer = corridor.acknowledge(n, w, station, store, named)
                if named not in queue:
                    self.assertEqual(answer, Refused(56))
                    continue
                freed = queue.index(named) + 1
                self.assertEqual(answer, Freed(freed))
                del queue[:freed]
            self.assertEqual((station.next, station.stored), (following, len(queue)))

    def test_refusals(self):
        def submit(n, w, block=b"", cells=2):
            return corridor.submit(n, w, corridor.Station(), corridor.Store(cells), block)

        def acknowledge(n, w, cells=2):
            station, store = corridor.Station(), corridor.Store(cells)
            return corridor.acknowledge(n, w, station, store, 0)

        needed = 3 * corridor.CELL
        refusals(
            self,
            [
                (submit(0, 2), 41),
                (submit(1, 2), 51),
                (submit(3, 3), 6, needed),
                (submit(3, 2, bytes(corridor.LONGEST_STORED + 1)), 57),
                (acknowledge(8, 2), 41),
                (acknowledge(3, 0), 51),
                (acknowledge(3, 3), 6, needed),
                (acknowledge(3, 2), 56),
            ],
        )


class Orders(unittest.TestCase):
    def test_a_history(self):
        """Both stations of a link: lines of stored blocks come in any order,
        some damaged, and each new one is taken as it was submitted. Beside it
        a queue of the blocks that are kept, each with its method."""
        source, n, w = random.Random(8), 3, 4
        station, store, receiver = corridor.Station(), corridor.Store(w), corridor.Receiver(n, w)
        kept, following, awaited = [], 0, 0
        method, older, waits_for, met_there = 4, 0, None, collections.Counter()

        def not_received(number):
            return (number - awaited) % 2**n < (following - awaited) % 2**n

        for block in drawn(9, 3000, 40):
            step = source.random()
            if step < 0.3 and len(kept) < w:
                answer = corridor.submit(n, w, station, store, block)
                self.assertEqual(answer, Submitted(following))
                kept.append((following, block, method))
                following = (following + 1) % 2**n
            elif step < 0.4:
                asked = source.choice((3, 4))
                answer = corridor.order(n, w, station, asked)
                self.assertEqual(answer, Refused(67) if older else Ordered(following))
                if older:
                    continue
                told = corridor.tell_order(receiver, following, asked)
                self.assertEqual(told, Noted())
                method, older = asked, len(kept)
                waits_for = following if following != awaited else None
                met_there["order"] += 1
            elif step < 0.9 and kept:
                number, block, of = source.choice(kept)
                line = clear_line(of, block)
                self.assertEqual(corridor.send(n, w, station, store, number), Written(line))
                damaged = source.random() < 0.2
                if damaged:
                    line = line[:-1] + bytes([line[-1] ^ 1 << source.randrange(8)])
                told = corridor.tell_block(receiver, number, line)
                if number != awaited:
                    due = corridor.LOST if not_received(number) else corridor.REPEAT
                    self.assertEqual(told, Told(due))
                elif damaged:
                    self.assertEqual(told, Refused(18))
                else:
                    taken = Taken(4, corridor.ETX, b"", block, len(block) + 1)
                    self.assertEqual(told, Told(corridor.NEW, taken))
                    awaited = (awaited + 1) % 2**n
                    waits_for = None if waits_for == awaited else waits_for
                    met_there[of] += 1
            elif kept and not not_received(kept[0][0]):
                freed = corridor.acknowledge(n, w, station, store, kept[0][0])
                self.assertEqual(freed, Freed(1))
                del kept[0]
                older = max(older - 1, 0)
            self.assertEqual((station.older, station.stored), (older, len(kept)))
            self.assertEqual((receiver.c, receiver.waiting != 0), (awaited, waits_for is not None))
        self.assertTrue(min(met_there[what] for what in (3, 4, "order")) > 30, met_there)

    def test_ordering_refuses(self):
        station, store = corridor.Station(), corridor.Store(2)
        corridor.submit(3, 2, station, store, b"7B")
        self.assertEqual(corridor.order(3, 2, station, 3), Ordered(1))
        refusals(
            self,
            [
                (corridor.order(3, 2, station, 2), 1),
                (corridor.order(8, 2, station, 3), 41),
                (corridor.order(3, 0, station, 3), 51),
                (corridor.order(3, 2, corridor.Station(older=1), 3), 51),
                (corridor.order(3, 2, station, 4), 67),
            ],
        )

    def test_sending_refuses(self):
        station, store = corridor.Station(), corridor.Store(2)
        corridor.submit(3, 2, station, store, b"7B")
        refusals(
            self,
            [
                (corridor.send(0, 2, station, store, 0), 41),
                (corridor.send(1, 2, station, store, 0), 51),
                (corridor.send(3, 2, station, corridor.Store(1), 0), 6, 2 * corridor.CELL),
                (corridor.send(3, 2, station, store, 1), 56),
                (corridor.send(3, 2, station, store, 0, room=7), 6, 8),
            ],
        )

    def test_telling_an_order_refuses(self):
        waits = corridor.Receiver(3, 2, 0, 0, corridor.CYCLIC, 1)
        refusals(
            self,
            [
                (corridor.tell_order(corridor.Receiver(3, 2), 1, 5), 1),
                (corridor.tell_order(corridor.Receiver(0, 2), 1, 3), 41),
                (corridor.tell_order(corridor.Receiver(3, 8), 1, 3), 51),
                (corridor.tell_order(corridor.Receiver(3, 2, 8), 1, 3), 42),
                (corridor.tell_order(corridor.Receiver(3, 2), 8, 3), 43),
                (corridor.tell_order(waits, 2, 3), 67),
            ],
        )

    def test_telling_a_block_refuses(self):
        def tell(line, *receiver, number=0, **more):
            receiver = corridor.Receiver(*(receiver or (3, 2)))
            return corridor.tell_block(receiver, number, line, **more)

        line = clear_line(4, b"7B")
        overlong = b"\x02" + b"A" * corridor.LONGEST_COUNT + b"\x03\x00\x00"
        refusals(
            self,
            [
                (tell(line, 8, 2), 41),
                (tell(line, 3, 0), 51),
                (tell(line, 3, 2, 8), 42),
                (tell(line, number=8), 43),
                (tell(bytes(corridor.LONGEST_LINE + 1)), 11),
                (tell(b"7B"), 13),
                (tell(b"\x10\x02\x10\x02"), 14, 2),
                (tell(line[:4]), 15),
                (tell(line[:-1]), 52, 6),
                (tell(line + b"\x00"), 53, 6),
                (tell(overlong), 17),
                (tell(clear_line(3, b"7B")), 18),
                (tell(line, room=1), 19, 2),
            ],
        )


class Interleaving(unittest.TestCase):
    def test_there_and_back(self):
        for d in range(1, 12):
            for text in drawn(d, 20, 70):
                line = b"".join(text[column::d] for column in range(d))
                self.assertEqual(corridor.interleave(d, text), Written(line))
                self.assertEqual(corridor.deinterleave(d, line), Content(text))

    def test_refusals(self):
        for call in (corridor.interleave, corridor.deinterleave):
            refusals(self, [(call(0, b"A"), 59), (call(1, b"A", room=0), 60)])


class Replays(unittest.TestCase):
    def test_against_the_calls(self):
        """A trace ends where the calls that it records do."""
        source, n, w = random.Random(6), 3, 3
        station, store, c, trace = corridor.Station(), corridor.Store(w), 0, b""
        for _ in range(300):
            event, number = source.randrange(1, 4), source.randrange(2**n)
            length, notes = source.randrange(60), source.getrandbits(96).to_bytes(12, "big")
            trace += corridor.record(event, number, length, notes)
            if event == 1:
                corridor.submit(n, w, station, store, bytes(length))
            elif event == 2:
                corridor.acknowledge(n, w, station, store, number)
            else:
                c = corridor.receive(n, w, c, number).awaited
        end = corridor.Replayed(station, c, bytes(store))
        self.assertEqual(corridor.replay_panel(n, w, trace), end)
        end = corridor.Replayed(station, c, bytes(store), notes)
        self.assertEqual(corridor.replay_service(n, w, trace), end)

    def test_refusals(self):
        unknown = corridor.record(3) + corridor.record(4)
        for call in (corridor.replay_panel, corridor.replay_service):
            refusals(
                self,
                [
                    (call(8, 2, b""), 41),
                    (call(3, 0, b""), 51),
                    (call(3, 3, b"", corridor.Store(2)), 6, 3 * corridor.CELL),
                    (call(3, 2, bytes(15)), 61),
                    (call(3, 2, unknown), 62, 1),
                ],
            )


class FixedBlocks(unittest.TestCase):
    def test_there_and_back(self):
        for degree, polynomial in FIXED.items():
            for content in drawn(degree, 60, 12):
                content += b"1"
                check = bytes_of(divided(polynomial, False, True, bits_of(content)))
                written = corridor.write_fixed(degree, content)
                self.assertEqual(written, Written(content + check))
                self.assertEqual(corridor.read_fixed(degree, written.line), Content(content))

    def test_refusals(self):
        refusals(
            self,
            [
                (corridor.write_fixed(9, b"1"), 1),
                (corridor.write_fixed(8, b""), 64),
                (corridor.write_fixed(16, bytes(15)), 65),
                (corridor.write_fixed(24, b"1", room=3), 6, 4),
                (corridor.read_fixed(9, b"1\x4a"), 1),
                (corridor.read_fixed(8, b"1"), 64),
                (corridor.read_fixed(8, bytes(17)), 65),
                (corridor.read_fixed(8, b"0\x4a"), 18),
                (corridor.read_fixed(8, b"1\x4a", room=0), 19, 1),
            ],
        )


class Checks(unittest.TestCase):
    def test_published_values(self):
        values = {3: 0x906E, 4: 0xBB3D, 5: 0x906E, 6: 0xCBF43926}
        for method, value in values.items():
            self.assertEqual(corridor.check(method, DIGITS), value)

    def test_by_division(self):
        for method in CHECKS:
            for content in drawn(method, 60, 90):
                self.assertEqual(corridor.check(method, content), checked(method, content))

    def test_beside_zlib(self):
        for content in drawn(7, 100, 3000):
            self.assertEqual(corridor.check(6, content), zlib.crc32(content))

    def test_joined(self):
        for method in CHECKS:
            for content in drawn(method, 40, 90):
                for cut in {0, len(content) // 3, len(content)}:
                    first, second = content[:cut], content[cut:]
                    parts = []
                    for part in (first, second):
                        parts += [corridor.check(method, part), len(part)]
                    whole = Joined(corridor.check(method, content))
                    self.assertEqual(corridor.join(method, *parts), whole)
            limit = 65536 if method == 6 else 4096
            self.assertEqual(corridor.join(method, 0, limit, 0, 0), Joined(0))
            refusals(self, [(corridor.join(method, 0, limit, 0, 1), 63)])


# --- what is typed


class Commands(unittest.TestCase):
    def typed(self, line, given="", status=0):
        """What `python3 -m corridor LINE` prints."""
        out = io.StringIO()
        with redirect_stdout(out), redirect_stderr(out):
            with mock.patch.object(sys, "stdin", io.StringIO(given)):
                self.assertEqual(corridor_commands.main(line.split()), status, line)
        return out.getvalue().strip("\n")

    def test_make_damage_read(self):
        line = self.typed("write 2e 41")
        self.assertEqual(line, "82 41 03 42")
        self.assertEqual(self.typed("read 2e", line), "taken 2 03 0 1 2\ntext 41  A")
        line = self.typed("damage 3.0", line)
        self.assertEqual(line, "82 41 03 43")
        said = self.typed("read 2e " + line, status=1)
        question = corridor.questions()["read_block"][12]
        self.assertEqual(said, "refused 12 3\nasked: %s\n3: %s" % question)

    def test_frames(self):
        line = self.typed("frame 5 FF")
        self.assertEqual(line, "42: 7E DF 01 BE FB 01")
        self.assertEqual(self.typed("read-frame 5", line), "content FF")
        damaged = self.typed("damage 1.5", line)
        self.assertIn("refused 33 13", self.typed("read-frame 5", damaged, 1))

    def test_the_others(self):
        said = {
            "write 3e --clear --header-text 7B 10 41 --end 17": None,
            "number 3 2 2 2": "new, then 3 is awaited",
            "number 3 2 2 0": "repeat, then 2 is awaited",
            "check 6 --text 123456789": "CBF43926",
            "join 3 906E 9 0 0": "906E",
            "interleave 3 --text AB1CD2EF": "41 43 45 42 44 46 31 32",
            "deinterleave 3 41 43 45 42 44 46 31 32": "text 41 42 31 43 44 32 45 46  AB1CD2EF",
            "fixed 8 31": "31 4A",
            "read-fixed 8 31 4A": "content 31  1",
            "send 3 1 submit:37 submit:38 acknowledge:0": "submit:37: number 0\n"
            "submit:38: refused 55 0\nacknowledge:0: 1 freed",
            "refusal 37": "read_frame: is the check equal? Value: 0",
        }
        for line, printed in said.items():
            self.assertEqual(self.typed(line), printed or self.typed(line))
        clear = self.typed("write 3e --clear --header-text 7B 10 41 --end 17")
        self.assertTrue(clear.startswith("01 37 42 10 02 10 10 41 10 17 "), clear)
        replayed = self.typed("replay 3 2 submitted:5 acknowledged:0 received:0")
        self.assertTrue(replayed.startswith("1 is awaited, Station(next=1, stored=0"), replayed)

    def test_frames_inside_a_byte(self):
        due = framed(5, "1111111")
        line = "%d: %s" % (due.bits, due.lent.hex(" ").upper())
        self.assertEqual(self.typed("frame 5 7: FF"), line)
        line = self.typed("frame 6 9: 41 FF")
        self.assertEqual(self.typed("read-frame 6", line), "content 9: 41 01")
        self.assertEqual(self.typed("frame 6", "9: 41 01"), line)
        self.assertIn("refused 66 0", self.typed("frame 6 9: 41", status=1))

    def test_both_stations(self):
        said = self.typed("send 3 2 submit:37 order:3 submit:38 order:4 line:0 line:1 line:2")
        lines = [clear_line(*of).hex(" ").upper() for of in ((4, b"7"), (3, b"8"))]
        self.assertEqual(
            said.splitlines(),
            [
                "submit:37: number 0",
                "order:3: from number 1 on",
                "submit:38: number 1",
                "order:4: refused 67 0",
                "line:0: " + lines[0],
                "line:1: " + lines[1],
                "line:2: refused 56 0",
            ],
        )
        steps = "order:1:3\n%s\n%s\n%s" % tuple(said.splitlines()[place] for place in (5, 4, 5))
        self.assertEqual(
            self.typed("tell 3 2", steps).splitlines(),
            [
                "order:1:3: noted",
                "line:1: lost, then 0 is awaited",
                "line:0: new, then 1 is awaited",
                "text 37  7",
                "line:1: new, then 2 is awaited",
                "text 38  8",
            ],
        )
        damaged = self.typed("damage 2.0", said.splitlines()[4])
        self.assertEqual(self.typed("tell 3 2", damaged), "line:0: refused 18 0")

    def test_what_is_no_command(self):
        for line in ("", "reed 2e", "read 5e 00", "read 2e 8", "damage 9.0 00", "refusal 99"):
            self.typed(line, status=2)
        for line in ("number 3 2 300 0", "tell 3 2 41", "tell 3 2 order:1", "tell 3 2 line:0:1"):
            self.typed(line, status=2)
        self.typed("send 3 2 order:x", status=2)
        self.assertIn("COMMAND", self.typed("--help"))

    def test_as_a_module(self):
        line = [sys.executable, "-m", "corridor", "read", "2e", "82", "41", "03", "42"]
        ran = subprocess.run(line, cwd=HERE, stdout=subprocess.PIPE, check=True)
        self.assertEqual(ran.stdout.decode(), "taken 2 03 0 1 2\ntext 41  A\n")


class Numbering(unittest.TestCase):
    def test_as_above(self):
        tables = corridor.questions()
        self.assertEqual(tables["acknowledge"][41], tables["submit"][41])
        self.assertEqual(tables["tell_block"][52], tables["read_block"][52])
        self.assertEqual(tables["tell_block"][51], tables["tell_order"][51])
        of_store, of_output = tables["submit"][6], tables["write_block"][6]
        both = ("%s Or: %s" % (of_store[0], of_output[0]), of_store[1])
        self.assertEqual(tables["send"][6], both)
        self.assertEqual(tables["join_4"], tables["join_6"])
        self.assertEqual(list(tables["receive"]), [41, 51, 42, 43])

    def test_every_number_has_a_text(self):
        for call, table in corridor.questions().items():
            for question, carries in table.values():
                self.assertTrue(re.search(r"\w.*\?", question) and carries, call)


if __name__ == "__main__":
    unittest.main()
