"""Capture files of each kind are read; faults are told with their place."""
from __future__ import annotations

import struct
import unittest

from captures.capture import MICROSECONDS, NANOSECONDS, Capture, Fault, Head, Record
from captures.files import read_capture
from captures.pcap import capture_bytes
from prepare_tests.samples import capture_of, opening

RECORDS = [Record(1, 7, 123_456, b"hello", 0), Record(1, 8, 999_999, b"", 3)]


def fault_of(data: bytes) -> str:
    """The fault that is told of a file."""
    try:
        read_capture(data)
    except Fault as fault:
        return str(fault)
    return ""


class Pcap(unittest.TestCase):
    def test_both_orders_and_resolutions(self) -> None:
        for order in "<>":
            for magic in (MICROSECONDS, NANOSECONDS):
                data = struct.pack(order + "IHHIIII", magic, 2, 4, 5, 6, 96, 1)
                for record in RECORDS:
                    length = len(record.frame)
                    data += struct.pack(order + "IIII", record.seconds, record.fraction, length, length + record.missing) + record.frame
                capture = read_capture(data)
                self.assertEqual(capture, Capture(Head(order, magic, 5, 6, 96, 1, 0), RECORDS))
                self.assertEqual(capture_bytes(capture), data)

    def test_flags_above_the_link_type(self) -> None:
        for order in "<>":
            head = read_capture(struct.pack(order + "IHHIIII", MICROSECONDS, 2, 4, 0, 0, 96, 0x14000001)).head
            self.assertEqual((head.link, head.flags), (1, 0x1400))
            self.assertEqual(capture_bytes(Capture(head, []))[20:], struct.pack(order + "I", 0x14000001))

    def test_every_cut(self) -> None:
        data = capture_bytes(capture_of(opening()))
        ends = {24}
        for record in capture_of(opening()).records:
            ends.add(max(ends) + 16 + len(record.frame))
        for length in range(len(data) + 1):
            fault = fault_of(data[:length])
            self.assertEqual(fault == "", length in ends, length)
            if fault:
                self.assertTrue(fault.startswith(f"byte {max((end for end in ends if end < length), default=0)}: "), fault)

    def test_other_faults(self) -> None:
        self.assertEqual(fault_of(b"\x0b\x0d\x0d\x0a" + bytes(20)), "byte 0: 0b0d0d0a begins neither pcap nor pcapng")
        self.assertEqual(fault_of(struct.pack("<IHHIIII", MICROSECONDS, 2, 3, 0, 0, 96, 1)), "byte 4: version 2.3 is not 2.4")


def block(order: str, kind: int, body: bytes) -> bytes:
    """A block of pcapng."""
    body += bytes(-len(body) % 4)
    length = struct.pack(order + "I", 12 + len(body))
    return struct.pack(order + "I", kind) + length + body + length


def section(order: str) -> bytes:
    """A section's header."""
    return block(order, 0x0A0D0D0A, struct.pack(order + "IHHq", 0x1A2B3C4D, 1, 0, -1))


def interface(order: str, link: int = 1, snap: int = 0, options: bytes = b"") -> bytes:
    """An interface's description."""
    return block(order, 1, struct.pack(order + "HHI", link, 0, snap) + options)


def option(order: str, code: int, value: bytes) -> bytes:
    """An option of a block."""
    return struct.pack(order + "HH", code, len(value)) + value + bytes(-len(value) % 4)


def packet(order: str, ticks: int, frame: bytes, number: int = 0, missing: int = 0) -> bytes:
    """An enhanced packet."""
    return block(order, 6, struct.pack(order + "IIIII", number, ticks >> 32, ticks & 0xFFFFFFFF, len(frame), len(frame) + missing) + frame)


class Pcapng(unittest.TestCase):
    def test_both_orders(self) -> None:
        for order in "<>":
            capture = read_capture(section(order) + interface(order) + packet(order, 7_000_001, b"hello", missing=2))
            self.assertEqual(capture.records, [Record(1, 7, 1, b"hello", 2)])
            self.assertEqual((capture.head.order, capture.head.magic), ("<", MICROSECONDS))

    def test_resolutions(self) -> None:
        for resolution, ticks, time, magic in (
            (9, 7_000_000_001, (7, 1), NANOSECONDS),
            (9, 7_000_001_000, (7, 1), MICROSECONDS),
            (3, 7_001, (7, 1_000), MICROSECONDS),
            (0x80 | 10, 7 << 10 | 512, (7, 500_000), MICROSECONDS),
            (12, 7_000_000_002_500, (7, 2), NANOSECONDS),
        ):
            options = option("<", 9, bytes([resolution])) + option("<", 0, b"")
            capture = read_capture(section("<") + interface("<", options=options) + packet("<", ticks, b"hello"))
            self.assertEqual((capture.records[0].seconds, capture.records[0].fraction, capture.head.magic), (*time, magic))

    def test_an_offset_of_times(self) -> None:
        options = option("<", 2, b"ix0") + option("<", 14, struct.pack("<q", -5))
        capture = read_capture(section("<") + interface("<", options=options) + packet("<", 7_000_000, b"hello"))
        self.assertEqual(capture.records[0].seconds, 2)

    def test_each_packet_has_the_link_of_its_interface(self) -> None:
        data = section("<") + interface("<", 1) + interface("<", 101) + packet("<", 1, b"one", 1) + packet("<", 2, b"two", 0)
        data += section(">") + interface(">", 113) + packet(">", 3, b"three")
        self.assertEqual([record.link for record in read_capture(data).records], [101, 1, 113])

    def test_other_packets_and_blocks(self) -> None:
        simple = block("<", 3, struct.pack("<I", 9) + b"hello")
        old = block("<", 2, struct.pack("<HHIIII", 0, 0, 0, 4_000_000, 5, 5) + b"hello")
        data = section("<") + interface("<", snap=5) + block("<", 5, b"counts") + old + simple
        self.assertEqual(read_capture(data).records, [Record(1, 4, 0, b"hello", 0), Record(1, 4, 0, b"hello", 4)])

    def test_every_cut(self) -> None:
        blocks = [section("<"), interface("<"), packet("<", 1, b"hello"), packet("<", 2, b"")]
        data = b"".join(blocks)
        ends = [sum(map(len, blocks[:count])) for count in range(1, len(blocks) + 1)]
        for length in range(len(data) + 1):
            fault = fault_of(data[:length])
            self.assertEqual(fault == "", length in ends, length)
            if length >= 4 and fault:
                self.assertTrue(fault.startswith(f"byte {max([0] + [end for end in ends if end < length])}: ") or length < 12, fault)

    def test_other_faults(self) -> None:
        front = section("<") + interface("<")
        at = f"byte {len(front)}: "
        self.assertEqual(fault_of(section("<") + packet("<", 1, b"")), "byte 28: a packet of interface 0, which no block before it describes")
        self.assertEqual(fault_of(front + block("<", 6, bytes(8))), at + "a block of type 6 with a body of 8 bytes is too short")
        self.assertEqual(fault_of(front + block("<", 6, struct.pack("<IIIII", 0, 0, 0, 9, 9))), at + "a packet of 9 bytes does not fit its block")
        self.assertEqual(fault_of(front + block("<", 3, b"")), at + "a block of type 3 with a body of 0 bytes is too short")
        self.assertEqual(fault_of(front + packet("<", 1, b"")[:-4] + bytes(4)), at + "the two lengths of a block differ")
        self.assertEqual(fault_of(front + struct.pack("<III", 6, 14, 0)), at + "no block has 14 bytes")
        self.assertEqual(fault_of(front + packet("<", 2**63, b"")), at + f"a time of {2**63 // 10**6} seconds does not fit a pcap file")
        self.assertEqual(fault_of(section("<").replace(b"\x4d\x3c\x2b\x1a", bytes(4))), "byte 8: 00000000 is no order of bytes of a section")
