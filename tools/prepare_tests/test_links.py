"""Each link type becomes Ethernet."""
from __future__ import annotations

import struct
import unittest

from captures.capture import Fault
from captures.connections import colons
from captures.preparation import prepare
from prepare_tests.samples import HARDWARE, SERVER, capture_of, octets, opening, scale, window_of

CLIENT_HARDWARE, SERVER_HARDWARE = bytes.fromhex("02000a000002"), bytes.fromhex("02000a000001")


def cooked_1(kind: int, packet: bytes) -> bytes:
    """A packet with the header of Linux cooked capture, version 1."""
    return struct.pack(">HHH8sH", 0, 1, 6, HARDWARE[SERVER], kind) + packet


def cooked_2(kind: int, packet: bytes) -> bytes:
    """A packet with the header of Linux cooked capture, version 2."""
    return struct.pack(">HHIHBB8s", kind, 0, 3, 1, 0, 6, HARDWARE[SERVER]) + packet


def bare(_: int, packet: bytes) -> bytes:
    """A packet without a header of a link."""
    return packet


WRAPPED = {113: cooked_1, 276: cooked_2, 101: bare, 228: bare, 12: bare}


class Links(unittest.TestCase):
    def test_each_gets_an_ethernet_header(self) -> None:
        frames = opening()
        for link, wrap in WRAPPED.items():
            capture, report = prepare(capture_of([wrap(0x0800, frame[14:]) for frame in frames], link))
            self.assertEqual([record.frame[14:] for record in capture.records], [frame[14:] for frame in frames])
            self.assertEqual(capture.records[0].frame[:14], SERVER_HARDWARE + CLIENT_HARDWARE + b"\x08\x00")
            self.assertEqual(capture.records[1].frame[:14], CLIENT_HARDWARE + SERVER_HARDWARE + b"\x08\x00")
            self.assertEqual(capture.head.link, 1)
            self.assertEqual({address: colons(hardware) for address, hardware in report.hosts.items()},
                             {octets("10.0.0.1"): "02:00:0a:00:00:01", octets("10.0.0.2"): "02:00:0a:00:00:02"})  # fmt: skip

    def test_all_else_is_prepared_too(self) -> None:
        frames = opening(scale(10), scale(10))
        for link, wrap in WRAPPED.items():
            capture, _ = prepare(capture_of([wrap(0x0800, frame[14:]) for frame in frames], link))
            self.assertEqual(window_of(capture.records[2].frame), 63 << 10)

    def test_lengths_on_the_wire(self) -> None:
        capture = capture_of([cooked_2(0x0800, opening()[0][14:])], 276)
        self.assertEqual(prepare(capture)[0].records[0].missing, 0)

    def test_other_packets(self) -> None:
        arp = struct.pack(">HHBBH", 1, 0x0800, 6, 4, 1) + HARDWARE[SERVER] + octets(SERVER) + bytes(10)
        for link, frame, header in (
            (113, cooked_1(0x0806, arp), b"\xff" * 6 + SERVER_HARDWARE + b"\x08\x06"),
            (276, cooked_2(0x86DD, b"\x60" + bytes(39)), bytes.fromhex("020000000000020000000000") + b"\x86\xdd"),
            (101, b"\x60" + bytes(39), bytes.fromhex("020000000000020000000000") + b"\x86\xdd"),
            (101, b"", bytes.fromhex("020000000000020000000000") + b"\x08\x00"),
        ):
            self.assertEqual(prepare(capture_of([frame], link))[0].records[0].frame[:14], header)

    def test_one_hardware_address_on_both_sides(self) -> None:
        frames = [bytes(12) + frame[12:] for frame in opening()]
        capture, report = prepare(capture_of(frames))
        to_server, to_client = bytes.fromhex("02000a00000102010a000002"), bytes.fromhex("02010a00000202000a000001")
        self.assertEqual([record.frame[:12] for record in capture.records], [to_server, to_client, to_server])
        self.assertEqual([record.frame[12:] for record in capture.records], [frame[12:] for frame in frames])
        self.assertEqual(report.apart, [0, 1, 2])

    def test_faults(self) -> None:
        for link, frame, told in (
            (105, b"", "record 1: link type 105 is none of Ethernet, Linux cooked v1, Linux cooked v2, raw IP, raw IPv4"),
            (113, bytes(15), "record 1: its cooked header has 16 bytes, 15 are there"),
            (276, bytes(19), "record 1: its cooked header has 20 bytes, 19 are there"),
        ):
            capture = capture_of([opening()[0]])
            capture.records.extend(capture_of([frame], link).records)
            with self.assertRaises(Fault) as caught:
                prepare(capture)
            self.assertEqual(str(caught.exception), told)
