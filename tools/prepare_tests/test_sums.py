"""Unfinished checksums are finished; other frames are left as they are, and counted."""
from __future__ import annotations

import struct
import unittest

from captures.packets import Kind
from captures.preparation import prepare
from prepare_tests.samples import CLIENT, SERVER, capture_of, folded, ip_frame, pseudo, sums_are_right, tcp


def with_octets(frame: bytes, at: int, octets: bytes) -> bytes:
    """The frame with other octets at a place."""
    return frame[:at] + octets + frame[at + len(octets) :]


def udp(written: int | None) -> bytes:
    """A datagram to port 7; without a checksum that is written, with the right one."""
    datagram = struct.pack(">HHHH", 4_000, 7, 13, 0) + b"hello"
    right = 0xFFFF ^ folded(pseudo(CLIENT, SERVER, 17, 13) + datagram)
    return ip_frame(datagram[:6] + struct.pack(">H", right if written is None else written) + datagram[8:], 17)


def echo_request(written: int | None) -> bytes:
    """An ICMP echo request."""
    message = struct.pack(">BBHHH", 8, 0, 0, 1, 1) + b"hello"
    right = 0xFFFF ^ folded(message)
    return ip_frame(message[:2] + struct.pack(">H", right if written is None else written) + message[4:], 1)


class Sums(unittest.TestCase):
    def assert_written(self, frame: bytes, written: bytes, finished: dict[str, int]) -> None:
        """A preparation writes `written` for `frame`, and says what it finished."""
        capture, report = prepare(capture_of([frame]))
        self.assertEqual([record.frame for record in capture.records], [written])
        self.assertEqual(report.finished_sums, finished)

    def test_right_sums_stay(self) -> None:
        for frame in (tcp(1, 1, body=b"hello"), udp(None), udp(0), echo_request(None)):
            self.assert_written(frame, frame, {})

    def test_the_sum_of_the_pseudo_header_is_finished(self) -> None:
        for body in (b"", b"h", b"hello!"):
            self.assert_written(tcp(1, 1, body=body, unfinished=True), tcp(1, 1, body=body), {"TCP": 1})
        self.assert_written(udp(folded(pseudo(CLIENT, SERVER, 17, 13))), udp(None), {"UDP": 1})

    def test_the_sum_without_a_length_is_finished(self) -> None:
        begun = struct.pack(">H", folded(pseudo(CLIENT, SERVER, 6, 0)))
        self.assert_written(with_octets(tcp(1, 1, body=b"hello"), 50, begun), tcp(1, 1, body=b"hello"), {"TCP": 1})

    def test_a_sum_of_0_is_finished(self) -> None:
        self.assert_written(with_octets(tcp(1, 1), 50, b"\0\0"), tcp(1, 1), {"TCP": 1})
        self.assert_written(echo_request(0), echo_request(None), {"ICMP": 1})
        self.assert_written(with_octets(udp(None), 24, b"\0\0"), udp(None), {"IPv4": 1})

    def test_both_sums_of_a_frame(self) -> None:
        self.assert_written(with_octets(tcp(1, 1, unfinished=True), 24, b"\0\0"), tcp(1, 1), {"IPv4": 1, "TCP": 1})

    def test_other_wrong_sums_are_left(self) -> None:
        for frame, at in ((tcp(1, 1), 50), (udp(None), 40), (echo_request(None), 36), (tcp(1, 1), 24), (tcp(1, 1, unfinished=True), 24)):
            wrong = with_octets(frame, at, struct.pack(">H", (struct.unpack_from(">H", frame, at)[0] + 1) % 2**16))
            capture, report = prepare(capture_of([wrong]))
            self.assertEqual([record.frame for record in capture.records], [wrong])
            self.assertEqual((report.wrong, report.finished), ([0], []))

    def test_what_stands_behind_the_packet_stays(self) -> None:
        self.assert_written(tcp(1, 1, unfinished=True) + bytes(6), tcp(1, 1) + bytes(6), {"TCP": 1})

    def test_a_udp_sum_of_0_is_written_as_ones(self) -> None:
        datagram = struct.pack(">HHHH", 4_000, 7, 10, 0)
        rest = 0xFFFF ^ folded(pseudo(CLIENT, SERVER, 17, 10) + datagram)
        datagram += struct.pack(">H", rest)
        begun = struct.pack(">H", folded(pseudo(CLIENT, SERVER, 17, 10)))
        self.assert_written(ip_frame(datagram[:6] + begun + datagram[8:], 17), ip_frame(datagram[:6] + b"\xff\xff" + datagram[8:], 17), {"UDP": 1})

    def test_a_right_frame_of_any_length_stays(self) -> None:
        for length in range(0, 200):
            frame = tcp(1, 1, body=bytes(range(200))[:length])
            self.assertTrue(sums_are_right(frame))
            self.assert_written(frame, frame, {})


class LeftAsTheyAre(unittest.TestCase):
    def test_other_frames(self) -> None:
        unfinished = tcp(1, 1, unfinished=True)
        frames = {
            Kind.VLAN: unfinished[:12] + b"\x81\x00\x00\x05" + unfinished[12:],
            Kind.IPV6: unfinished[:12] + b"\x86\xdd\x60" + bytes(50),
            Kind.FRAGMENT: ip_frame(unfinished[34:], 6, fragment=0x2000),
            Kind.CUT: unfinished[:-1],
        }
        for kind, frame in frames.items():
            capture, report = prepare(capture_of([frame]))
            self.assertEqual([record.frame for record in capture.records], [frame])
            self.assertEqual((report.kinds[kind], report.changed()), (1, set()))
        last = prepare(capture_of([ip_frame(unfinished[34:], 6, fragment=0x0001)]))[1]
        self.assertEqual(last.kinds[Kind.FRAGMENT], 1)

    def test_every_front_of_a_frame(self) -> None:
        frame = tcp(1, 1, body=b"hello")
        for length in range(len(frame)):
            capture, report = prepare(capture_of([frame[:length]]))
            self.assertEqual([record.frame for record in capture.records], [frame[:length]])
            self.assertEqual(report.changed(), set())
