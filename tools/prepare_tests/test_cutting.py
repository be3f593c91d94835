"""Joined frames are cut into segments."""
from __future__ import annotations

import unittest

from captures.preparation import prepare
from prepare_tests.samples import (
    ACK, CWR, FIN, PSH, SYN, TIMESTAMPS, URG, body_of, capture_of, flags_of, opening, sequence_of, sums_are_right, tcp,
)  # fmt: skip


def some(length: int) -> bytes:
    """So many octets, no two runs alike."""
    return bytes(at * 7 % 251 for at in range(length))


def pieces(frame: bytes, before: list[bytes] | None = None) -> list[bytes]:
    """What is written for the last of some frames."""
    before = opening() if before is None else before
    written = [record.frame for record in prepare(capture_of(before + [frame]))[0].records]
    return written[len(before) :]


class Cutting(unittest.TestCase):
    def assert_joins(self, cut: list[bytes], sequence: int, body: bytes) -> None:
        """The pieces are the segments of `body` from `sequence` on, with right lengths and sums."""
        self.assertEqual(b"".join(map(body_of, cut)), body)
        for piece in cut:
            self.assertEqual(sequence_of(piece), sequence % 2**32)
            self.assertLessEqual(len(piece), 1_514)
            self.assertEqual(len(piece), 14 + int.from_bytes(piece[16:18], "big"))
            self.assertTrue(sums_are_right(piece))
            sequence += len(body_of(piece))

    def test_every_odd_length(self) -> None:
        for length in range(1_449, 3 * 1_448 + 4, 2):
            cut = pieces(tcp(1_001, 5_001, PSH | ACK, options=TIMESTAMPS, body=some(length), unfinished=True))
            self.assertEqual([len(body_of(piece)) for piece in cut[:-1]], [1_448] * ((length - 1) // 1_448))
            self.assert_joins(cut, 1_001, some(length))

    def test_what_fits_a_frame_stays(self) -> None:
        for options, length in ((b"", 1_460), (TIMESTAMPS, 1_448)):
            whole = tcp(1_001, 5_001, options=options, body=some(length))
            self.assertEqual(len(whole), 1_514)
            self.assertEqual(pieces(whole), [whole])

    def test_the_greatest_packet(self) -> None:
        body = some(65_495)
        self.assert_joins(pieces(tcp(1_001, 5_001, body=body)), 1_001, body)

    def test_flags_of_the_pieces(self) -> None:
        cut = pieces(tcp(1_001, 5_001, FIN | PSH | ACK | CWR, body=some(4_000)))
        self.assertEqual([flags_of(piece) for piece in cut], [ACK | CWR, ACK, FIN | PSH | ACK])

    def test_the_urgent_pointer_counts_from_each_piece(self) -> None:
        cut = pieces(tcp(1_001, 5_001, ACK | URG, body=some(4_000), urgent=2_000))
        self.assertEqual([(flags_of(piece), int.from_bytes(piece[52:54], "big")) for piece in cut], [(ACK | URG, 2_000), (ACK | URG, 540), (ACK, 0)])

    def test_numbers_wrap(self) -> None:
        for initial in (2**32 - 1, 2**32 - 2, 2**32 - 1_461, 2**32 - 2_000):
            body = some(4_001)
            self.assert_joins(pieces(tcp(initial + 1, 5_001, body=body), opening(initial=initial)), initial + 1, body)

    def test_each_piece_has_an_identification(self) -> None:
        cut = pieces(tcp(1_001, 5_001, body=some(4_000)))
        self.assertEqual([int.from_bytes(piece[18:20], "big") for piece in cut], [7, 8, 9])

    def test_the_mss_is_that_of_the_receiver(self) -> None:
        for client, server, length in ((536, 1_460, 1_460), (1_460, 536, 536), (1_460, 9_000, 1_460), (9_000, 64, 64)):
            before = opening(b"\x02\x04" + client.to_bytes(2, "big"), b"\x02\x04" + server.to_bytes(2, "big"))
            self.assertEqual(len(body_of(pieces(tcp(1_001, 5_001, body=some(5_000)), before)[0])), length)

    def test_without_an_option_the_mss_is_536(self) -> None:
        self.assertEqual(len(body_of(pieces(tcp(5_001, 1_001, body=some(5_000), from_server=True), opening(client=b""))[0])), 536)

    def test_without_a_syn_the_frame_alone_limits(self) -> None:
        self.assertEqual(len(body_of(pieces(tcp(1_001, 5_001, options=TIMESTAMPS, body=some(5_000)), [])[0])), 1_448)

    def test_a_length_of_0_is_that_of_the_frame(self) -> None:
        joined = tcp(1_001, 5_001, body=some(4_000), unfinished=True)
        joined = joined[:16] + b"\0\0" + joined[18:24] + b"\0\0" + joined[26:]
        self.assert_joins(pieces(joined), 1_001, some(4_000))

    def test_a_packet_longer_than_its_length_can_say(self) -> None:
        joined = tcp(1_001, 5_001, body=some(65_000))
        longer = joined[:16] + b"\0\0" + joined[18:50] + b"\0\0" + joined[52:] + some(100_000)
        cut = pieces(longer[:24] + b"\0\0" + longer[26:])
        self.assert_joins(cut, 1_001, some(65_000) + some(100_000))

    def test_data_on_a_syn(self) -> None:
        syn, syn_ack, _ = opening(client=b"")
        cut = [record.frame for record in prepare(capture_of([tcp(1_000, flags=SYN, body=some(2_000)), syn_ack]))[0].records]
        self.assertEqual([(sequence_of(piece), flags_of(piece)) for piece in cut[:2]], [(1_000, SYN), (2_461, 0)])

    def test_pieces_have_the_time_of_their_frame(self) -> None:
        capture = capture_of(opening() + [tcp(1_001, 5_001, body=some(4_000)), tcp(5_001, 5_001, from_server=True)])
        times = [(record.seconds, record.fraction) for record in prepare(capture)[0].records]
        self.assertEqual(times, [(1, 0), (1, 1_000), (1, 2_000), (1, 3_000), (1, 3_000), (1, 3_000), (1, 4_000)])
