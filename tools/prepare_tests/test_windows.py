"""Windows are written in bytes where both sides scale them."""
from __future__ import annotations

import unittest

from captures.preparation import prepare
from prepare_tests.samples import ACK, FIN, MSS_1460, RST, SYN, capture_of, opening, scale, sums_are_right, tcp, window_of


def prepared(frames: list[bytes]) -> list[bytes]:
    """The frames that a preparation writes."""
    return [record.frame for record in prepare(capture_of(frames))[0].records]


class Windows(unittest.TestCase):
    def test_both_sides_scale(self) -> None:
        frames = opening(scale(10), scale(7)) + [tcp(5_001, 1_001, from_server=True, window=500), tcp(1_001, 5_001, flags=FIN | ACK, window=64)]
        written = prepared(frames)
        self.assertEqual([window_of(frame) for frame in written], [64_240, 65_160, 63 << 10, 500 << 7, 65_535])
        self.assertTrue(all(map(sums_are_right, written)))

    def test_the_option_is_taken_out(self) -> None:
        written = prepared(opening(scale(10), scale(7)))
        self.assertEqual([frame[54:62] for frame in written[:2]], [MSS_1460 + bytes([1] * 4)] * 2)

    def test_a_shift_of_0_is_scaling(self) -> None:
        written = prepared(opening(scale(0), scale(7)) + [tcp(5_001, 1_001, from_server=True, window=2)])
        self.assertEqual([window_of(frame) for frame in written[2:]], [63, 256])

    def test_a_shift_above_14_counts_as_14(self) -> None:
        written = prepared(opening(scale(15), scale(255)) + [tcp(5_001, 1_001, from_server=True, window=3), tcp(1_001, 5_001, window=1)])
        self.assertEqual([window_of(frame) for frame in written[3:]], [3 << 14, 1 << 14])

    def test_scaling_on_one_side_alone_changes_nothing(self) -> None:
        for options in ((scale(10), MSS_1460), (MSS_1460, scale(10)), (MSS_1460, MSS_1460)):
            frames = opening(*options) + [tcp(5_001, 1_001, from_server=True)]
            self.assertEqual(prepared(frames), frames)

    def test_without_a_syn_windows_stay(self) -> None:
        for frames in (opening(scale(10), scale(10))[1:], opening(scale(10), scale(10))[2:], opening(scale(10), scale(10))[::2]):
            capture, report = prepare(capture_of(frames))
            self.assertEqual([record.frame for record in capture.records], frames)
            self.assertFalse(report.changed())
            self.assertEqual(report.unopened, 1)

    def test_a_port_that_is_used_again(self) -> None:
        first, second = opening(scale(10), scale(10)), opening(MSS_1460, MSS_1460, initial=900_000)
        third = opening(scale(3), scale(3), initial=70)
        self.assertEqual([window_of(frames[2]) for frames in (prepared(first + second + third)[at : at + 3] for at in (0, 3, 6))], [63 << 10, 63, 63 << 3])

    def test_two_connections_at_once(self) -> None:
        scaled, plain = opening(scale(10), scale(10)), opening(port=40_001)
        mixed = [frame for pair in zip(scaled, plain) for frame in pair]
        self.assertEqual([window_of(frame) for frame in prepared(mixed)[4:]], [63 << 10, 63])

    def test_a_repeated_syn_without_the_option_counts(self) -> None:
        syn, syn_ack, ack = opening(scale(10), MSS_1460)
        frames = [syn, tcp(1_000, flags=SYN, window=64_240, options=MSS_1460), syn_ack, ack]
        self.assertEqual(prepared(frames), frames)

    def test_a_segment_with_a_wrong_sum_opens_nothing(self) -> None:
        syn, syn_ack, ack = opening(scale(10), scale(10))
        broken = syn[:50] + b"\x12\x34" + syn[52:]
        capture, report = prepare(capture_of([broken, syn_ack, ack]))
        self.assertEqual([record.frame for record in capture.records], [broken, syn_ack, ack])
        self.assertEqual(report.wrong, [0])

    def test_a_reset_has_its_window(self) -> None:
        self.assertEqual(window_of(prepared(opening(scale(10), scale(10)) + [tcp(1_001, flags=RST, window=0)])[3]), 0)
