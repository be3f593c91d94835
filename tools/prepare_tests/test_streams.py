"""The streams of a capture and of replies are compared."""
from __future__ import annotations

import unittest

from captures.streams import compare
from prepare_tests.samples import ACK, FIN, PSH, SYN, MSS_1460, capture_of, opening, tcp


def sent(place: int, body: bytes, flags: int = PSH | ACK, initial: int = 5_000) -> bytes:
    """A segment of the server, `place` octets into its stream."""
    return tcp(initial + 1 + place, 1_001, flags, body=body, from_server=True)


def replies(*frames: bytes) -> list[bytes]:
    """The server's side of a connection alone."""
    return [opening()[1], *frames]


def told(recorded: list[bytes], replied: list[bytes]) -> list[tuple[bool, str]]:
    """What is said of each connection."""
    return [(each.is_equal, str(each)) for each in compare(capture_of(opening() + recorded), capture_of(replied))]


class Streams(unittest.TestCase):
    def test_other_segments_of_the_same_stream(self) -> None:
        recorded = [sent(0, b"hello"), sent(5, b", world", FIN | ACK)]
        others = replies(sent(5, b", wo"), sent(0, b"hello, w"), sent(9, b"rld"), sent(0, b"hello"), sent(12, b"", FIN | ACK))
        self.assertEqual(told(recorded, others), [(True, "10.0.0.2:40000: 12 of 12 bytes are the same, ended")])

    def test_what_differs(self) -> None:
        recorded = [sent(0, b"hello"), sent(5, b"", FIN | ACK)]
        for others, text in (
            ([sent(0, b"help!"), sent(5, b"", FIN | ACK)], "3 of 5 bytes are the same; 5 in the replies; ended and ended"),
            ([sent(0, b"hello")], "5 of 5 bytes are the same; 5 in the replies; ended and open"),
            ([sent(0, b"hello, world")], "5 of 5 bytes are the same; 12 in the replies; ended and open"),
            ([sent(1, b"ello"), sent(5, b"", FIN | ACK)], "0 of 5 bytes are the same; 0 in the replies; ended and open"),
        ):
            self.assertEqual(told(recorded, replies(*others)), [(False, "10.0.0.2:40000: " + text)])
        self.assertEqual(told(recorded, []), [(False, "10.0.0.2:40000: not in the replies")])

    def test_numbers_wrap(self) -> None:
        initial = 2**32 - 3
        frames = [tcp(1_000, flags=SYN, options=MSS_1460), tcp(initial, 1_001, SYN | ACK, from_server=True)]
        frames += [sent(0, b"hello", initial=initial), sent(5, b"!", FIN | ACK, initial)]
        self.assertEqual([each.is_equal for each in compare(capture_of(frames), capture_of(frames[1:]))], [True])

    def test_a_port_that_is_used_again(self) -> None:
        recorded = [sent(0, b"one"), *opening(initial=77), tcp(5_001, 78, body=b"two", from_server=True)]
        again = [opening(initial=77)[1], tcp(5_001, 78, body=b"two", from_server=True)]
        self.assertEqual([equal for equal, _ in told(recorded, replies(sent(0, b"one")))], [True, False])
        self.assertEqual(len(told(recorded, replies(sent(0, b"one"), *again))), 2)
