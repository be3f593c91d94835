"""Traces of two plays of one play's inputs: which slot of its home a frame's buffer has is free, whose bytes a part is of is not."""
from __future__ import annotations

import unittest

from plays.buffers import without_slots

FRAMES = (
    "frame 0 rec 0 at 0 group 376 ring 0 buf 0.7",
    "frame 2 rec 1 at 0 group 376 ring 0 buf 0.6",
    "frame 4 rec 2 at 0 group 376 ring 0 buf 0.7",
    "seg 2 core 0",
)


def told(*lines: str) -> list[str]:
    """What is compared of these lines, behind those of three frames of which the first and the last lie in one buffer."""
    return list(without_slots((*FRAMES, *lines)))[len(FRAMES) :]


class Slots(unittest.TestCase):
    def test_a_part_is_of_the_last_frame_up_to_its_segment(self) -> None:
        self.assertEqual(told("event recv 0.6 54 5"), ["event recv frame 2 54 5"])
        self.assertEqual(told("event recv 0.7 54 5"), ["event recv frame 0 54 5"])
        self.assertEqual(told("seg 4 core 0", "event recv 0.7 54 5")[1:], ["event recv frame 4 54 5"])

    def test_a_part_of_no_frame_is_none(self) -> None:
        self.assertEqual(told("event recv 0.5 54 5"), ["event recv frame ? 54 5"])

    def test_a_home_stays(self) -> None:
        frame = "frame 6 rec 3 at 0 group 376 ring 1 buf 1.5"
        self.assertEqual(told(frame), ["frame 6 rec 3 at 0 group 376 ring 1 home 1"])

    def test_all_else_stays(self) -> None:
        lines = ["frame 6 rec 3 at 0 group 376 ring 0 drop no-buffer 64", "event recv end", "home 0 pool 1 posted 2 desk 0 held 0 app 0 queue 0"]
        self.assertEqual(told(*lines), lines)


if __name__ == "__main__":
    unittest.main()
