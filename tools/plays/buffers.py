"""Buffers of a trace, named by what lies in them: which buffer a frame is put in is free (docs/FITS.md), and two plays of the same inputs differ there."""

from __future__ import annotations

from typing import Iterable, Iterator


def without_slots(lines: Iterable[str]) -> Iterator[str]:
    """The lines of a trace: of the buffer of a frame only its home is left, and a part that was told names the frame that it is of, which
    is the last one up to the segment at hand that lay in the part's buffer."""
    laid: dict[str, list[int]] = {}
    segment = 0
    for line in lines:
        match line.split(" "):
            case ["frame", wire, *middle, "buf", buffer]:
                laid.setdefault(buffer, []).append(int(wire))
                yield " ".join(["frame", wire, *middle, "home", buffer.partition(".")[0]])
            case ["event", "recv", buffer, start, length]:
                frame = max((wire for wire in laid.get(buffer, []) if wire <= segment), default="?")
                yield f"event recv frame {frame} {start} {length}"
            case ["seg", wire, *_]:
                segment = int(wire)
                yield line
            case _:
                yield line
