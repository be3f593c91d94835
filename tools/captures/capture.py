"""What a capture file holds, whatever its form is."""
from __future__ import annotations

from dataclasses import dataclass

MICROSECONDS = 0xA1B2C3D4
NANOSECONDS = 0xA1B23C4D


class Fault(Exception):
    """What is wrong with an input, with its place, in one line."""


@dataclass(frozen=True)
class Record:
    """One captured frame. `fraction` is in the unit of its capture; `missing` octets of the frame were not captured."""

    link: int
    seconds: int
    fraction: int
    frame: bytes
    missing: int


@dataclass(frozen=True)
class Head:
    """The header of a pcap file. `order` is "<" or ">"; `flags` are the bits above the link type."""

    order: str
    magic: int
    zone: int
    accuracy: int
    snap: int
    link: int
    flags: int


@dataclass(frozen=True)
class Capture:
    """A whole capture file."""

    head: Head
    records: list[Record]
