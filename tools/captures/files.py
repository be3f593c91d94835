"""Capture files of every form that is read."""
from __future__ import annotations

from captures.capture import Capture
from captures.pcap import read_pcap
from captures.pcapng import read_pcapng

PCAPNG = b"\x0a\x0d\x0d\x0a"


def read_capture(data: bytes) -> Capture:
    """The capture that a file is, or the first fault in it."""
    return read_pcapng(data) if data[:4] == PCAPNG else read_pcap(data)
