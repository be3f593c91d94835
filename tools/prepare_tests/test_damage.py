"""Damaged captures are told as a fault or prepared, and what is prepared stays as it is."""
from __future__ import annotations

import random
import unittest

from captures.capture import Fault
from captures.files import read_capture
from captures.pcap import capture_bytes
from captures.preparation import prepare
from prepare_tests.samples import TOP

RUNS = 150
RECORDED = ("echo-of-300-bytes/recorded.pcap", "two-at-once/recorded.pcap", "echo-over-loopback/recorded.pcap", "echo-in-pcapng/recorded.pcapng")


class Damage(unittest.TestCase):
    def test_changed_octets(self) -> None:
        chance = random.Random(1)
        whole = [(TOP / "examples" / "captured" / name).read_bytes() for name in RECORDED]
        for _ in range(RUNS):
            data = bytearray(chance.choice(whole))
            for _ in range(chance.randint(1, 12)):
                data[chance.randrange(len(data))] = chance.choice((0, 255, chance.randrange(256)))
            try:
                prepared, report = prepare(read_capture(bytes(data)))
            except Fault:
                continue
            self.assertEqual(len(prepared.records), report.written)
            again, nothing = prepare(read_capture(capture_bytes(prepared)))
            self.assertEqual((again, nothing.changed()), (prepared, set()))
