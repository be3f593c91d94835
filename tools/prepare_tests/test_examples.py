"""The captures of the examples: nothing is changed but what is said, and the prepared ones come from the recorded ones."""
from __future__ import annotations

import unittest
from pathlib import Path

from captures.capture import Fault
from captures.files import read_capture
from captures.pcap import capture_bytes
from captures.preparation import prepare
from prepare_tests.samples import TOP

EXAMPLES = TOP / "examples"


def is_refused(folder: Path) -> bool:
    """Whether `ix` refuses an example."""
    return (folder / "status").read_text().split()[0] != "0"


class Examples(unittest.TestCase):
    def test_nothing_changes_but_what_is_said(self) -> None:
        captures = sorted(EXAMPLES.rglob("capture.pcap"))
        self.assertTrue(captures)
        for path in captures:
            with self.subTest(path.parent.name):
                data = path.read_bytes()
                try:
                    recorded = read_capture(data)
                    prepared, report = prepare(recorded)
                except Fault:
                    self.assertTrue(is_refused(path.parent))
                    continue
                if not (report.cut or report.links):
                    changed = {at for at, (old, new) in enumerate(zip(recorded.records, prepared.records)) if old != new}
                    self.assertEqual(changed, report.changed())
                if not (report.changed() or report.links or report.flags):
                    self.assertEqual(capture_bytes(prepared), data)
                again, nothing = prepare(prepared)
                self.assertEqual((again, nothing.changed()), (prepared, set()))

    def test_what_was_recorded_is_prepared(self) -> None:
        recorded = sorted((EXAMPLES / "captured").glob("*/recorded.*"))
        self.assertTrue(recorded)
        for path in recorded:
            with self.subTest(path.parent.name):
                prepared, _ = prepare(read_capture(path.read_bytes()))
                self.assertEqual(capture_bytes(prepared), (path.parent / "capture.pcap").read_bytes())
