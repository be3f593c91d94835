"""The commands as they are called: their statuses, what they print and what they write."""
from __future__ import annotations

import subprocess
import tempfile
import tomllib
import unittest
from pathlib import Path

from captures.pcap import capture_bytes
from prepare_tests.samples import ACK, FIN, TIMESTAMPS, TOP, capture_of, opening, scale, tcp

TALK = opening(scale(10), scale(10)) + [
    tcp(1_001, 5_001, options=TIMESTAMPS, body=bytes(4_000), unfinished=True),
    tcp(5_001, 5_001, options=TIMESTAMPS, body=b"hello", from_server=True),
    tcp(5_001, 5_006, FIN | ACK),
]


class Commands(unittest.TestCase):
    def setUp(self) -> None:
        self.folder = Path(self.enterContext(tempfile.TemporaryDirectory()))
        self.recorded = self.folder / "recorded"
        self.prepared = self.folder / "capture.pcap"

    def run_tool(self, tool: str, *words: object) -> tuple[int, str, str]:
        """Status, standard output and standard error of a command."""
        done = subprocess.run([TOP / "tools" / tool, *map(str, words)], capture_output=True, text=True, check=False)
        return done.returncode, done.stdout, done.stderr

    def prepare(self, *words: str) -> tuple[int, str, str]:
        """`tools/prepare` on the recorded capture."""
        return self.run_tool("prepare", self.recorded, self.prepared, *words)

    def test_what_is_told(self) -> None:
        self.recorded.write_bytes(capture_bytes(capture_of(TALK)))
        self.assertEqual(self.prepare(), (0, "", (
            "prepare: 6 records, 8 written\n"
            "prepare: window scaling of 1 connection: 4 windows written in bytes, 2 options taken out\n"
            "prepare: 1 joined frame cut into 3 segments\n"
            "prepare: unfinished checksums of 1 record finished: 1 TCP\n"
        )))  # fmt: skip

    def test_what_is_left_is_told(self) -> None:
        wrong = TALK[2][:50] + b"\x12\x34" + TALK[2][52:]
        vlan, ipv6 = TALK[0][:12] + b"\x81\x00\x00\x05" + TALK[0][12:], TALK[0][:12] + b"\x86\xdd\x60" + bytes(2_050)
        self.recorded.write_bytes(capture_bytes(capture_of([TALK[2], vlan, ipv6, wrong])))
        self.assertEqual(self.prepare(), (0, "", (
            "prepare: 4 records\n"
            "prepare: nothing to change\n"
            "prepare: left as they are: 1 VLAN, 1 IPv6\n"
            "prepare: left as they are, for a checksum that is wrong and not unfinished: record 3\n"
            "prepare: the windows of 1 segment are left, since the SYN or the SYN-ACK is not in the capture\n"
            "prepare: longer than ix takes (2,048 bytes): record 2\n"
        )))  # fmt: skip

    def test_over_its_own_output_nothing_changes(self) -> None:
        self.recorded.write_bytes(capture_bytes(capture_of(TALK)))
        self.prepare()
        once = self.prepared.read_bytes()
        self.recorded.write_bytes(once)
        self.assertEqual(self.prepare(), (0, "", "prepare: 8 records\nprepare: nothing to change\n"))
        self.assertEqual(self.prepared.read_bytes(), once)

    def test_a_capture_may_be_its_own_output(self) -> None:
        self.recorded.write_bytes(capture_bytes(capture_of(TALK)))
        self.prepare()
        self.assertEqual(self.run_tool("prepare", self.recorded, self.recorded)[0], 0)
        self.assertEqual(self.recorded.read_bytes(), self.prepared.read_bytes())

    def test_a_configuration(self) -> None:
        self.recorded.write_bytes(capture_bytes(capture_of(TALK)))
        status, text, _ = self.prepare("--conf", "kv")
        self.assertEqual(status, 0)
        self.assertEqual(tomllib.loads(text), {
            "local": {"mac": "02:00:00:00:00:01", "ip": "10.0.0.1", "port": 7, "app": "kv"},
            "tcp": {"window": 65535, "mss": 1448},
        })  # fmt: skip

    def test_a_script(self) -> None:
        self.recorded.write_bytes(capture_bytes(capture_of(TALK)))
        self.assertEqual(self.prepare("--script")[:2], (0, "each 0 7\n"))
        self.assertTrue(self.prepare("--conf", "echo", "--script")[1].endswith("mss = 1448\n\neach 0 7\n"))

    def test_the_busiest_server_is_configured_and_the_others_are_named(self) -> None:
        other = [tcp(1, flags=2, from_server=True), tcp(9, 2, 18)]
        self.recorded.write_bytes(capture_bytes(capture_of(other + opening() + opening(port=40_001))))
        lines = self.prepare("--conf", "echo")[1].splitlines()
        self.assertEqual(lines[:2], ["# the side that sent SYN-ACKs: 10.0.0.1:7, 2 connections", "# not this one: 10.0.0.2:40000, 1 connection"])

    def test_bad_input_writes_nothing(self) -> None:
        whole = capture_bytes(capture_of(TALK))
        for data, words, told in (
            (whole[:-1], (), "byte 4419: record 5 is cut: its frame has 54 bytes, 53 are there"),
            (b"", (), "byte 0: 0 bytes are no capture"),
            (capture_bytes(capture_of([TALK[0]], 105)), (), "link type 105 is none of Ethernet, Linux cooked v1, Linux cooked v2, raw IP, raw IPv4"),
            (capture_bytes(capture_of([TALK[0]])), ("--conf", "echo"), "no SYN-ACK: the capture has no server side to configure"),
        ):
            self.recorded.write_bytes(data)
            self.assertEqual(self.prepare(*words), (2, "", f"prepare: {self.recorded}: {told}\n"))
            self.assertFalse(self.prepared.exists())

    def test_other_failures(self) -> None:
        self.assertEqual(self.prepare(), (2, "", f"prepare: {self.recorded}: No such file or directory\n"))
        self.recorded.write_bytes(capture_bytes(capture_of(TALK)))
        beyond = self.folder / "none" / "capture.pcap"
        self.assertEqual(self.run_tool("prepare", self.recorded, beyond), (2, "", f"prepare: {beyond}: No such file or directory\n"))
        for words in ((), ("--conf", "push"), ("--conf",), ("--other",)):
            self.assertEqual(self.run_tool("prepare", self.recorded, *words)[0], 2)

    def test_streams_of_a_folder(self) -> None:
        self.prepared.write_bytes(capture_bytes(capture_of(TALK)))
        (self.folder / "replies.pcap").write_bytes(capture_bytes(capture_of([TALK[1], TALK[4]])))
        same = f"{self.folder}: 10.0.0.2:40000: 5 of 5 bytes are the same, open\n1 of 1 streams are the same\n"
        self.assertEqual(self.run_tool("check-streams", self.folder), (0, same, ""))
        (self.folder / "replies.pcap").write_bytes(capture_bytes(capture_of([TALK[1]])))
        self.assertEqual(self.run_tool("check-streams", self.folder)[0], 1)
        (self.folder / "replies.pcap").write_bytes(b"hello")
        self.assertEqual(self.run_tool("check-streams", self.folder)[0], 2)
