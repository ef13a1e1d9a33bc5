"""Tests of bench/bridge: how a file of callgrind is read, and how what it counts becomes a table. Nothing is counted
here."""
import os
import sys
import unittest

from common import ROOT, module_of, run_to_end

sys.path.append(os.path.join(ROOT, "bench"))
import callgrind  # noqa: E402
from callgrind import Place, Profile  # noqa: E402

bridge = module_of("..", "bench", "bridge")
# Two functions of the bridge, of which one has code of Rust's library and of another file inline, and calls `write`.
WRITTEN = """# callgrind format
events: Ir

ob=(1) /build/bridge-1f
fl=(1) src/outbound/air/queue.rs
fn=(1) bridge::outbound::air::queue::Queue::push
16 400
+3 5
fi=(2) /rustc/1/library/alloc/src/vec/mod.rs
20 7
fe=(1)
* 1
cob=(2) /usr/lib/libc.so.6
cfi=(3) ./misc/write.c
cfn=(2) write
calls=3 50
-2 90

fl=(4) src/inbound/judging.rs
fn=(3) bridge::inbound::judging::Judge::judge
5 11
cfn=(1)
calls=2 16
6 800
ob=(2)
fl=(3)
fn=(2)
50 90

totals: 514
"""
AIR, INBOUND = "outbound/air", "inbound"


class Read(unittest.TestCase):
    """A file of callgrind."""

    def test_own_instructions_stand_at_their_file_and_function(self):
        """What calls took in all is left out, so the sum is the total."""
        found = callgrind.profile(WRITTEN.splitlines(True))
        program, push = "/build/bridge-1f", "bridge::outbound::air::queue::Queue::push"
        self.assertEqual(found.own, {
            Place(program, "src/outbound/air/queue.rs", push): 406,
            Place(program, "/rustc/1/library/alloc/src/vec/mod.rs", push): 7,
            Place(program, "src/inbound/judging.rs", "bridge::inbound::judging::Judge::judge"): 11,
            Place("/usr/lib/libc.so.6", "./misc/write.c", "write"): 90})
        self.assertEqual(sum(found.own.values()), callgrind.total(WRITTEN.splitlines(True)))

    def test_calls_are_counted(self):
        found = callgrind.profile(WRITTEN.splitlines(True))
        self.assertEqual(found.calls, {("bridge::outbound::air::queue::Queue::push", "write"): 3,
                                       ("bridge::inbound::judging::Judge::judge",
                                        "bridge::outbound::air::queue::Queue::push"): 2})


class Counted(unittest.TestCase):
    """What is made of it."""

    def test_instructions_belong_to_parts(self):
        """By the source, else by the function's name, else by the library."""
        for library, file, function, part in (
                ("/b", "src/outbound/air/queue.rs", "x", AIR), ("/b", "src/outbound/wire.rs", "x", "outbound"),
                ("/b", "/place/tools/bridge/src/run/reading.rs", "x", "run"), ("/b", "src/spare.rs", "x", "rest"),
                ("/b", "/rustc/1/library/core/src/mem/mod.rs", "<bridge::inbound::queue::InboundQueue>::push", INBOUND),
                ("/b", "/rustc/1/library/core/src/mem/mod.rs", "alloc::raw_vec::finish_grow", "Rust's library"),
                ("/b", "???", "downlink_turn", "proved queues"),
                ("/b", "???", "downlink::receiver::ReceiverQueue::turn", "proved queues"),
                ("/usr/lib/x86_64-linux-gnu/libc.so.6", "./malloc/malloc.c", "malloc", "C library")):
            self.assertEqual(bridge.part(Place(library, file, function)), part, (file, function))

    def test_a_unit_takes_what_more_of_them_take_beyond_few(self):
        def profiled(air, inbound, writes):
            own = {Place("/b", "src/outbound/air/mod.rs", "x"): air, Place("/b", "src/inbound/mod.rs", "x"): inbound}
            return Profile(own, {("x", "write"): writes, ("y", "write@plt"): 1, ("x", "memcpy"): 9})
        found = bridge.per_unit(profiled(1000, 500, 10), profiled(3000, 600, 110), 100)
        self.assertEqual(found.parts, {AIR: 20, INBOUND: 1})
        self.assertEqual((found.calls, found.all), ({"write": 1}, 21))

    def test_the_table_begins_with_the_dearest_part(self):
        counted = {("radio to wire", 64): bridge.Counts({INBOUND: 1500.4, AIR: 2.0}, {"write": 2.0, "read": 1.0}),
                   ("wire to radio", 1400): bridge.Counts({AIR: 5000.0}, {"write": 1.0})}
        self.assertEqual(bridge.table(counted), [
            "| Instructions of a unit | radio to wire, 64 octets | wire to radio, 1,400 octets |", "|---|---|---|",
            "| outbound/air | 2 | 5,000 |", "| inbound | 1,500 | 0 |", "| all | 1,502 | 5,000 |",
            "| calls of read | 1.00 | 0.00 |", "| calls of write | 2.00 | 1.00 |"])

    def test_wrong_words_are_refused(self):
        for words, says in ((("--units", "100"), "--units is more than 100"), (("--way", "up"), "invalid choice: 'up'"),
                            (("--octets", "2001"), "from 0 to 2000"), (("more",), "unrecognized arguments: more")):
            done = run_to_end([os.path.join(ROOT, "bench", "bridge"), *words])
            self.assertEqual((done.returncode, done.stdout), (2, ""))
            self.assertIn(says, done.stderr)
