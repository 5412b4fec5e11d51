"""test.py LIBRARY: the Python example's functions, held to what was written by hand from document 01's small files and the requests."""

import sys
import unittest

import stableglow
from stableglow import Refusal, accepted

LIBRARY = sys.argv.pop()
GLOW = stableglow.Stableglow(LIBRARY)
R = b"rule a{condition:true}"


def check(source, fuel=1_000_000):
    return GLOW.read(source, GLOW.cut(source), fuel)


class Tests(unittest.TestCase):
    def test_readings(self):
        reading = check(R, 5)
        self.assertEqual((accepted(reading), reading.rows, reading.fuel), (True, 8, 0))
        stopped = check(R, 0)
        self.assertEqual((stopped.outcome, stopped.errors, accepted(stopped)), (stableglow.OUT_OF_FUEL, [], False))

    def test_errors(self):
        (record,) = check(R[:-1]).errors
        self.assertEqual((record.form, record.start, record.end, record.names, record.place), (3, 21, 21, [83, 67], None))
        self.assertEqual(GLOW.message(R[:-1], record), "expecting operator or `}`, found end of file")
        source = b'rule "a\xe1\x41"{'
        record = check(source).errors[0]
        self.assertEqual((record.form, record.place), (9, 8))
        self.assertEqual(GLOW.message(source, record), "invalid UTF-8 character")

    def test_lists(self):
        source = b'rule a{strings:$a=1 condition:true}rule a:t{strings:$b="c" condition:$b}'
        events = check(source).events
        rules = [(5, 6, 0, 35, 0, 0, 0, 1), (40, 41, 35, 72, 0, 1, 1, 0)]
        merged = GLOW.merge(events)
        self.assertLess(len(merged), len(events))
        self.assertEqual(GLOW.rules(events), rules)
        self.assertEqual(GLOW.rules(merged), rules)
        self.assertEqual(GLOW.outline(merged, 0, 1), [(89, 0, 35, 1), (89, 35, 72, 1)])

    def test_rooms_grow(self):
        calls = b"rule a{condition:" + b"+".join([b"f(1)"] * 300) + b"}"
        reading = check(calls)
        self.assertTrue(accepted(reading))
        self.assertGreater(len(reading.events), stableglow.EVENT * (3 * reading.rows + 64))
        heads = check(b"rule " * 600)
        self.assertEqual(len(heads.errors), 600)
        self.assertGreater(sum(len(record.numbers) for record in heads.errors), heads.rows + 256)
        forty = check(R * 40).events
        self.assertEqual((len(GLOW.rules(forty)), len(GLOW.outline(forty, 0, 9))), (40, 160))

    def test_refusals(self):
        for number, call in [
            (1, lambda: GLOW.cut(b" " * (stableglow.MOST_BYTES + 1))),
            (1, lambda: check(b"{" * 65_537)),
            (2, lambda: GLOW.read(b"{", stableglow.Rows(GLOW.cut(b"{{").ids, *GLOW.cut(b"{")[1:]))),
            (4, lambda: GLOW.read(b"{{", GLOW.cut(b"{"))),
            (11, lambda: GLOW.message(b"", check(R[:-1]).errors[0])),
            (15, lambda: GLOW.outline(check(R).events, 2, 1)),
        ]:
            with self.assertRaises(Refusal) as refused:
                call()
            self.assertEqual(refused.exception.number, number)


unittest.main()
