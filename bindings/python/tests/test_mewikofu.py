"""The module beside document 01's figures and the reference implementation's reports.

usage, from bindings/python, after ./build: python3 -m unittest discover -s tests
"""

import ctypes
import doctest
import itertools
import os
import pickle
import re
import shutil
import subprocess
import sys
import tempfile
import threading
import unittest
from fractions import Fraction
from pathlib import Path

HERE = Path(__file__).resolve().parent
sys.path.insert(0, str(HERE.parent))
import mewikofu

ROOT = HERE.parents[2]
K10 = (ROOT / "examples/k10.day").read_bytes()
REFUSED = (ROOT / "examples/refused.day").read_bytes()
TABLE_1 = (ROOT / "crates/cut/stdin").read_bytes()


def number(call, *arguments):
    """The number of a refused call."""
    try:
        call(*arguments)
    except mewikofu.Refusal as refusal:
        return refusal.number
    return 0


def report(book):
    """The settling program's report of a book (document 01, K10)."""
    row = lambda *words: " ".join(map(str, words)) + "\n"
    lines = (row(l.participant, l.point, "WDR" if l.withdrawal else "INJ", l.steps, *l.payments) for l in book.lines)
    return row("day", len(book.lines)) + "".join(lines) + row("total", *book.totals) + row("adjusted", *book.adjusted)


class K10Test(unittest.TestCase):
    def test_book(self):
        book = mewikofu.settle(K10)
        payments = (0, 20000000, 0, -10000000, 0)
        self.assertEqual(book.lines, (mewikofu.BookLine(7, 3, False, 2, payments),))
        self.assertEqual(book.totals, payments)
        self.assertEqual(book.adjusted, (0, 10000000, 0, 0, 0))
        self.assertEqual(len(book.data), 152)

    def test_first_step(self):
        # Up to 1000 at 20000, below the market price: no rate. Pricing total 1000 covers it, so nothing is constrained on.
        none, full = (0,) * 5, (1000,) * 5
        expected = mewikofu.View(
            end=1000, width=1000, actual=1000, price=(20000,) * 5, flag=none, operating=full, pricing=full, agino=none,
            msiq=full, constrained=none, matches=(0,) * 10, initial=none, revised=none, modified=none, finals=none,
            excess=mewikofu.Excess(operating=none, pricing=none, actual=0),
        )
        self.assertEqual(mewikofu.view(K10, 0, 0), expected)

    def test_second_step(self):
        # 1000 to 3000 at 50000: rate 20000. Operating totals 1000 2000 2000 1500 1500 and actual 1500, less 1000.
        # C rises by 1000 in schedule 2 and falls by 500 in 4, which takes 500 of that rise. Clawback is off: finals are initial.
        none, over = (0,) * 5, (0, 1000, 1000, 500, 500)
        paid = (0, 20000000, 0, -10000000, 0)
        step = mewikofu.view(K10, 0, 1)
        expected = mewikofu.View(
            end=3000, width=2000, actual=500, price=(50000,) * 5, flag=none, operating=over, pricing=none, agino=none,
            msiq=none, constrained=over, matches=(0, 0, 0, 0, 500, 0, 0, 0, 0, 0), initial=paid, revised=paid,
            modified=paid, finals=paid, excess=mewikofu.Excess(operating=none, pricing=none, actual=0),
        )
        self.assertEqual(step, expected)
        self.assertEqual(mewikofu.line_views(K10, 0), (mewikofu.view(K10, 0, 0), expected))
        self.assertEqual([step.matched(r, 3) for r in (0, 1, 2)], [0, 500, 0])
        for r, s in ((3, 3), (-1, 3), (0, 5)):
            self.assertRaises(ValueError, step.matched, r, s)
        with self.assertWarns(DeprecationWarning):
            self.assertEqual([step.match(r, 4) for r in (1, 2, 3)], [0, 500, 0])

    def test_places(self):
        self.assertEqual(number(mewikofu.view, K10, 0, 2), 17)
        self.assertEqual(number(mewikofu.view, K10, 1, 0), 16)
        for huge in (2**32, 2**64 - 1, 2**64, 10**30):
            self.assertEqual(number(mewikofu.view, K10, huge, 0), 16)
            self.assertEqual(number(mewikofu.view, K10, 0, huge), 17)
            self.assertEqual(number(mewikofu.line_part, K10, huge), 16)
            self.assertEqual(number(mewikofu.line_views, K10, huge), 16)
        self.assertEqual(number(mewikofu.line_views, K10, 1), 16)
        self.assertRaises(ValueError, mewikofu.view, K10, -1, 0)
        self.assertRaises(ValueError, mewikofu.line_views, K10, -1)
        self.assertRaises(TypeError, mewikofu.view, K10, 0.0, 0)
        self.assertRaises(TypeError, mewikofu.line_views, K10, 0.0)
        self.assertRaises(TypeError, mewikofu.settle, "text")


class AccreditationTest(unittest.TestCase):
    PROPER = [0, 1, *range(32, 64)]

    def test_sets(self):
        self.assertEqual((mewikofu.NOT_ACCREDITED, mewikofu.ACCREDITED), (0, 1))
        self.assertEqual([mewikofu.accreditation_in(schedules) for schedules in ((), [2], {0, 2, 3, 4}, range(5))], [32, 36, 61, 63])
        self.assertEqual(mewikofu.accreditation_in([4, 4]), 48)
        for word in range(32, 64):
            held = [s for s in range(5) if mewikofu.accredited(word, s)]
            self.assertEqual(mewikofu.accreditation_in(held), word)
        for s in range(5):
            self.assertIs(mewikofu.accredited(mewikofu.ACCREDITED, s), True)
            self.assertIs(mewikofu.accredited(mewikofu.NOT_ACCREDITED, s), False)

    def test_wrong_arguments(self):
        for s in (-1, 5):
            self.assertRaises(ValueError, mewikofu.accreditation_in, [0, s])
            for word in (0, 1, 61):
                self.assertRaises(ValueError, mewikofu.accredited, word, s)
        for word in (-1, 2, 31, 64, 2**31 + 33, 2**32 + 33):
            self.assertRaises(ValueError, mewikofu.accredited, word, 0)
        self.assertRaises(TypeError, mewikofu.accreditation_in, [0.0])
        for word in (0.0, 1.0, 33.0, "1"):
            self.assertRaises(TypeError, mewikofu.accredited, word, 0)
        self.assertRaises(TypeError, mewikofu.accredited, 1, 0.0)

    def test_settled(self):
        # Clawback is off in K10's day, so a schedule's payment is that of the accredited line or 0.
        payments = mewikofu.settle(K10).totals
        for word in [*range(70), 2**31 + 33, 2**32 - 1]:
            day = K10[:76] + word.to_bytes(4, "little") + K10[80:]
            if word in self.PROPER:
                due = tuple(payments[s] if mewikofu.accredited(word, s) else 0 for s in range(5))
                self.assertEqual(mewikofu.settle(day).totals, due)
            else:
                self.assertEqual(number(mewikofu.settle, day), 6)


class PulledTest(unittest.TestCase):
    def pulled(self, schedules):
        """K10's day with the bids of these schedules, counted from 0, pulled: their count and slots are 0."""
        day = bytearray(K10)
        for s in schedules:
            bid = 64 + 20 + 92 * s
            day[bid : bid + 92] = bytes(92)
        return day

    def test_cut(self):
        # K10's bids end with a price of 50000, which every step takes where the bid was pulled.
        for count in range(5):
            for schedules in itertools.combinations(range(1, 5), count):
                day = self.pulled(schedules)
                steps = mewikofu.cut(mewikofu.line_part(day, 0))
                step = mewikofu.view(day, 0, 0)
                for s in range(5):
                    pulled = s in schedules
                    self.assertIs(steps.pulled(s), pulled)
                    self.assertEqual(steps.flags[s], (pulled, pulled))
                    self.assertEqual(steps.missing[s], 2 * pulled)
                    self.assertEqual(steps.prices[s], (50000 if pulled else 20000, 50000))
                    self.assertEqual((step.price[s], step.flag[s]), (steps.prices[s][0], pulled))
                # Step 0 is in the market all day, and step 1 has the same price as without pulled bids.
                self.assertEqual(mewikofu.settle(day), mewikofu.settle(K10))
        for s in (-1, 5):
            self.assertRaises(ValueError, steps.pulled, s)
        self.assertRaises(TypeError, steps.pulled, 1.0)

    def test_short_bid(self):
        # A bid that ends before the line does isn't pulled.
        day = bytearray(K10)
        bid = 64 + 20 + 92 * 3
        day[bid] = 1
        for slot in (8, 52):
            day[bid + slot : bid + slot + 4] = bytes(4)
        steps = mewikofu.cut(mewikofu.line_part(day, 0))
        self.assertEqual(steps.flags[3], (False, True))
        self.assertIs(steps.pulled(3), False)

    def test_refused(self):
        self.assertEqual(number(mewikofu.settle, self.pulled([0])), 7)
        self.assertEqual(number(mewikofu.settle, self.pulled(range(5))), 7)
        for slot in range(1, 23):
            day = self.pulled([3])
            day[64 + 20 + 92 * 3 + 4 * slot] = 1
            self.assertEqual(number(mewikofu.settle, day), 10)


class ExcessTest(unittest.TestCase):
    """K10's greatest break is 3000. Word places in the line: operating row s at 135 + 5 s, pricing row s in interval 5 at `PRICING[s]`, actuals at 160."""

    PRICING = 124, 128, 131, 133, 134

    def with_words(self, **words):
        """K10's day with words of its line, named w135 and so on."""
        day = bytearray(K10)
        for place, word in words.items():
            at = 64 + 4 * int(place[1:])
            day[at : at + 4] = word.to_bytes(4, "little")
        return day

    def excess(self, day):
        """The line's, which both steps have."""
        first, second = (mewikofu.view(day, 0, step).excess for step in (0, 1))
        self.assertEqual(first, second)
        return first

    def operated(self, s, total):
        return self.with_words(**{f"w{135 + 5 * s + i}": 0 if i else total for i in range(5)})

    def priced(self, s, total):
        # Pricing row 1 begins with 1000, which all totals have; no other total has the entry for interval 5.
        return self.with_words(**{f"w{self.PRICING[s]}": total - 1000})

    def refused(self, day):
        numbers = number(mewikofu.settle, day), number(mewikofu.view, day, 0, 0), number(mewikofu.cut, day[64:])
        self.assertEqual(numbers, (12, 12, 12))

    def test_one_total(self):
        none = (0,) * 5
        for s in range(5):
            for over in (0, 1, 999, mewikofu.MOST_EXCESS):
                row = tuple(over if k == s else 0 for k in range(5))
                day = self.operated(s, 3000 + over)
                self.assertEqual(self.excess(day), mewikofu.Excess(row, none, 0))
                self.assertEqual(mewikofu.settle(day), mewikofu.settle(self.operated(s, 3000)))
                day = self.priced(s, 3000 + over)
                self.assertEqual(self.excess(day), mewikofu.Excess(none, row, 0))
                self.assertEqual(mewikofu.settle(day), mewikofu.settle(self.priced(s, 3000)))
            for over in (mewikofu.MOST_EXCESS + 1, 1000000, 2**32 - 3001):
                self.refused(self.operated(s, 3000 + over))
                self.refused(self.priced(s, 3000 + over))

    def test_not_paid(self):
        # Operating total 3500 in schedule 2: O(2) is 2000 on the second step, a rise of 2000 at a rate of 20000. C falls by 1000 and by 500.
        day = self.with_words(w141=2500)
        step = mewikofu.view(day, 0, 1)
        self.assertEqual(step.constrained, (0, 2000, 1000, 500, 500))
        self.assertEqual(step.excess.operating, (0, 500, 0, 0, 0))
        self.assertEqual(mewikofu.settle(day).totals, (0, 40000000, -20000000, -10000000, 0))

    def test_effective_actual(self):
        # The lesser of operating row 5 and the actual, interval by interval: 2000 + 1700.
        day = self.with_words(w155=2000, w156=1900, w160=200000000, w161=1700)
        self.assertEqual(self.excess(day), mewikofu.Excess((0, 0, 0, 0, 900), (0,) * 5, 700))
        self.assertEqual([mewikofu.view(day, 0, step).actual for step in (0, 1)], [1000, 2000])

    def test_worked_days(self):
        # The figures of an implementation of its own: a row for each line, after its steps.
        folder, seen = ROOT / "reference/tests/worked", 0
        for name in ("F-2-1", "F-2-2", "F-2-3"):
            day = (folder / f"{name}.day").read_bytes()
            self.assertEqual(report(mewikofu.settle(day)), (folder / f"{name}.report").read_text())
            rows = re.findall(r"^excess pricing (.*) operating (.*) actual (.*)$", (folder / f"{name}.steps").read_text(), re.MULTILINE)
            self.assertEqual(len(rows), (len(day) - 64) // 660)
            for k, row in enumerate(rows):
                pricing, operating, (actual,) = (tuple(map(int, part.split())) for part in row)
                self.assertEqual(mewikofu.view(day, k, 0).excess, mewikofu.Excess(operating, pricing, actual))
                seen += sum(pricing + operating) + actual > 0
        self.assertEqual(seen, 6)


class AdHocTest(unittest.TestCase):
    def record(self, schedule, order, total):
        return mewikofu.AdHoc(0, schedule, order, (total // 2, total - total // 2, 0, 0, 0))

    def words(self, day, place, words):
        """The day with words put at a byte place."""
        changed = bytearray(day)
        changed[place : place + 4 * len(words)] = b"".join(word.to_bytes(4, "little") for word in words)
        return bytes(changed)

    def test_rows(self):
        # The row with the highest order number stands for the line's own, which is then not looked at.
        for s, total in itertools.product(range(5), (0, 1700, 4000)):
            row, other = self.record(s, 2**32 - 1, total), self.record(s, 2**31, 9000)
            place = 64 + 540 + 20 * s
            written = self.words(K10, place, row.quantities)
            wrong_own = self.words(K10, place, (2**32 - 1,))
            for records in ((row,), (row, other), (other, row)):
                day = mewikofu.with_ad_hoc(wrong_own, records)
                self.assertEqual(mewikofu.settle(day), mewikofu.settle(written))
                for step in (0, 1):
                    self.assertEqual(mewikofu.view(day, 0, step), mewikofu.view(written, 0, step))
                self.assertEqual(mewikofu.ad_hoc_records(day), records)
                self.assertEqual(bytes(mewikofu.line_part(day, 0)), wrong_own[64:])
                self.assertEqual(number(mewikofu.cut, mewikofu.line_part(day, 0)), 12)

    def test_layout(self):
        self.assertEqual(mewikofu.ad_hoc_records(K10), ())
        none = mewikofu.with_ad_hoc(K10, ())
        self.assertEqual(none[:24], self.words(bytes(24), 0, (1, 24, 72, 732, 0, 732)))
        self.assertEqual(none[24:], K10[16:])
        self.assertEqual(mewikofu.settle(none), mewikofu.settle(K10))
        one = mewikofu.with_ad_hoc(none, [self.record(1, 7, 2500)])
        two = mewikofu.with_ad_hoc(one, [self.record(2, 7, 2500)])
        self.assertEqual(two, mewikofu.with_ad_hoc(K10, [self.record(1, 7, 2500), self.record(2, 7, 2500)]))
        self.assertEqual(number(mewikofu.with_ad_hoc, K10[:-1], ()), 3)
        for wrong in (self.record(5, 7, 1), self.record(1, 2**32, 1), self.record(1, -1, 1), mewikofu.AdHoc(0, 1, 7, (1, 2, 3, 4))):
            self.assertRaises(ValueError, mewikofu.with_ad_hoc, K10, [wrong])

    def test_refused(self):
        most = [self.record(1, order, 2000) for order in range(mewikofu.MOST_AD_HOC)]
        day = mewikofu.with_ad_hoc(K10, most)
        self.assertEqual(number(mewikofu.settle, day), 0)
        day = mewikofu.with_ad_hoc(day, most[:1])
        calls = (mewikofu.settle, day), (mewikofu.view, day, 0, 0), (mewikofu.line_views, day, 0), (mewikofu.line_part, day, 0), (mewikofu.ad_hoc_records, day)
        self.assertEqual([number(*call) for call in calls], [19] * 5)
        self.assertEqual(number(mewikofu.settle, mewikofu.with_ad_hoc(K10, [most[3], most[4], most[3]])), 21)
        one = mewikofu.with_ad_hoc(K10, most[:1])
        for place, word in ((732, 1), (732, 2**32 - 1), (736, 0), (736, 6)):
            day = self.words(one, place, (word,))
            self.assertEqual((number(mewikofu.settle, day), number(mewikofu.ad_hoc_records, day)), (20, 20))

    def test_worked_days(self):
        # The figures of an implementation of its own.
        folder = ROOT / "reference/tests/worked"
        for name in ("F-5-1", "F-5-2", "F-5-3"):
            day = (folder / f"{name}.day").read_bytes()
            self.assertEqual(report(mewikofu.settle(day)), (folder / f"{name}.report").read_text())


class LentTest(unittest.TestCase):
    def test_book(self):
        book = mewikofu.settle(K10).data
        for room in (0, 1, 95, 96, 151, 152, 153, 216, 4000):
            lent = bytearray([0xA5]) * room
            refused = number(mewikofu.settle_into, K10, lent)
            self.assertEqual(refused, 15 if room < 152 else 0)
            written = b"" if refused else book
            self.assertEqual(bytes(lent), written + b"\xa5" * (room - len(written)))

    def test_refused_book(self):
        lent = bytearray([0xA5]) * 4000
        self.assertEqual(number(mewikofu.settle_into, REFUSED, lent), 9)
        self.assertEqual(lent, bytearray([0xA5]) * 4000)
        self.assertRaises(TypeError, mewikofu.settle_into, K10, bytes(152))

    def test_line_part(self):
        day = bytearray(K10)
        part = mewikofu.line_part(day, 0)
        self.assertEqual(part, K10[64:724])
        day[64] = 9  # the part is the day's own bytes
        self.assertEqual(part[0], 9)
        self.assertEqual(number(mewikofu.line_part, K10, 1), 16)
        self.assertEqual(number(mewikofu.line_part, K10[:63], 0), 1)

    def test_kinds_of_bytes(self):
        for kind in (bytes, bytearray, memoryview):
            self.assertEqual(mewikofu.settle(kind(K10)), mewikofu.settle(K10))


class UpliftTest(unittest.TestCase):
    def test_by_hand(self):
        # K10: all of the adjusted total of schedule 2. F-5-1: the group 1 to 4 has 70 of 26 + 14 + 4 + 30 = 74; 26 x 70 / 74 = 24.59, 13.24, 3.78 and 28.37 are
        # 68 when rounded down, and the 2 left over go to the first two. F-5-2: the group 2 and 3 has -4 of -8 - 16; 1.33 and 2.66 are 3, and the one left over
        # goes to schedule 2; the groups 1, 4 and 5 have 0 of 20, 0 of 6 and -4 of -10.
        folder = ROOT / "reference/tests/worked"
        for day, totals, shares in (
            (K10, (0, 20000000, 0, -10000000, 0), (0, 10000000, 0, 0, 0)),
            ((folder / "F-5-1.day").read_bytes(), (26, 14, 4, 30, -4), (25, 14, 3, 28, 0)),
            ((folder / "F-5-2.day").read_bytes(), (20, -8, -16, 6, -10), (0, -2, -2, 0, -4)),
        ):
            self.assertEqual(mewikofu.settle(day).totals, totals)
            self.assertEqual(mewikofu.uplift(day), shares)

    def groups(self, totals):
        """Longest runs of neighbouring schedules whose totals are all above 0 or all below 0."""
        runs = itertools.groupby(range(5), key=lambda s: (totals[s] > 0) - (totals[s] < 0))
        return [list(run) for sign, run in runs if sign]

    def test_fractions(self):
        # On every example day: less than one unit from the exact fraction, with no unit lost or made.
        several = 0
        for file in sorted((ROOT / "examples").glob("*.day")):
            day = file.read_bytes()
            if number(mewikofu.settle, day):
                continue
            book, shares = mewikofu.settle(day), mewikofu.uplift(day)
            left = set(range(5))
            for group in self.groups(book.totals):
                left -= set(group)
                several += len(group) > 1
                total, adjusted = (sum(row[s] for s in group) for row in (book.totals, book.adjusted))
                self.assertEqual(sum(shares[s] for s in group), adjusted)
                for s in group:
                    self.assertLess(abs(shares[s] - Fraction(book.totals[s] * adjusted, total)), 1)
            self.assertEqual([shares[s] for s in left], [0] * len(left))
        self.assertGreater(several, 3)

    def test_refused(self):
        twice = (2).to_bytes(4, "little") + K10[4:12] + (1384).to_bytes(4, "little") + K10[16:] + K10[64:]
        self.assertEqual([number(mewikofu.uplift, day) for day in (b"", bytes(64), K10[:-1], REFUSED, twice)], [1, 2, 3, 9, 14])
        self.assertRaises(TypeError, mewikofu.uplift, "text")
        for kind in (bytes, bytearray, memoryview):
            self.assertEqual(mewikofu.uplift(kind(K10)), mewikofu.uplift(K10))


class CutTest(unittest.TestCase):
    def test_k1(self):
        self.assertEqual(mewikofu.cut(TABLE_1).ends, (15, 16, 17, 30, 32, 34, 37, 45, 48, 51, 60, 64, 68, 75))

    def test_k2(self):
        steps = mewikofu.cut(TABLE_1)
        at = steps.ends.index
        first_reschedule = 1
        for end, flag in ((64, False), (68, True)):
            self.assertEqual(steps.prices[first_reschedule][at(end)], 36000)
            self.assertIs(steps.flags[first_reschedule][at(end)], flag)
        # Schedule 1 bids up to 75, the first reschedule up to 64, the others up to 68.
        self.assertEqual(steps.missing, (0, 2, 1, 1, 1))

    def test_refused(self):
        self.assertEqual(number(mewikofu.cut, TABLE_1[:659]), 18)
        self.assertEqual(number(mewikofu.cut, TABLE_1 + b"\0"), 18)
        self.assertEqual(number(mewikofu.cut, bytes(660)), 7)


class RefusalTest(unittest.TestCase):
    def test_refused_day(self):
        with self.assertRaises(mewikofu.Refusal) as caught:
            mewikofu.settle(REFUSED)
        refusal = caught.exception
        self.assertEqual((refusal.number, refusal.place), (9, "each line"))
        self.assertIn("a bid's price is above 10,000,000 price units, or falls", str(refusal))
        self.assertEqual(pickle.loads(pickle.dumps(refusal)).number, 9)
        self.assertEqual(number(mewikofu.view, REFUSED, 0, 0), 9)
        self.assertEqual(number(mewikofu.line_views, REFUSED, 0), 9)

    def test_short_files(self):
        self.assertEqual([number(mewikofu.settle, day) for day in (b"", K10[:63], bytes(64), K10[:-1])], [1, 1, 2, 3])

    def test_table(self):
        table = (ROOT / "docs/REFUSALS.md").read_text()
        rows = re.findall(r"^\| (\d+) \| `\w+` \| ([^|]+) \| [^|]+ \| ([^|]+) \|$", table, re.MULTILINE)
        refusals = [mewikofu.Refusal(int(number)) for number, _, _ in rows]
        self.assertEqual([(str(refusal.number), refusal.place, refusal.words) for refusal in refusals], rows)
        self.assertGreaterEqual(len(rows), 18)
        self.assertRaises(KeyError, mewikofu.Refusal, len(rows) + 1)


class ThreadsTest(unittest.TestCase):
    def test_threads(self):
        # ctypes lets go of the interpreter's lock during a call, so calls run side by side.
        books = [(day, mewikofu.settle(day)) for day in ((ROOT / f"examples/{name}.day").read_bytes() for name in ("both-sides", "withdrawals"))]
        wrong = []

        def work():
            for _ in range(200):
                wrong.extend(day for day, book in books if mewikofu.settle(day) != book)

        threads = [threading.Thread(target=work) for _ in range(4)]
        for thread in threads:
            thread.start()
        for thread in threads:
            thread.join()
        self.assertEqual(wrong, [])


class ImportTest(unittest.TestCase):
    """The import in a process of its own, of a package without its shared object or with another one."""

    def imported(self, folder, library):
        """Exit status and the last line of what is said."""
        environment = {**os.environ, "PYTHONPATH": folder, "MEWIKOFU_LIBRARY": library}
        program = [sys.executable, "-c", "import mewikofu"]
        ended = subprocess.run(program, cwd=folder, env=environment, stderr=subprocess.PIPE, text=True)
        return ended.returncode, "".join(ended.stderr.splitlines()[-1:])

    def test_shared_object(self):
        with tempfile.TemporaryDirectory() as folder:
            os.mkdir(f"{folder}/mewikofu")
            shutil.copy(HERE.parent / "mewikofu/__init__.py", f"{folder}/mewikofu")
            status, said = self.imported(folder, "")
            self.assertEqual(status, 1)
            self.assertIn(f"ImportError: {folder}/mewikofu/libmewikofu.so is missing", said)
            self.assertIn("run `bindings/python/build`", said)
            status, said = self.imported(folder, f"{folder}/none.so")
            self.assertEqual(status, 1)
            self.assertIn("ImportError: MEWIKOFU_LIBRARY names a shared object that can't be loaded", said)
            self.assertEqual(self.imported(folder, str(HERE.parent / "mewikofu/libmewikofu.so")), (0, ""))

    def test_another_version(self):
        with tempfile.TemporaryDirectory() as folder:
            os.mkdir(f"{folder}/mewikofu")
            module = (HERE.parent / "mewikofu/__init__.py").read_text()
            versions = f'__version__ = "{mewikofu.__version__}"', '__version__ = "9.9.9"'
            Path(f"{folder}/mewikofu/__init__.py").write_text(module.replace(*versions))
            library = str(HERE.parent / "mewikofu/libmewikofu.so")
            wrong = f"isn't a libmewikofu of version 9.9.9: it is of version {mewikofu.__version__}."
            status, said = self.imported(folder, library)
            self.assertEqual(status, 1)
            self.assertEqual(said, f"ImportError: {library} {wrong} Unset MEWIKOFU_LIBRARY, or name a libmewikofu of version 9.9.9 in it.")
            # As the package's own.
            own = shutil.copy(library, f"{folder}/mewikofu")
            status, said = self.imported(folder, "")
            self.assertEqual(status, 1)
            self.assertTrue(said.startswith(f"ImportError: {own} {wrong} In the repository, "), said)
            self.assertIn("run `bindings/python/build`", said)

    def test_another_library(self):
        # The C library has none of the functions; version 0.1.0 had no mewikofu_version.
        status, said = self.imported(str(HERE.parent), "libc.so.6")
        version = f"libmewikofu of version {mewikofu.__version__}"
        self.assertEqual(status, 1)
        self.assertEqual(said, f"ImportError: libc.so.6 isn't a {version}: it has no mewikofu_version. Unset MEWIKOFU_LIBRARY, or name a {version} in it.")


class VersionTest(unittest.TestCase):
    def test_version(self):
        self.assertEqual(mewikofu.__version__, (ROOT / "VERSION").read_text().strip())


class PageTest(unittest.TestCase):
    def test_examples(self):
        # The page's examples are written for the repository's root.
        here = os.getcwd()
        os.chdir(ROOT)
        try:
            page = str(HERE.parent / "README.md")
            tried = doctest.testfile(page, module_relative=False)
        finally:
            os.chdir(here)
        self.assertGreater(tried.attempted, 0)
        self.assertEqual(tried.failed, 0)


class HeaderTest(unittest.TestCase):
    HEADER = (ROOT / "include/mewikofu.h").read_text()

    def fields(self, name):
        """Names of the header's struct, in its order."""
        body = re.search(rf"^struct {name} {{\n(.*?)^}};", self.HEADER, re.MULTILINE | re.DOTALL)[1]
        return re.findall(r"^    \w[\w ]* (\w+)(?:\[\w+\])*;", body, re.MULTILINE)

    def test_structs(self):
        for structure, name, size in ((mewikofu._Excess, "excess", 44), (mewikofu._View, "view", 400), (mewikofu._Cut, "cut", 1416)):
            self.assertEqual([field[0] for field in structure._fields_], self.fields(f"mewikofu_{name}"))
            self.assertEqual(ctypes.sizeof(structure), size)
        for name in ("MOST_EXCESS", "MOST_AD_HOC"):
            self.assertIn(f"\n#define MEWIKOFU_{name} {getattr(mewikofu, name)}\n", self.HEADER)


class ReportTest(unittest.TestCase):
    def test_example_days(self):
        for name in ("k10", "both-sides", "withdrawals", "rules", "accreditation", "pulled", "excess", "ad-hoc", "uplift", "open-rises", "winter"):
            day = (ROOT / f"examples/{name}.day").read_bytes()
            self.assertEqual(report(mewikofu.settle(day)), (ROOT / f"examples/{name}.report").read_text())

    def test_uplift(self):
        # The days whose uplift was worked out by hand, and others that have it.
        files = sorted((ROOT / "examples").glob("*.uplift"))
        for name in ("uplift.uplift", "open-rises.uplift"):
            self.assertIn(name, [file.name for file in files])
        for file in files:
            shares = mewikofu.uplift(file.with_suffix(".day").read_bytes())
            self.assertEqual(" ".join(map(str, ("uplift", *shares))) + "\n", file.read_text())

    def test_steps(self):
        # A line's payments are the sums of its steps' finals.
        day = (ROOT / "examples/both-sides.day").read_bytes()
        for k, line in enumerate(mewikofu.settle(day).lines):
            views = mewikofu.line_views(day, k)
            self.assertEqual(len(views), line.steps)
            self.assertEqual(tuple(map(sum, zip(*(view.finals for view in views)))), line.payments)
            self.assertEqual(number(mewikofu.view, day, k, line.steps), 17)

    def test_line_views(self):
        # Figures worked out by hand, as the program `steps` prints them, and the view of each step.
        files = sorted((ROOT / "examples").glob("*.steps"))
        self.assertGreaterEqual(len(files), 8)
        for file in files:
            day = file.with_suffix(".day").read_bytes()
            lines = range(len(mewikofu.settle(day).lines))
            self.assertEqual("".join(self.steps(day, k) for k in lines), file.read_text())
            for k in lines:
                views = mewikofu.line_views(day, k)
                self.assertEqual(views, tuple(mewikofu.view(day, k, step) for step in range(len(views))))
            self.assertEqual(number(mewikofu.line_views, day, len(lines)), 16)

    def steps(self, day, k):
        """The rows that the program `steps` prints for a line."""
        row = lambda *words: " ".join(map(str, words)) + "\n"
        line, views = mewikofu.settle(day).lines[k], mewikofu.line_views(day, k)
        text = row("line", k, line.participant, line.point, "WDR" if line.withdrawal else "INJ", line.steps)
        for j, v in enumerate(views):
            schedules = zip(v.price, v.flag, v.operating, v.pricing, v.agino, v.msiq, v.constrained, v.initial, v.revised, v.modified, v.finals)
            text += row("step", j, v.end, v.width, v.actual) + "".join(row(s, *figures) for s, figures in enumerate(schedules, 1)) + row("matches", *v.matches)
        excess = views[0].excess
        return text + row("excess pricing", *excess.pricing, "operating", *excess.operating, "actual", excess.actual)


if __name__ == "__main__":
    unittest.main()
