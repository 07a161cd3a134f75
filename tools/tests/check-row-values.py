#!/usr/bin/env python3
"""Checks that `ptides rows` reads tables and signals of a DBC file exactly: beside the same in fractions, on odd numbers and stamps."""
from __future__ import annotations

import argparse
import datetime
import random
import sys
from collections import Counter
from fractions import Fraction
from math import floor
from typing import Any, Iterator
from unittest import mock

from counted import TOP, main
from recorded_tables import Tables

sys.path.insert(0, str(TOP / "python"))
from ptides import wall_time  # noqa: E402
from ptides.ratios import Linear, ratio_of  # noqa: E402
from ptides.recordings.sensor_files import rows_of  # noqa: E402
from ptides.recordings.table import csv_samples  # noqa: E402

ODD = ["0", "-0", "+7", "007.50", ".5", "-.5", "5.", "1.5", "2.5", "-1.5", "0.4999999999999999", "0.50000000000000000001", "1e3", "12E-1", "-25e-1",
       "1.e+2", ".3e1", "123456789012345678", "0.000000000000000000000001", "99999999999999.99999999999999999", "-3.5000"]
SCALES = [("1", "0"), ("10", "0"), ("1/3", "0"), ("-0.5", "1/4"), ("0.1", "-7/2"), ("1000", "-0.001")]


def numbers() -> Iterator[str]:
    """Odd numbers, and random ones of every form."""
    yield from ODD
    for _ in range(150):
        whole, digits = str(random.randrange(10 ** random.randrange(1, 14))), str(random.randrange(10 ** random.randrange(1, 12)))
        text = random.choice([whole, f"{whole}.", f".{digits}", f"{whole}.{digits}", f"{whole}.5"])
        yield random.choice(["", "", "+", "-"]) + text + random.choice(["", "", "e2", "E-3", "e+1", "e-12"])


def rounded(value: Fraction) -> int:
    """The nearest whole number; halves go away from 0."""
    return floor(abs(value) + Fraction(1, 2)) * (-1 if value < 0 else 1)


class RowValues(Tables):
    """Tables, in a folder of their own."""

    def setUp(self) -> None:
        super().setUp()
        random.seed(11)

    def test_values(self) -> None:
        """Numbers with signs, exponents, long fractions and halves are scaled, shifted and rounded as fractions are."""
        for scale, shift in SCALES:
            texts = [text for text in numbers() if abs(rounded(Fraction(text) * Fraction(scale) + Fraction(shift))) < 2**63]
            wanted = [rounded(Fraction(text) * Fraction(scale) + Fraction(shift)) for text in texts]
            done = self.table("t,v\n" + "".join(f"{number},{text}\n" for number, text in enumerate(texts)), "--unit", "us", "--latency", "0",
                              f"--scale={scale}", f"--shift={shift}", "--round")
            with self.subTest(scale=scale, shift=shift):
                self.assertEqual([int(line.split(",")[2]) for line in done.output.splitlines()[1:]], wanted, done.notes)

    def test_whole_values(self) -> None:
        """Without --round what isn't whole is refused, and what is whole after --scale is taken."""
        done = self.table("t,v\n1,0.30\n2,1e-1\n3,-12.5e1\n", "--unit", "us", "--latency", "0", "--scale", "10")
        self.assertEqual(done.output, "time,seen,value\n1,1,3\n2,2,1\n3,3,-1250\n")
        for text, line in [("0.33", "the value 3.3 is not whole: choose another --scale, or --round"), ("1e30", "the value 10000000000000000000000000000000 does not fit 64 bits"),
                           ("1e999", "the value 1.000e+1000 does not fit 64 bits"), ("9" * 6000, "column v: no number has more than 1000 digits"),
                           ("1e1000", "column v: `1e1000` is no number"), ("1_000", "column v: `1_000` is no number"), ("0x10", "column v: `0x10` is no number")]:
            with self.subTest(text=text[:9]):
                done = self.table(f"t,v\n1,{text}\n", "--unit", "us", "--latency", "0", "--scale", "10")
                self.assertEqual((done.status, done.output, done.notes), (1, "", f"ptides rows: t.csv:2: {line}\n"))

    def test_stamps(self) -> None:
        """Stamps with long fractions and exponents are cut to microseconds after a zero that may be a fraction, in every unit."""
        for unit, size, step in (("s", Fraction(10**6), 2), ("ms", Fraction(1000), 2), ("us", Fraction(1), 10), ("ns", Fraction(1, 1000), 10_000)):
            for zero in ("0", "0.5", "-1/3"):
                ends = ["", ".", ".5", ".999999999", ".0000000001", f".{random.randrange(10**9):09}"]
                texts = [f"{number * step}{random.choice(ends)}{random.choice(['', 'e0', 'E+00'])}" for number in range(1, 40)]
                wanted = [floor((Fraction(text) - Fraction(zero)) * size) for text in texts]
                done = self.table("t,v\n" + "".join(f"{text},1\n" for text in texts), "--unit", unit, "--latency", "0", f"--zero={zero}")
                with self.subTest(unit=unit, zero=zero):
                    self.assertEqual([int(line.split(",")[1]) for line in done.output.splitlines()[1:]], wanted, done.notes)

    def test_iso_stamps(self) -> None:
        """ISO stamps of many zones, with fractions to a picosecond, are what datetime and fractions say."""
        texts, wanted, stamp = [], [], datetime.datetime(2026, 3, 29, tzinfo=datetime.timezone.utc)
        for _ in range(200):
            stamp += datetime.timedelta(seconds=random.randrange(1, 10**5))
            zone = datetime.timezone(datetime.timedelta(minutes=random.randrange(-14 * 60, 14 * 60, 15)))
            digits = str(random.randrange(10**12)).zfill(12)[:random.randrange(1, 13)]
            local = stamp.astimezone(zone).isoformat()
            texts.append(f"{local[:19]}.{digits}{local[19:]}")
            wanted.append(floor((Fraction(int(stamp.timestamp())) + Fraction(int(digits), 10 ** len(digits)) - Fraction(3549484801, 2)) * 10**6))
        done = self.table("t,v\n" + "".join(f"{text},1\n" for text in texts), "--unit", "iso", "--latency", "0", "--zero", "1774742400.5")
        self.assertEqual([int(line.split(",")[1]) for line in done.output.splitlines()[1:]], wanted, done.notes)

    def test_records(self) -> None:
        """Of columns of one name the last counts; short records, blank lines and records of other texts are as before."""
        text = "t,v,k,v,w\n1,8,a,5,\n\n2,8,b,6,\n3,8,a\n4,8,a,7,x\n5,8,a,9\n"
        for words, rows in [((), "1,1,5\n2,2,6\n4,4,7\n5,5,9\n"), (("--where", "k=a"), "1,1,5\n4,4,7\n5,5,9\n"), (("--where", "k=a", "--where", "w=x"), "4,4,7\n"),
                            (("--where", "w="), "1,1,5\n2,2,6\n")]:
            with self.subTest(words=words):
                done = self.table(text, "--unit", "us", "--latency", "0", *words)
                self.assertEqual(done.output, "time,seen,value\n" + rows)
        self.assertIn("passed over: empty cells 1\n", self.table(text, "--unit", "us", "--latency", "0").notes)

    def test_ratios(self) -> None:
        """A number in parts is the fraction, also after a linear map; what Fraction reads and a table has not is none."""
        for text in numbers():
            self.assertEqual(Fraction(*ratio_of(text)), Fraction(text))
            scale, shift = (Fraction(each) for each in random.choice(SCALES))
            self.assertEqual(Fraction(*Linear(scale, shift).of(ratio_of(text))), Fraction(text) * scale + shift)
        for text in ("", ".", "e5", "1e", "1 ", "1/2", "nan", "--1", "1e5000"):
            self.assertIsNone(ratio_of(text), text)

    def test_no_fraction_for_each_cell(self) -> None:
        """A long table is read in whole numbers: fractions, which are slow, are made for the words alone."""
        stamps = [f"2026-03-29T{number // 3600:02}:{number // 60 % 60:02}:{number % 60:02}.25Z" for number in range(2000)]
        (self.folder / "t.csv").write_text("t,v\n" + "".join(f"{stamp},{number / 10}\n" for number, stamp in enumerate(stamps)))
        asked = argparse.Namespace(recording=str(self.folder / "t.csv"), stamp="t", unit="iso", value="v", time=None, where=[], missing=[], preamble=0, skip=0,
                                   delimiter=",", decimal=".", zero=None, zone=None, passed=Counter(), frames=None, first=None, last=None, period=None, latency=0,
                                   scale=10, shift=0, round=False, take_last=False, claims=200_000)
        made: list[Any] = []
        new = Fraction.__new__
        with mock.patch.object(Fraction, "__new__", lambda *words, **more: made.append(1) or new(*words, **more)):
            rows = rows_of(asked, csv_samples(asked))
        self.assertEqual(([row.value for row in rows[:3]], rows[-1].seen, len(rows)), ([0, 1, 2], 1999250000, 2000))
        self.assertLess(len(made), 10)

    def test_kept_stamps(self) -> None:
        """A stamp is written in the zone in which it was read, and copies of it are too."""
        for text in ("2026-03-29T01:58:00.5+01:00", "1969-12-31T23:59:59.25Z", "2026-03-29T01:58:00-05:30"):
            stamp = wall_time.seconds(text)
            self.assertEqual(wall_time.text_of(stamp), text)
            self.assertEqual(wall_time.text_of(stamp.after(0)), text)
        self.assertEqual(wall_time.text_of(Fraction(3549491761, 2)), "2026-03-29T00:58:00.5Z")
        self.assertEqual(wall_time.text_of(wall_time.seconds("2026-03-29T01:58:00+01:00").after(86_400_000_001)), "2026-03-30T01:58:00.000001+01:00")


if __name__ == "__main__":
    main()
