#!/usr/bin/env python3
"""Checks what `ptides rows` does with stamps of ISO 8601, zeros, cells without values, and files of CAN."""
from __future__ import annotations

import random
import shutil
import subprocess
import sys
from datetime import datetime, timedelta, timezone
from fractions import Fraction

from counted import EXAMPLES, TOP, main, run
from recorded_tables import Tables

sys.path.insert(0, str(TOP / "python"))
from ptides import wall_time  # noqa: E402
from ptides.program import Fault  # noqa: E402
from ptides.recordings.dbc import Database  # noqa: E402

DBC = """VERSION ""
BU_: car gateway
BO_ 160 SPEED: 4 car
 SG_ speed : 7|16@0+ (2,0) [0|20000] "0.01 m/s" gateway
 SG_ torque : 16|12@1- (0.5,-40) [-1000|1000] "Nm" gateway
BO_ 177 WHEEL: 4 car
 SG_ wheel : 16|16@1- (1,0) [0|0] "" gateway
BO_ 2566844674 LONG: 8 car
 SG_ which M : 0|8@1+ (1,0) [0|3] "" gateway
 SG_ first m1 : 8|16@1+ (0.1,0) [0|0] "" gateway
 SG_ second m2 : 8|8@1+ (1,0) [0|0] "" gateway
 SG_ level : 32|32@1- (1,0) [0|0] "" gateway
BO_ 178 OTHER: 8 car
 SG_ wheel : 0|8@1+ (1,0) [0|0] "" gateway
SIG_VALTYPE_ 2566844674 level : 1;
"""


class Recordings(Tables):
    """Rows of small recordings, in a folder of their own."""

    # ---- stamps and zeros

    def test_iso_stamps(self) -> None:
        """Stamps of every form and zone of ISO 8601 are read exactly."""
        forms = ["2026-03-29T00:58:00Z", "20260329T005800Z", "2026-03-29 01:58:00+01:00", "2026-03-28T23:58-01", "2026-03-29T00:58:00,000Z",
                 "2026-W13-7T00:58Z", "2026W137T005800Z", "2026-088T02:58:00 +0200", "2026088T00:58Z", "2026-03-29t00:58:00.000000000z"]
        for form in forms:
            with self.subTest(form=form):
                done = self.table(f't,v\n"{form}",1\n2026-03-29T00:58:00.123456789Z,2\n', "--unit", "iso", "--latency", "0")
                self.assertEqual(done.output, "time,seen,value\n0,0,1\n123456,123456,2\n", done.notes)
                self.assertIn("0 is the stamp 2026-03-29T00:58:00Z\n", done.notes)

    def test_iso_against_datetime(self) -> None:
        """Random stamps are those of datetime."""
        random.seed(5)
        for _ in range(300):
            stamp = datetime(1971, 1, 1, tzinfo=timezone.utc) + timedelta(microseconds=random.randrange(3 * 10**15))
            zone = timezone(timedelta(minutes=random.randrange(-14 * 60, 14 * 60, 15)))
            self.assertEqual(wall_time.seconds(stamp.astimezone(zone).isoformat()), Fraction(round(stamp.timestamp() * 10**6), 10**6))
            self.assertEqual(wall_time.seconds(wall_time.text_of(wall_time.seconds(stamp.isoformat()))), wall_time.seconds(stamp.isoformat()))

    def test_no_iso_stamps(self) -> None:
        """What is no stamp is refused with its line."""
        for stamp, why in [("2026-02-30T00:00Z", ": day is out of range for month"), ("2026-03-29T25:00Z", ": the time of day is out of range"),
                           ("29.03.2026 00:58", ", as 2026-03-29T00:58:00Z"), ("1774745880", ", as 2026-03-29T00:58:00Z"), ("", ", as 2026-03-29T00:58:00Z")]:
            with self.subTest(stamp=stamp):
                done = self.table(f"t,v\n2026-01-01T00:00Z,1\n{stamp},2\n", "--unit", "iso", "--latency", "0")
                self.refuses(done, f"t.csv:3: column t: `{stamp}` is no stamp of ISO 8601{why}")
        done = self.table("t,v\n2026-03-29 00:58:00,1\n", "--unit", "iso", "--latency", "0")
        self.refuses(done, "t.csv:2: column t: the stamp `2026-03-29 00:58:00` has no zone: --zone names it, as UTC or Europe/Berlin")
        done = self.table("t,v\n2026-03-29T00:58:00Z,1\n", "--unit", "s", "--latency", "0")
        self.refuses(done, "t.csv:2: column t: `2026-03-29T00:58:00Z` is no number; --unit iso reads stamps of ISO 8601")

    def test_local_stamps(self) -> None:
        """Stamps of a zone go on over the change of its clocks, forward and back; one that never was is refused."""
        try:
            wall_time.zone_of("Europe/Berlin")
        except Fault:
            self.skipTest("there is no data of time zones")
        words = ("--unit", "iso", "--zone", "Europe/Berlin", "--latency", "0")
        done = self.table("t,v\n2026-03-29T01:59:59,1\n2026-03-29T03:00:00,2\n", *words)
        self.assertEqual(done.output, "time,seen,value\n0,0,1\n1000000,1000000,2\n")
        self.assertIn("0 is the stamp 2026-03-29T00:59:59Z\n", done.notes)
        back = ["02:00:00", "02:30:00", "02:59:59", "02:00:00", "02:30:00", "03:00:00"]
        done = self.table("t,v\n" + "".join(f"2026-10-25T{time},1\n" for time in back), *words)
        seconds = [int(line.split(",")[0]) // 10**6 for line in done.output.splitlines()[1:]]
        self.assertEqual(seconds, [0, 1800, 3599, 3600, 5400, 7200])
        self.refuses(self.table("t,v\n2026-03-29T02:30:00,1\n", *words),
                     "t.csv:2: column t: the stamp `2026-03-29T02:30:00` never was: the clocks of Europe/Berlin were put forward over it")
        self.refuses(self.table("t,v\n", "--unit", "iso", "--zone", "Europe/Nowhere", "--latency", "0"),
                     "argument --zone: `Europe/Nowhere` is no time zone, as UTC, Europe/Berlin or +01:00")

    def test_zero_as_a_stamp(self) -> None:
        """--zero may be a stamp, for tables in any unit since 1970 and for CAN."""
        iso = self.table("t,v\n2026-03-29T00:58:01Z,1\n", "--unit", "iso", "--latency", "0", "--zero", "2026-03-29T00:58:00Z")
        self.assertEqual(iso.output, "time,seen,value\n1000000,1000000,1\n")
        for unit, factor in (("s", 1), ("ms", 1000), ("us", 10**6), ("ns", 10**9)):
            done = self.table(f"t,v\n{1774745881 * factor},1\n", "--unit", unit, "--latency", "0", "--zero", "2026-03-29 02:58:00+02")
            self.assertEqual(done.output, iso.output, done.notes)
            self.assertIn(", 2026-03-29T02:58:00+02:00\n", done.notes)
        (self.folder / "a.log").write_text("(1774745881.000000) can0 123#07\n")
        done = self.rows("candump", "a.log", "--id", "123", "--bytes", "0:1", "--latency", "0", "--zero", "2026-03-29T00:58:00Z")
        self.assertEqual(done.output, "time,seen,value\n1000000,1000000,7\n")
        self.refuses(self.table("t,v\n1,1\n", "--unit", "s", "--latency", "0", "--zero", "yesterday"),
                     "argument --zero: `yesterday` is neither a number nor a stamp as 2026-03-29T00:58:00Z")

    def test_the_zero_is_kept(self) -> None:
        """The wall time of 0 is kept beside the rows, and is removed if it isn't known any more."""
        zero = self.folder / "level.zero"
        self.table("t,v\n2026-03-29T00:58:00.5Z,1\n", "--unit", "iso", "--latency", "0", "-o", "level.csv")
        self.assertEqual(zero.read_text(), "2026-03-29T00:58:00Z\n")
        self.assertEqual(wall_time.read_zero(self.folder / "level.csv"), 1774745880)
        self.table("t,v\n5,1\n", "--unit", "s", "--latency", "0", "-o", "level.csv")
        self.assertFalse(zero.exists())
        self.table("t,v\n5,1\n", "--unit", "s", "--latency", "0", "--zero", "2", "--start", "2026-03-29T00:58:00Z", "-o", "level.csv")
        self.assertEqual(zero.read_text(), "2026-03-29T00:58:02Z\n")
        self.table("t,v\n1774745885,1\n", "--unit", "s", "--latency", "0", "--zero", "2026-03-29T02:58:02+02:00", "-o", "level.csv")
        self.assertEqual(zero.read_text(), "2026-03-29T02:58:02+02:00\n")
        shutil.copy(EXAMPLES / "canlog" / "drive.log", self.folder)
        self.rows("candump", "drive.log", "--id", "0A0", "--bytes", "0:2", "--order", "big", "--latency", "0", "-o", "speed.csv")
        self.assertEqual((self.folder / "speed.zero").read_text(), "2025-11-28T09:00:00Z\n")
        (self.folder / "a.log").write_text("(10.000000) can0 123#07\n")
        self.rows("candump", "a.log", "--id", "123", "--bytes", "0:1", "--latency", "0", "-o", "speed.csv")
        self.assertFalse((self.folder / "speed.zero").exists())

    def test_folders(self) -> None:
        """The folder of the rows is made; if it can't be, one line says so."""
        words = ("--unit", "s", "--latency", "0", "-o")
        self.assertEqual(self.table("t,v\n5,1\n", *words, "a/b/level.csv").status, 0)
        self.assertEqual((self.folder / "a" / "b" / "level.csv").read_text(), "time,seen,value\n5000000,5000000,1\n")
        self.refuses(self.table("t,v\n5,1\n", *words, "t.csv/level.csv"), "cannot make the folder t.csv: File exists")

    def test_two_zeros(self) -> None:
        """The sensors of a graph have one zero."""
        graph = {"actors": [{"kind": "sensor", "file": "a.csv"}, {"kind": "sensor", "file": "b.csv"}, {"kind": "add"}]}
        self.assertIsNone(wall_time.zero_of(graph, self.folder))
        (self.folder / "a.zero").write_text("2026-03-29T00:58:00Z\n")
        self.assertEqual(wall_time.zero_of(graph, self.folder), 1774745880)
        (self.folder / "b.zero").write_text("2026-03-29T00:59:00Z\n")
        with self.assertRaisesRegex(Fault, "a.zero has the zero 2026-03-29T00:58:00Z, and .*b.zero has 2026-03-29T00:59:00Z"):
            wall_time.zero_of(graph, self.folder)
        (self.folder / "b.zero").write_text("yesterday\n")
        with self.assertRaisesRegex(Fault, "b.zero: `yesterday` is no stamp"):
            wall_time.zero_of(graph, self.folder)

    # ---- cells without values, and preambles

    def test_cells_without_values(self) -> None:
        """Empty cells are counted; NaN is refused with the option that passes over it, and is counted then."""
        text = "t,v\n1,\n2,5\n3,NaN\n4,  \n5,nan\n6,7\n"
        self.refuses(self.table(text, "--unit", "us", "--latency", "0"), "t.csv:4: column v: `NaN` is no number; --missing NaN passes over such cells")
        done = self.table(text, "--unit", "us", "--latency", "0", "--missing", "NaN")
        self.assertEqual(done.output, "time,seen,value\n2,2,5\n6,6,7\n")
        self.assertIn("passed over: empty cells 2, cells `NaN` 1, cells `nan` 1\n", done.notes)

    def test_preamble(self) -> None:
        """Lines before the names and records of units are passed over; lines are counted from the first. What is needed is proposed."""
        text = "Logger 7\nSerial,12\n\nt,v\ns,bar\n1,5\n2,x\n"
        self.refuses(self.table(text, "--unit", "s", "--latency", "0"), "t.csv: no column `t`; its columns are Logger 7; line 4 has it: --preamble 3")
        self.refuses(self.table(text, "--unit", "s", "--latency", "0", "--preamble", "3", "--skip", "1"), "t.csv:7: column v: `x` is no number")
        done = self.table(text.replace("x", "6"), "--unit", "s", "--latency", "0", "--preamble", "3", "--skip", "1")
        self.assertEqual(done.output, "time,seen,value\n1000000,1000000,5\n2000000,2000000,6\n")
        done = self.table(text.replace("x", "6"), "--unit", "s", "--latency", "0", "--preamble", "3", "--skip", "1", "--row", "2")
        self.assertEqual(done.output, "row 2: time 2000000, seen 2000000, value 6\nt.csv:7: 2,6\n")

    # ---- files of CAN

    def dbc(self) -> None:
        """The DBC file, and the log of the example."""
        (self.folder / "car.dbc").write_text(DBC)
        shutil.copy(EXAMPLES / "canlog" / "drive.log", self.folder)

    def test_signals_in_one_pass(self) -> None:
        """Signals of a DBC file give the rows of the example, each in a file of its own with its zero."""
        self.dbc()
        done = self.rows("can", "drive.log", "--dbc", "car.dbc", "--signals", "speed,WHEEL.wheel", "--period", "20000", "--phase", "0", "-o", "data")
        self.assertEqual((done.status, done.output), (0, ""))
        for name in ("speed", "wheel"):
            self.assertEqual((self.folder / "data" / f"{name}.csv").read_bytes(), (EXAMPLES / "canlog" / f"{name}.csv").read_bytes())
            self.assertEqual((self.folder / "data" / f"{name}.zero").read_text(), "2025-11-28T09:00:00Z\n")
        self.assertIn("speed: this recording needs a bound of 823\n", done.notes)
        self.assertIn("wheel: this recording needs a bound of 792\n", done.notes)
        done = self.rows("can", "drive.log", "--dbc", "car.dbc", "--signals", "speed", "--period", "20000", "--phase", "0", "-o", "-")
        self.assertEqual(done.output, (EXAMPLES / "canlog" / "speed.csv").read_text())
        done = self.rows("can", "drive.log", "--dbc", "car.dbc", "--signals", "speed:10", "--raw", "--period", "20000", "--phase", "0", "-o", "-")
        values = [int(line.split(",")[2]) for line in (EXAMPLES / "canlog" / "speed.csv").read_text().splitlines()[1:]]
        self.assertEqual([int(line.split(",")[2]) for line in done.output.splitlines()[1:]], [value * 5 for value in values])

    def test_multiplexed_signals(self) -> None:
        """A multiplexed signal is taken from the frames that carry it alone; a float is one; factors are exact."""
        self.dbc()
        frames = ["01E803000000C03F", "0207", "010A000000004040", "0305"]
        (self.folder / "m.log").write_text("".join(f"({number}.000000) can0 18FEF102#{data}\n" for number, data in enumerate(frames)))
        words = ("can", "m.log", "--dbc", "car.dbc", "--latency", "0", "--zero", "0", "-o", "-", "--signals")
        self.assertEqual(self.rows(*words, "first").output, "time,seen,value\n0,0,100\n2000000,2000000,1\n")
        self.assertEqual(self.rows(*words, "second").output, "time,seen,value\n1000000,1000000,7\n")
        self.refuses(self.rows(*words, "level"), "m.log:2: the frame has 2 bytes, and the signal level needs 8")
        (self.folder / "m.log").write_text("(0.000000) can0 18FEF102#01E803000000C03F\n")
        self.refuses(self.rows(*words, "level"), "m.log:1: the value 1.5 is not whole: choose another --scale, or --round")
        self.assertEqual(self.rows(*words, "level:10").output, "time,seen,value\n0,0,15\n")

    def test_layouts(self) -> None:
        """Random layouts of both orders are decoded as bit after bit."""
        random.seed(7)
        for _ in range(400):
            size, little, signed = random.randrange(1, 33), random.random() < 0.5, random.random() < 0.5
            start = random.randrange(0, 64 - size + 1)
            first = start if little else 8 * (start // 8) + 7 - start % 8
            path = self.folder / "one.dbc"
            path.write_text(f'BO_ 1 M: 8 x\n SG_ s : {first}|{size}@{int(little)}{"-" if signed else "+"} (1,0) [0|0] "" x\n')
            data = random.randbytes(8)
            # The bits from the least; with the greatest byte first they are met from the greatest on.
            bits = [data[place // 8] >> (place % 8) & 1 for place in range(start, start + size)] if little else \
                   [data[place // 8] >> (7 - place % 8) & 1 for place in range(start, start + size)][::-1]
            number = sum(bit << place for place, bit in enumerate(bits)) - (bits[-1] << size if signed else 0)
            self.assertEqual(Fraction(*Database(str(path)).signal("s", 1, False).number(data)), number)

    def test_wrong_signals(self) -> None:
        """What isn't in the DBC file, or is there twice, is refused."""
        self.dbc()
        words = ("can", "drive.log", "--latency", "0", "--dbc", "car.dbc", "--signals")
        self.refuses(self.rows(*words, "sped"), "car.dbc: no signal sped; did you mean speed?")
        self.refuses(self.rows(*words, "wheel"), "car.dbc: several messages have a signal wheel: WHEEL.wheel, OTHER.wheel")
        self.refuses(self.rows(*words, "first"), "drive.log: no frame of 18FEF102; the identifiers in it are 0A0, 0B1, 18FEF100, 3D0")
        self.refuses(self.rows(*words, "speed,SPEED.speed"), "--signals names speed twice")
        self.refuses(self.rows(*words, "a b"), "argument --signals: `a b` is no list of signals, as pedal,wheel:10")
        self.refuses(self.rows("can", "drive.log", "--latency", "0", "--dbc", "drive.log", "--signals", "a"), "drive.log: no message (BO_) is in it: is it a DBC file?")
        self.refuses(self.rows("can", "drive.log", "--latency", "0", "--dbc", "car.dbc"), "--dbc and --signals go together")
        self.refuses(self.rows("can", "drive.log", "--latency", "0"), "--id and --bytes state where the signal is, or --dbc and --signals")
        self.assertEqual(sorted(path.name for path in self.folder.iterdir()), ["car.dbc", "drive.log"])

    def test_without_python_can(self) -> None:
        """Without python-can the line says which Python has none, and what to install."""
        (self.folder / "a.blf").write_bytes(b"LOGG")
        done = self.rows("can", "a.blf", "--id", "1", "--bytes", "0:1", "--latency", "0")
        self.assertEqual((done.status, done.output, done.notes.count("\n")), (1, "", 1))
        self.assertIn(f".blf needs the module can, which this Python, {sys.executable} (", done.notes)
        self.assertIn("Debian: apt-get install python3-can", done.notes)

    def test_files_of_python_can(self) -> None:
        """BLF, ASC, TRC and CSV that python-can writes give the rows of the log; other files are refused in one line."""
        python = next((each for each in (sys.executable, "/usr/bin/python3")
                       if shutil.which(each) and subprocess.run([each, "-c", "import can"], capture_output=True, check=False).returncode == 0), None)
        if python is None:
            self.skipTest("python-can isn't there")
        self.dbc()
        (self.folder / "convert.py").write_text("import can, sys\nwith can.LogReader('drive.log') as log:\n    messages = list(log)\n"
                                                "for name in ('drive.blf', 'drive.asc', 'drive.trc', 'drive.csv'):\n    with can.Logger(name) as writer:\n"
                                                "        for message in messages:\n            message.channel = None if name[-3:] == 'csv' else 1\n            writer(message)\n")
        done = run([python, "convert.py"], self.folder)
        self.assertEqual(done.status, 0, done.notes)
        wanted = (EXAMPLES / "canlog" / "speed.csv").read_text()
        # ASC and TRC count from the first frame, which is 20,188 us after the whole second, and TRC has tenths of a millisecond. BLF has
        # the start in milliseconds, so all its stamps are 188 us earlier.
        for name, words in (("drive.blf", ["--zero", "1764320399.999812", "--phase", "0"]), ("drive.csv", ["--phase", "0"]), ("drive.asc", ["--zero=-0.020188", "--phase", "0"]),
                            ("drive.trc", ["--zero=-0.020188", "--phase", "0"])):
            with self.subTest(name=name):
                done = run([python, TOP / "tools" / "ptides-rows", "can", name, "--dbc", "car.dbc", "--signals", "speed", "--period", "20000", *words, "-o", "-"], self.folder)
                self.assertEqual(done.status, 0, done.notes)
                found = [line.split(",") for line in done.output.splitlines()]
                if name == "drive.trc":
                    self.assertEqual([row[::2] for row in found], [line.split(",")[::2] for line in wanted.splitlines()])
                else:
                    self.assertEqual(done.output, wanted)
        for name, content in (("bad.blf", b"LOGG but no more"), ("bad.trc", b"1 2\n"), ("bad.xyz", b"")):
            (self.folder / name).write_bytes(content)
            with self.subTest(name=name):
                done = run([python, TOP / "tools" / "ptides-rows", "can", name, "--id", "1", "--bytes", "0:1", "--latency", "0"], self.folder)
                self.assertEqual((done.status, done.output, done.notes.count("\n")), (1, "", 1), done.notes)
                self.assertIn(name, done.notes)


if __name__ == "__main__":
    main()
