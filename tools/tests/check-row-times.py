#!/usr/bin/env python3
"""Checks what `ptides rows` does with rows of one time, and which phases it proposes."""
from __future__ import annotations

import random
import sys

from counted import TOP, main
from recorded_tables import Tables

sys.path.insert(0, str(TOP / "python"))
from ptides.recordings import sensor_files  # noqa: E402


class RowTimes(Tables):
    """Times by a period, in a folder of their own."""

    def test_last_of_one_time(self) -> None:
        """--last takes the last of several rows of one time, and counts the others; also of two edges in one microsecond."""
        done = self.table("t,v\n100,1\n150,2\n199,3\n200,4\n", "--unit", "us", "--period", "100", "--phase", "0", "--last")
        self.assertEqual(done.output, "time,seen,value\n100,199,3\n200,200,4\n")
        self.assertIn("passed over: rows before the last of one time 2\n", done.notes)
        (self.folder / "e.vcd").write_text("$timescale 100ns $end $var wire 1 ! a $end $enddefinitions $end\n#10 1!\n#14 0!\n#30 1!\n")
        words = ("vcd", "e.vcd", "--signal", "a", "--latency", "0")
        self.refuses(self.rows(*words), "e.vcd:3: two rows of one time: 1 is also the time of line 2; --last takes the last of them")
        self.assertEqual(self.rows(*words, "--last").output, "time,seen,value\n1,1,0\n3,3,1\n")

    def test_a_phase_is_proposed(self) -> None:
        """A period without a phase, and two rows of one time, name the phases that fit."""
        text = "t,v\n" + "".join(f"{1000 * number + 300 + wait},1\n" for number, wait in enumerate((0, 90, 400, 30, 250), 1))
        self.refuses(self.table(text, "--unit", "us", "--period", "1000"), "--period and --phase go together: --phase 0 gives each row a time of its own "
                     "(as do those from -299 to 300)")
        self.refuses(self.table(text, "--unit", "us", "--period", "1000", "--phase", "500"),
                     "t.csv:5: two rows of one time: 3500 is also the time of line 4; --phase 0 gives each row a time of its own (as do those from -299 to 300), "
                     "and --last takes the last of them")
        self.assertEqual(self.table(text, "--unit", "us", "--period", "1000", "--phase", "0").status, 0)
        self.refuses(self.table("t,v\n1,1\n2,1\n3,1\n", "--unit", "us", "--period", "1000"), "--period and --phase go together")

    def test_a_phase_with_a_much_smaller_bound(self) -> None:
        """Where a phase needs at most half of the bound, the proposal names it, and so does the report of the phase that is used."""
        text = "t,v\n" + "".join(f"{1000 * number + 700 + wait},1\n" for number, wait in enumerate((0, 90, 30, 50), 1))
        better = "with --phase 700 a bound of 90 is enough, instead of 790"
        self.refuses(self.table(text, "--unit", "us", "--period", "1000"), "--period and --phase go together: --phase 0 gives each row a time of its own "
                     f"(as do those from -209 to 700); {better}")
        done = self.table(text, "--unit", "us", "--period", "1000", "--phase", "0")
        self.assertEqual((done.status, done.notes.splitlines()[-2:]), (0, [better, "this recording needs a bound of 790"]))
        done = self.table(text, "--unit", "us", "--period", "1000", "--phase", "700")
        self.assertIn("this recording needs a bound of 90\n", done.notes)
        self.assertNotIn("--phase", done.notes)
        done = self.table(text, "--unit", "us", "--period", "1000", "--phase", "800", "--latency", "60")
        self.assertIn("with --phase 640 a bound of 150 is enough, instead of 990\n", done.notes)
        self.assertIn("this recording needs a bound of 150\n", self.table(text, "--unit", "us", "--period", "1000", "--phase", "640", "--latency", "60").notes)

    def test_a_phase_for_several_signals(self) -> None:
        """Of several signals the phase that is proposed fits all; rows before the first time that it gives are left out by --from."""
        (self.folder / "car.dbc").write_text('BO_ 1 A: 1 x\n SG_ a : 0|8@1+ (1,0) [0|0] "" x\nBO_ 2 B: 1 x\n SG_ b : 0|8@1+ (1,0) [0|0] "" x\n')
        words = ("can", "d.log", "--dbc", "car.dbc", "--signals", "a,b", "--zero", "1", "-o", "data", "--period", "1000")
        for first, phase in ((300, "--phase 0"), (900, "--phase 950 --from 950")):
            stamps = [(1_000_000 + 1000 * number + first + wait + 50 * signal, signal) for number, wait in enumerate((0, 90, 30)) for signal in (1, 2)]
            stamps += [(1_000_000 + 2, 1)] if first == 900 else []
            (self.folder / "d.log").write_text("".join(f"({stamp // 10**6}.{stamp % 10**6:06}) can0 00{signal}#07\n" for stamp, signal in sorted(stamps)))
            with self.subTest(first=first):
                self.refuses(self.rows(*words), f"--period and --phase go together: {phase} gives each row of each signal a time of its own")
                self.assertEqual(self.rows(*words, *phase.split()).status, 0)

    def test_proposed_phases_fit(self) -> None:
        """Of random stamps with jitter all phases that are proposed give each row a time of its own, and no other does."""
        random.seed(3)
        for _ in range(200):
            period, jitter, start = random.randrange(10, 60), random.randrange(1, 50), random.randrange(0, 100)
            stamps = [start + period * number + random.randrange(jitter) for number in range(8)]
            found = sensor_files.phases(stamps, period, 0)
            fit = [phase for phase in range(period) if len({(stamp - phase) // period for stamp in stamps}) == len(stamps)]
            self.assertTrue(found is None or set(phase % period for phase in found) <= set(fit))
            self.assertTrue(found is not None or jitter > 1)
            if jitter < period // 2:
                self.assertIn(start % period, set(phase % period for phase in found))


if __name__ == "__main__":
    main()
