#!/usr/bin/env python3
"""Checks wall time in what `ptides wave` writes, where its views begin, and what it says of a large VCD."""
from __future__ import annotations

import json
import re

from counted import EXAMPLES, copied, main
from shown import WaveCase, records

BERLIN = ("--zero", "2026-03-29T00:59:59.998Z", "--zone", "Europe/Berlin")


class WaveTimes(WaveCase):
    """Waves with wall time, in a folder of their own."""

    def test_wall_time(self) -> None:
        """The zero beside a sensor file, or one that is stated, is in the picture, the table, the VCD and the trace, in its own zone."""
        folder = copied(EXAMPLES / "governor", self.folder)
        for kept, stated, wall, picture, zone in (("2026-03-29T00:58:00Z", "", "2026-03-29T00:58:00.0035Z", "00:58:00.002", "UTC"),
                                                  ("2026-03-29T02:58:00+02:00", "", "2026-03-29T02:58:00.0035+02:00", "02:58:00.002", "+02:00"),
                                                  ("", "2026-03-28T19:28:00-05:30", "2026-03-28T19:28:00.0035-05:30", "19:28:00.002", "-05:30")):
            (folder / "speed.zero").write_text(kept + "\n")
            if not kept:
                (folder / "speed.zero").unlink()
            words = ("--zero", stated) if stated else ()
            done = self.wave("graph.json", "--csv", "t.csv", "--wall", "--svg", "t.svg", "--vcd", "t.vcd", "--trace", "t.json", *words, folder=folder)
            with self.subTest(zero=kept + stated):
                self.assertEqual((done.status, done.notes), (0, ""))
                valve = next(each for each in records((folder / "t.csv").read_text()) if each["actor"] == "valve")
                self.assertEqual((valve["time"], valve["wall"]), ("3500", wall))
                self.assertIn(f">{picture}<", (folder / "t.svg").read_text())
                self.assertIn(f">{wall[:10]}, {zone}<", (folder / "t.svg").read_text())
                self.assertIn(f"$comment 0 is {kept or stated} $end", (folder / "t.vcd").read_text())
                self.assertEqual(json.loads((folder / "t.json").read_text())["otherData"]["zero"], kept or stated)

    def test_zones(self) -> None:
        """--zone shows wall time in another zone, over a change of its clocks too, and is that of a zero without one."""
        folder = EXAMPLES / "governor"
        found = records(self.wave("graph.json", "--csv", "-", "--wall", *BERLIN, folder=folder).output)
        walls = {each["time"]: each["wall"] for each in found if each["actor"] == "speed" and each["what"] == "event"}
        self.assertEqual((walls["1000"], walls["3000"]), ("2026-03-29T01:59:59.999+01:00", "2026-03-29T03:00:00.001+02:00"))
        self.assertIn(">2026-03-29, Europe/Berlin<", self.wave("graph.json", "--svg", "-", *BERLIN, folder=folder).output)
        found = records(self.wave("graph.json", "--csv", "-", "--wall", "--zero", "2026-03-29T01:58:00", "--zone", "+01:00", folder=folder).output)
        self.assertIn("2026-03-29T01:58:00.001+01:00", [each["wall"] for each in found])
        for words, line in [(("--zone", "+99:99"), "argument --zone: `+99:99` is no time zone, as UTC, Europe/Berlin or +01:00"),
                            (("--zone", "UTC"), "--zone: the wall time of 0 isn't known: --zero states it, and `ptides rows -o` keeps it beside a sensor file"),
                            (("--zero", "2026-03-29T01:58"), "the stamp `2026-03-29T01:58` has no zone: --zone names it, as UTC or Europe/Berlin")]:
            with self.subTest(words=words):
                self.assertEqual(self.wave("graph.json", "--svg", "-", *words, folder=folder), (1, "", f"ptides wave: {line}\n"))

    def test_times_without_a_date(self) -> None:
        """A run that goes on after the year 9999 is refused in a line, where it has to have wall times."""
        folder, zero = self.long_run(2, start=10**11), ("--zero", "9999-12-30T23:59:59Z")
        for words in (["--svg", "-"], ["--csv", "-", "--wall"]):
            with self.subTest(words=words):
                self.assertEqual(self.wave("graph.json", *words, *zero, folder=folder),
                                 (1, "", "ptides wave: a time of the run is before the year 1 or after the year 9999\n"))
        self.assertEqual(self.wave("graph.json", "--csv", "-", *zero, folder=folder).status, 0)

    def test_views_begin_with_the_first_change(self) -> None:
        """A run whose first event is late is shown from that event on, in the timeline and in GTKWave."""
        folder = self.long_run(20, start=100_000_000)
        self.wave("graph.json", "--vcd", "t.vcd", "--svg", "t.svg", folder=folder)
        view = (folder / "t.gtkw").read_text()
        self.assertEqual(re.search(r"\[timestart\] (\d+)", view)[1], "100000000")
        # The zoom is that of a run of 20 ms, and not of 100 s.
        self.assertLess(-float(re.search(r"^\*(-[0-9.]+) ", view, re.M)[1]), 14)
        self.assertIn("\n#100000000\n", (folder / "t.vcd").read_text())
        self.assertIn(">100,000,000<", (folder / "t.svg").read_text())
        self.wave("graph.json", "--vcd", "t.vcd", "--from", "99999000", folder=folder)
        self.assertIn("[timestart] 99999000\n", (folder / "t.gtkw").read_text())

    def test_a_large_vcd(self) -> None:
        """A VCD of more than 200,000 lines is written whole, and a line says how large it is; of a smaller one nothing is said."""
        folder = self.long_run(20_000)
        done = self.wave("graph.json", "--vcd", "t.vcd", folder=folder)
        lines = (folder / "t.vcd").read_text().count("\n")
        self.assertGreater(lines, 200_000)
        self.assertRegex(done.notes, rf"^ptides wave: the VCD has {lines:,} lines, [0-9.]+ MB; --from and --to take a part\n$")
        self.assertEqual((done.status, self.wave("graph.json", "--vcd", "t.vcd", "--to", "1000000", folder=folder).notes), (0, ""))

    def test_values_without_inner_signals(self) -> None:
        """Where inner signals are left out, the timeline has the values of sensors and receivers still: they are in the log."""
        text = self.wave("graph.json", "--svg", "-", "--no-inner", folder=EXAMPLES / "governor").output
        for title in ("speed at 1000.0, fired at the reading 1201, value 98", "down at 2500.0, fired at the reading 2951, value 4"):
            self.assertIn(f"<title>{title}</title>", text)
        self.assertIn("values 0 to 76</title>", self.wave("graph.json", "--svg", "-", "--no-inner", folder=self.long_run(200)).output)

    def test_many_messages(self) -> None:
        """Many messages are a band that can be seen, with a sign of its own in the legend."""
        folder = copied(EXAMPLES / "governor", self.folder)
        graph = json.loads((folder / "graph.json").read_text())
        sensor = next(actor for actor in graph["actors"] if actor["kind"] == "sensor")
        (folder / sensor["file"]).write_text("time,seen,value\n" + "".join(f"{number}000,{number}000,{number * 37 % 200}\n" for number in range(5000)))
        (folder / "graph.json").write_text(json.dumps({**graph, "until": 10**7}))
        text = self.wave("graph.json", "--svg", "-", folder=folder).output
        self.assertGreater(text.count('<line class="messages"'), 100)
        self.assertIn(">many messages<", text)
        self.assertNotIn('class="message"', text)
        opacity = float(re.search(r"\.messages{[^}]*opacity:([0-9.]+)", text)[1])
        self.assertGreaterEqual(opacity, 0.5)


if __name__ == "__main__":
    main()
