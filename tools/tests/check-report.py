#!/usr/bin/env python3
"""Checks `ptides report`: what is on the page, its size, and in Debian's chromium that it can be read and used."""
from __future__ import annotations

import base64
import hashlib
import json
import os
import random
import re
import shutil
import subprocess
import sys
import tempfile
import unittest.mock
from pathlib import Path

import pythons

pythons.prefer("selenium")
sys.path.insert(0, str(pythons.PACKAGE))

import browser  # noqa: E402
import papers  # noqa: E402
from counted import EXAMPLES, GRAPHS, TOP, Case, Done, blocks_of, companion, copied, main, ptides  # noqa: E402

from ptides.reporting import series  # noqa: E402

NETWORK = EXAMPLES / "network"
HAS_DYGRAPHS = Path("/usr/share/javascript/dygraphs/dygraph.min.js").exists()
ZERO = "2026-03-29T00:58:00Z"


def graph_of(until: int, slack: int) -> dict:
    """A graph with a sensor, two inner signals and an actuator."""
    actors = [{"name": "level", "platform": "plant", "kind": "sensor", "file": "level.csv", "bound": 200},
              {"name": "double", "platform": "plant", "kind": "scale", "num": 2, "den": 1},
              {"name": "more", "platform": "plant", "kind": "shift", "by": 2},
              {"name": "pump", "platform": "plant", "kind": "actuator", "slack": slack}]
    wires = [["level", 0, "double", 0], ["double", 0, "more", 0], ["more", 0, "pump", 0]]
    return {"ptides": 1, "until": until, "clock_error": 0, "platforms": ["plant"], "actors": actors, "wires": wires, "links": []}


def coded(page: str, key: str = "run") -> dict:
    """The data of a run on a page."""
    return json.loads(re.search(f'<script type="application/json" id="data-{key}">(.*?)</script>', page, re.DOTALL)[1])


@unittest.skipUnless(HAS_DYGRAPHS, "libjs-dygraphs isn't there")
class Report(Case):
    """The page, as it is written."""

    def setUp(self) -> None:
        self.folder = Path(tempfile.mkdtemp())
        self.addCleanup(shutil.rmtree, self.folder)

    def has(self, page: str, *texts: str) -> None:
        """The page has these texts."""
        for text in texts:
            self.assertTrue(text in page, f"the page doesn't have {text}")

    def report(self, *words: object, folder: Path) -> tuple[Done, str]:
        """How the companion ends, and the page."""
        file = self.folder / "page.html"
        file.unlink(missing_ok=True)
        done = companion("report", *words, "-o", file, folder=folder)
        return done, file.read_text() if file.exists() else ""

    def long_run(self, count: int, slack: int) -> Path:
        """A folder with a graph and a number of rows."""
        (self.folder / "graph.json").write_text(json.dumps(graph_of(count * 10_000, slack)))
        rows = (f"{number * 10_000},{number * 10_000 + 150 + number % 7},{(number * number) % 1009}\n" for number in range(count))
        (self.folder / "level.csv").write_text("time,seen,value\n" + "".join(rows))
        return self.folder

    def test_examples(self) -> None:
        """Of each example: the status of the run, each actor with its events, and nothing from elsewhere."""
        for folder in GRAPHS:
            with self.subTest(example=folder.name):
                wanted = ptides("run", "graph.json", *blocks_of(folder), folder=folder)
                done, page = self.report("graph.json", *blocks_of(folder), folder=folder)
                self.assertEqual((done.status, done.output, done.notes), (wanted.status, "", ""))
                graph = json.loads((folder / "graph.json").read_text())
                signals = [each for each in coded(page)["signals"] if each["group"] == "trends"]
                self.assertEqual({each["name"].split(",")[0] for each in signals}, {actor["name"] for actor in graph["actors"]})
                counted = sum(len(each["t"]) for each in signals if each["kind"] == "actuator")
                self.assertEqual(counted, len(wanted.output.splitlines()) - 1)
                # No address but names of XML and of licences, and nothing that is loaded.
                self.assertEqual(re.findall(r"(?:src|href)=[\"']?(?!#)[^\"' >]+", re.sub(r"<script>.*?</script>", "", page, flags=re.DOTALL)), [])
                self.has(page, "default-src 'none'", *wanted.notes.splitlines())

    def test_what_was_run(self) -> None:
        """The command, the version, the digests of the sources and of all files, and the licence of the library."""
        done, page = self.report("graph.json", folder=EXAMPLES / "governor")
        version = ptides("--version", folder=TOP).output.splitlines()[:3]
        self.has(page, "$ ptides run graph.json", "<td>graph.json</td>", "<td>speed.csv (speed)</td>", "Permission is hereby granted", *version)
        self.has(page, hashlib.sha256((EXAMPLES / "governor/speed.csv").read_bytes()).hexdigest())
        os.environ["SOURCE_DATE_EPOCH"] = "315532800"
        self.addCleanup(os.environ.pop, "SOURCE_DATE_EPOCH")
        pages = {self.report("graph.json", folder=EXAMPLES / "governor")[1] for _ in range(2)}
        self.assertEqual(len(pages), 1)
        self.has(pages.pop(), "at 1980-01-01 00:00:00 UTC")

    def test_names(self) -> None:
        """The title says which graph it is, and files are named as they were given; the page takes the place of none of them."""
        folder = copied(EXAMPLES / "governor", self.folder / "mine")
        for words, title in ((["graph.json"], "mine/graph.json"), (["graph.json", "--title", "review"], "review"),
                             ([folder / "graph.json"], str(folder / "graph.json"))):
            self.has(self.report(*words, folder=folder)[1], f"<title>{title}</title>", f"<h1>{title}</h1>", f"$ ptides run {words[0]}\n")
        shutil.copytree(EXAMPLES / "stand", self.folder / "stand")
        _, page = self.report("scenarios/a_lost", folder=self.folder / "stand")
        self.has(page, "<title>scenarios/a_lost</title>", "<td>graph.json</td>", "$ ptides bench scenarios/a_lost")
        self.has(self.report("scenarios", folder=self.folder / "stand")[1], "<title>stand/scenarios</title>")
        for name in ("graph.json", "speed.csv", "../mine/graph.json"):
            before = (folder / name).read_bytes()
            done = companion("report", "graph.json", "-o", name, folder=folder)
            self.assertEqual((done.status, done.notes), (1, f"ptides report: the page can't be written to {name}, which is a file of the run\n"))
            self.assertEqual((folder / name).read_bytes(), before)

    def test_graph_and_growth(self) -> None:
        """The picture with offsets and margins, and how far each number may grow."""
        _, page = self.report("graph.json", folder=EXAMPLES / "missed")
        if shutil.which("dot"):
            self.has(page, "<svg ", ">margin &#45;101<")
        self.has(page, '<td>pressure</td><td class="number">400</td><td class="number">99</td><td>panel misses its time</td>', "bound of pressure",
                 "line 6: margin -101", "missed valve at 4000.0, reading 4401 past 4300")

    def test_network(self) -> None:
        """A replay has each transit, the delay of the link, and the lags of the clocks."""
        done, page = self.report("replay", "graph.json", "air.csv", folder=NETWORK)
        self.assertEqual(done.status, 0)
        transits = next(each for each in coded(page)["signals"] if each["group"] == "network")
        self.assertEqual((transits["limit"], len(transits["t"]), transits["v"][0]), (400, 16, 305))
        self.has(page, '<td>panel</td><td class="number">35</td>')

    def test_late(self) -> None:
        """A late message or row ends the run with 4; the page has the values of the definition, with a mark, and what `explain` says."""
        done, page = self.report("replay", "../../graph.json", "air.csv", folder=NETWORK / "scenarios/slow_frame")
        self.assertEqual((done.status, done.notes), (4, "late down at 3500.0, reading 4166 past 3950, air row 4\n"))
        signals = {(each["group"], each["name"]): each for each in coded(page)["signals"]}
        self.assertEqual(signals["trends", "down"]["late"], [2])
        self.assertEqual(signals["network", "up"]["missed"], [2])
        self.has(page, "a delay of 1900 takes all transits")
        done, page = self.report("graph.json", folder=EXAMPLES / "refused/late_row")
        self.assertEqual(done.status, 4)
        self.assertEqual([each["late"] for each in coded(page)["signals"] if "late" in each], [[1]])

    def test_refused(self) -> None:
        """Other refusals give the line and the status of the program, and no page; so do bad words."""
        self.passes_refusals_on("report")
        self.refuses_bad_input("report")
        for words, line in ((("replay", "graph.json"), "replay takes a graph and an air file"),
                            (("replay", "graph.json", "no.csv"), "air: cannot read no.csv: No such file or directory"),
                            (("graph.json", "--zero", "tomorrow"), "--zero: `tomorrow` is no stamp"), (("a", "b"), "run takes one graph"),
                            (("graph.json", "--zone", "Nowhere"), "--zone: `Nowhere` is no time zone"), (("",), "cannot read .: Is a directory"),
                            (("graph.json", "--clock", "sundial"), "START from 0 and STEP from 1, to 10^15; not `--clock sundial`"),
                            (("graph.json", "--zero", "9999-12-31T23:59:59.999999Z"), "--zero: `9999-12-31T23:59:59.999999Z` is no stamp"),
                            (("graph.json", "-o", "/nowhere/x.html"), "cannot write /nowhere/x.html")):
            done = companion("report", *words, folder=EXAMPLES / "basic")
            self.assertEqual((done.status, done.output, done.notes.count("\n")), (1, "", 1))
            self.assertIn(line, done.notes)
        for words, folder, line in ((["graph.json"], self.folder, "sensor s: cannot read s.csv: No such file or directory"),
                                    (["basic/graph.json"], EXAMPLES, "sensor s: cannot read s.csv: No such file or directory; "
                                     "it is beside the graph: ptides -C basic report graph.json")):
            (self.folder / "graph.json").write_bytes((EXAMPLES / "basic/graph.json").read_bytes())
            self.assertEqual(companion("report", *words, folder=folder), (7, "", f"ptides report: {line}\n"))
        with unittest.mock.patch.dict(os.environ, SOURCE_DATE_EPOCH="soon"):
            self.assertEqual(self.report("graph.json", folder=EXAMPLES / "basic")[0],
                             (1, "", "ptides report: SOURCE_DATE_EPOCH: `soon` is no number of seconds since the start of 1970\n"))
        os.environ["PTIDES_DYGRAPHS"] = "/nowhere"
        self.addCleanup(os.environ.pop, "PTIDES_DYGRAPHS")
        done, page = self.report("graph.json", folder=EXAMPLES / "basic")
        self.assertEqual((done.status, page), (1, ""))
        self.assertIn("apt-get install libjs-dygraphs", done.notes)

    def test_zone(self) -> None:
        """The clock on the wall is of the zone of the zero, stated or kept beside the rows, unless another zone is named."""
        shift = copied(EXAMPLES / "shift", self.folder / "shift")
        for words, offsets, until in ((["--zero", "2026-03-28T22:00:00+01:00"], [1], "05:00:00"), ([], [1], "05:00:00"), (["--zone", "UTC"], [0], "04:00:00"),
                                      (["--zone", "Europe/Berlin"], [1, 2], "06:00:00"), (["--zero", "2026-03-28T21:00:00Z"], [0], "04:00:00")):
            with self.subTest(words=words):
                done, page = self.report("graph.json", *words, folder=shift)
                self.assertEqual((done.status, done.notes), (0, ""))
                self.assertEqual([offset // 3_600_000_000 for _, offset in coded(page)["zero"]["offsets"]], offsets)
                self.has(page, f"2026-03-29 {until}.000000 (25,200,000,000 us)")
                zone = {(1,): "+01:00", (0,): "UTC", (1, 2): "Europe/Berlin"}[tuple(offsets)]
                self.has(page, f"Times are those of a clock on the wall of the zone {zone}; the zero")
        (shift / "graph.json").write_text(json.dumps({**json.loads((shift / "graph.json").read_text()), "until": 172_800_000_000}))
        self.assertEqual(self.report("graph.json", "--zero", "9999-12-30T23:59:59.5Z", folder=shift)[0],
                         (1, "", "ptides report: with the zero 9999-12-30T23:59:59.5Z a time of the run is before the year 1 or after the year 9999\n"))

    def test_size(self) -> None:
        """200,000 firings give at most 5 MB with all events; where there are more, outlines that keep the least and the greatest."""
        folder = self.long_run(50_000, 500)
        done, page = self.report("graph.json", folder=folder)
        self.assertEqual(done.status, 0)
        self.assertLess(len(page), 5_000_000)
        counts = {each["name"]: len(each["t"]) for each in coded(page)["signals"] if each["group"] == "trends"}
        self.assertEqual(counts, {"level": 50_000, "double": 50_000, "more": 50_000, "pump": 50_000})
        self.assertNotIn("Not shown", page)
        noise = random.Random(7)
        signals = [series.Signal(f"n{number}", "p", "inner", "trends", sorted(noise.sample(range(10**9), 50_000)),
                                 [noise.getrandbits(60) for _ in range(50_000)], missed=[1, 49_999]) for number in range(8)]
        text, outlines = series.fitted(signals, 1_000_000)
        self.assertTrue(len(text) <= 1_000_000 and outlines == 8)
        for each, signal in zip(json.loads(text), signals):
            values = list(map(int, each["v"]))
            self.assertEqual((min(values), max(values), each["of"], len(each["missed"])), (min(signal.values), max(signal.values), 50_000, 2))

    def test_half_the_room(self) -> None:
        """Inner signals are watched in several runs, if one would be too long."""
        _, page = self.report("graph.json", folder=self.long_run(35_000, 500))
        counts = {each["name"]: len(each["t"]) for each in coded(page)["signals"] if each["group"] == "trends"}
        self.assertEqual(counts, dict.fromkeys(("level", "double", "more", "pump"), 35_000))

    def test_scenarios(self) -> None:
        """All scenarios of a folder on one page, with the verdicts of `bench`."""
        folder = self.folder / "stand"
        shutil.copytree(EXAMPLES / "stand", folder)
        for path in folder.rglob("*"):
            path.chmod(0o755 if path.is_dir() else 0o644)
        table = folder / "scenarios/a_lost/expected.csv"
        table.write_text(table.read_text().replace(",0,1\n", ",0,2\n", 1))
        done, page = self.report("scenarios", folder=folder)
        self.assertEqual((done.status, done.notes), (1, ""))
        self.has(page, "10 of 11 scenarios gave what is stored", '<a href="#s0">a_lost</a></td><td><span class="failed">failed</span>',
                 "expected `warning,430000,0,2`, found `warning,430000,0,1`")
        self.assertEqual(page.count('<span class="ok">ok</span></summary>'), 10)
        parts = {name: re.search(f'<section id="{name}">(.*?)</section>', page, re.DOTALL)[1] for name in ("summary", "missed")}
        self.has(parts["missed"], '<a href="#s8">slow_link</a></td><td>fuel_cut</td><td class="number">1</td><td class="number">1</td><td class="number">551</td>',
                 '<a href="#s6">oil_late</a></td><td><code>late oil row 6, seen 645000 past 640000</code>', "<code>sensor pickup_b: time order at row 31</code>")
        self.assertEqual(parts["missed"].count("<tr>"), 2 + 1 + 3)
        done, page = self.report("scenarios/normal", folder=folder)
        self.assertEqual(done.status, 0)
        self.has(page, "Nothing was missed, late or refused.")
        # Sensor files with different zeros are no reason for no page.
        (folder / "scenarios/normal/oil.zero").write_text("2026-03-29T00:58:00Z\n")
        (folder / "scenarios/normal/pickup_a.zero").write_text("2026-03-29T00:58:01Z\n")
        done, page = self.report("scenarios/normal", folder=folder)
        self.assertEqual(done.status, 0)
        self.has(page, "pickup_a has the zero 2026-03-29T00:58:01Z, and oil has 2026-03-29T00:58:00Z")
        done = companion("report", "scenarios/normal", "--zone", "Nowhere", folder=folder)
        self.assertEqual((done.status, done.notes), (1, "ptides report: --zone: `Nowhere` is no time zone, as UTC, Europe/Berlin or +01:00\n"))


@unittest.skipUnless(HAS_DYGRAPHS and not browser.missing(), browser.missing() or "libjs-dygraphs isn't there")
class Use(Case):
    """What a reader does with the page, in chromium."""

    @classmethod
    def setUpClass(cls) -> None:
        cls.place = Path(tempfile.mkdtemp())
        cls.addClassCleanup(shutil.rmtree, cls.place)
        missed = copied(EXAMPLES / "tank", cls.place / "tank")
        graph = json.loads((missed / "graph.json").read_text())
        for actor in graph["actors"]:
            actor.update({"slack": 5000} if actor["kind"] == "actuator" else {})
        (missed / "graph.json").write_text(json.dumps(graph))
        cls.statuses = {name: companion("report", *words, "--zero", ZERO, "-o", cls.place / f"{name}.html", folder=folder).status for name, words, folder in (
            ("canlog", ["graph.json"], EXAMPLES / "canlog"), ("missed", ["graph.json"], missed), ("stand", ["scenarios"], EXAMPLES / "stand"),
            ("network", ["replay", "graph.json", "air.csv"], NETWORK))}
        words = ["graph.json", "--zero", "2026-03-29T00:59:59.9965Z", "--zone", "Europe/Berlin", "-o", cls.place / "forward.html"]
        companion("report", *words, folder=EXAMPLES / "governor")
        cls.browser = browser.Browser()
        cls.addClassCleanup(cls.browser.driver.quit)

    def open(self, name: str) -> None:
        """Goes to a page, and waits until its trends are drawn."""
        self.browser.complaints()
        self.browser.open(self.place / f"{name}.html")
        self.until("return document.querySelectorAll('.trend canvas').length > 0 || document.querySelector('details[data-key]') !== null")

    def until(self, script: str) -> None:
        """Waits until a script gives something."""
        from selenium.webdriver.support.ui import WebDriverWait

        WebDriverWait(self.browser.driver, 20).until(lambda driver: driver.execute_script(script))

    def window(self) -> tuple[int, int]:
        """The part of the time axis that is shown."""
        return tuple(map(int, self.browser.run("const {first, last} = document.querySelector('[data-key]').dataset; return [first, last]")))

    def drawn(self) -> str:
        """What is drawn of the first trend."""
        return self.browser.run("return document.querySelector('.trend canvas').toDataURL()")

    def test_no_complaints(self) -> None:
        """Each page is drawn without a word on the console, by a browser that has no network."""
        for name in self.statuses:
            self.open(name)
            self.browser.run("scrollTo(0, document.body.scrollHeight)")
            self.browser.run("document.querySelectorAll('details').forEach(each => each.open = true)")
            self.until("return [...document.querySelectorAll('[data-key]')].every(each => report.runs.has(each.dataset.key))")
            self.assertEqual(self.browser.complaints(), [])
            self.assertEqual(self.browser.run("return performance.getEntriesByType('resource').length"), 0)

    def test_lines_are_drawn(self) -> None:
        """A trend has points in its colour, and where an actor gives nothing there are none."""
        self.open("canlog")
        pixels = self.browser.run("""
            const canvas = document.querySelector('.trend canvas');
            const data = canvas.getContext('2d').getImageData(0, 0, canvas.width, canvas.height).data;
            let count = 0;
            for (let at = 0; at < data.length; at += 4) if (data[at + 2] > 180 && data[at] < 80 && data[at + 3] > 200) count++;
            return count""")
        self.assertGreater(pixels, 500)

    def test_keys(self) -> None:
        """Without a mouse: zoom, move, all, and from event to event."""
        self.open("canlog")
        whole, picture = self.window(), self.drawn()
        self.browser.run("document.querySelector('.trend').focus()")
        self.browser.keys("+")
        half = self.window()
        self.assertAlmostEqual(half[1] - half[0], (whole[1] - whole[0]) / 2, delta=2)
        self.assertNotEqual(self.drawn(), picture)
        from selenium.webdriver.common.keys import Keys

        self.browser.keys(Keys.ARROW_LEFT)
        self.assertLess(self.window()[0], half[0])
        self.browser.keys(Keys.HOME)
        self.assertEqual((self.window(), self.drawn()), (whole, picture))
        self.browser.keys("nn")
        self.assertEqual(self.browser.run("return report.runs.get('run').cursor"), 40_000)
        self.assertIn("4040 at 00:58:00.040000, seen 297 us after", self.browser.run("return document.querySelector('.trend .value').textContent"))
        self.browser.keys("p")
        self.assertEqual(self.browser.run("return report.runs.get('run').cursor"), 20_000)
        # All can be reached by the tabulator.
        self.assertEqual(self.browser.run("return [...document.querySelectorAll('button,input,a,.trend')].filter(each => each.tabIndex < 0).length"), 0)

    def test_mouse(self) -> None:
        """By dragging one zooms all trends; a double click shows all; one cursor goes through all."""
        from selenium.webdriver.common.action_chains import ActionChains
        from selenium.webdriver.common.by import By

        self.open("canlog")
        whole = self.window()
        self.browser.run("document.querySelector('.trend').scrollIntoView()")
        chart = self.browser.driver.find_element(By.CSS_SELECTOR, ".trend .chart")
        chain = ActionChains(self.browser.driver)
        chain.move_to_element_with_offset(chart, -100, 0).click_and_hold().move_by_offset(200, 0).release().perform()
        self.until("return document.querySelector('[data-key]').dataset.first > 100000")
        first, last = self.window()
        self.assertTrue(whole[0] < first < last < whole[1])
        ranges = self.browser.run("""
            const trends = [...document.querySelectorAll('.trend')].map(each => each.trend);
            return [...new Set(trends.filter(trend => trend.graph).map(trend => String(trend.graph.xAxisRange())))]""")
        self.assertEqual(len(ranges), 1)
        lines = self.browser.run("""
            const shown = [...document.querySelectorAll('.trend .cursor')].filter(each => !each.hidden);
            return [...new Set(shown.map(each => Math.round(parseFloat(each.style.left))))]""")
        self.assertEqual(len(lines), 1)
        ActionChains(self.browser.driver).double_click(chart).perform()
        self.until(f"return document.querySelector('[data-key]').dataset.last == {whole[1]}")

    def test_fields(self) -> None:
        """A time of the clock on the wall can be typed."""
        self.open("canlog")
        self.browser.run("const [from, to] = document.querySelectorAll('.toolbar input[type=text]');"
                         "from.value = '2026-03-29 00:58:00.4'; to.value = '00:58:00.6'; to.dispatchEvent(new Event('change'))")
        self.assertEqual(self.window(), (400_000, 600_000))
        self.browser.run("const [from] = document.querySelectorAll('.toolbar input[type=text]'); from.value = 'soon'; from.dispatchEvent(new Event('change'))")
        self.assertEqual(self.window(), (400_000, 600_000))
        labels = self.browser.run("return [...document.querySelectorAll('.trend .dygraph-axis-label-x')].map(each => each.textContent)")
        self.assertIn("00:58:00.50", labels)

    def test_a_clock_that_is_put_forward(self) -> None:
        """In the night in which an hour is left out, the clock on the wall goes from 2 to 3."""
        self.open("forward")
        self.assertEqual(self.browser.run("const {clock} = report.runs.get('run'); return [3499, 3500].map(time => clock.text(time))"),
                         ["2026-03-29 01:59:59.999999", "2026-03-29 03:00:00.000000"])
        labels = self.browser.run("return report.runs.get('run').clock.ticks(2000, 4500, 1100).map(tick => tick.label)")
        self.assertEqual(labels[:4], ["", "01:59:59.9990", "01:59:59.9995", "03:00:00.0000"])

    def test_a_missed_entry(self) -> None:
        """It is found by its text, and its button goes there."""
        self.assertEqual(self.statuses["missed"], 5)
        self.open("missed")
        line = ptides("run", "graph.json", folder=self.place / "tank").notes.splitlines()[-1]
        self.assertTrue(self.browser.run("return window.find(arguments[0])", line))
        self.browser.run("const search = document.querySelector('[data-part=search]'); search.value = arguments[0];"
                         "search.dispatchEvent(new Event('input'))", line)
        self.assertEqual(self.browser.run("return document.querySelector('[data-part=found]').textContent"), "1 fit")
        self.assertEqual(self.browser.run("return document.querySelector('[data-part=misses] tbody td').textContent"), line)
        self.browser.run("document.querySelector('[data-part=misses] tbody button').click()")
        time = int(re.search(r" at (\d+)\.", line)[1])
        first, last = self.window()
        self.assertTrue(first < time < last)
        self.assertEqual(self.browser.run("return report.runs.get('run').cursor"), time)
        self.assertEqual(self.browser.run("return document.activeElement.querySelector('h4').firstChild.textContent"), line.split()[1])

    def test_filter(self) -> None:
        """Trends are chosen by a part of the name, and by what they are."""
        self.open("canlog")
        count = "return [...document.querySelectorAll('[data-part=trends] .trend')].filter(each => !each.hidden).map(each => each.trend.signal.name)"
        self.browser.run("const search = document.querySelector('.toolbar input[type=search]'); search.value = 'spe'; search.dispatchEvent(new Event('input'))")
        self.assertEqual(self.browser.run(count), ["speed"])
        self.browser.run("const search = document.querySelector('.toolbar input[type=search]'); search.value = ''; search.dispatchEvent(new Event('input'))")
        self.browser.run("document.querySelector('.toolbar input[value=inner]').click()")
        self.assertEqual(self.browser.run(count), ["speed", "wheel", "up", "stuck", "lost", "down", "lamp"])

    def test_scenarios(self) -> None:
        """A scenario opens by its link, and draws its trends then."""
        self.open("stand")
        self.browser.run("document.querySelector('a[href=\"#s1\"]').click()")
        self.until("return document.querySelectorAll('#s1 .trend canvas').length > 0")
        self.assertEqual(self.browser.run("return [...report.runs.keys()]"), ["s1"])

    def test_dark(self) -> None:
        """In the dark the paper is dark and the text is light."""
        colours = {}
        for scheme in ("dark", "light"):
            self.browser.devtools("Emulation.setEmulatedMedia", features=[{"name": "prefers-color-scheme", "value": scheme}])
            self.open("canlog")
            colours[scheme] = self.browser.run("const style = getComputedStyle(document.body); return [style.backgroundColor, style.color]")
        self.assertEqual(colours, {"dark": ["rgb(11, 17, 32)", "rgb(226, 232, 240)"], "light": ["rgb(255, 255, 255)", "rgb(15, 23, 42)"]})

    def printed(self) -> Path:
        """The page on paper."""
        file = self.place / "page.pdf"
        file.write_bytes(base64.b64decode(self.browser.devtools("Page.printToPDF", printBackground=True, preferCSSPageSize=True)["data"]))
        return file

    def test_print(self) -> None:
        """On paper every trend that is chosen is drawn, in the colours for light, without buttons; then all is as before."""
        self.need("pdftotext")
        self.need("pdftoppm")
        self.browser.devtools("Emulation.setEmulatedMedia", features=[{"name": "prefers-color-scheme", "value": "dark"}])
        for name in ("missed", "stand"):
            with self.subTest(page=name):
                self.open(name)
                trends = papers.trends(self.printed())
                self.assertGreater(len(trends), 10)
                self.assertEqual([title for title, dark in trends if (dark < 10) != ("no events" in title)], [])
                self.assertEqual(self.browser.run("return document.querySelectorAll('.paper, .opened, .printing').length"), 0)
        self.open("canlog")
        self.browser.run("document.querySelector('.toolbar input[value=inner]').click()")
        before = self.drawn()
        text = papers.text(self.printed())
        self.assertIn("lamp actuator, on panel", text)
        self.assertNotIn("scale, on", text)
        self.assertNotIn("part of a name", text)
        self.assertEqual(self.drawn(), before)
        self.browser.devtools("Emulation.setEmulatedMedia", features=[])


if __name__ == "__main__":
    main()
