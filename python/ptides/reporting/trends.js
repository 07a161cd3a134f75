// Draws a trend with dygraphs, on the screen and on paper. signals.js comes before it.
"use strict";

// A trend shows single events if there is room for them: this many pixels for each.
const PIXELS_AN_EVENT = 5;
// How wide a trend is on a landscape page of A4 or letter, and how high on both paper and screen, in pixels.
const PAPER = 960, HEIGHT = 110;

const colour = name => getComputedStyle(document.documentElement).getPropertyValue(`--${name}`).trim();

const made = (tag, properties = {}, ...children) => {
  const element = Object.assign(document.createElement(tag), properties);
  element.append(...children);
  return element;
};

class Trend {
  constructor(run, signal, place) {
    Object.assign(this, {run, signal, graph: null});
    this.head = made("h4", {}, signal.name, " ", made("small", {textContent: titleOf(signal)}));
    this.value = made("output", {className: "value"});
    this.box = made("div", {className: "chart"});
    this.line = made("div", {className: "cursor", hidden: true});
    this.element = made("div", {className: "trend", tabIndex: 0}, this.head, this.value, made("div", {className: "plot"}, this.box, this.line));
    this.element.setAttribute("role", "group");
    this.element.setAttribute("aria-label", `${signal.name}, ${signal.times.length} events`);
    this.element.dataset.kind = signal.kind;
    this.element.addEventListener("focus", () => run.focused = this);
    place.append(this.element);
    this.visible = false;
  }

  // What dygraphs is given for the window: the events, and the value held to the end of it.
  rows(first, last) {
    const kept = this.signal.shown(first, last, this.columns());
    this.shown = kept;
    const rows = kept.map(index => [this.signal.times[index], this.signal.values[index]]);
    this.single = kept.length * PIXELS_AN_EVENT < this.columns() || kept.length < 40;
    if (rows.length && this.signal.group === "trends" && rows[rows.length - 1][0] < last) rows.push([last, rows[rows.length - 1][1]]);
    return rows.length ? rows : [[first, null], [last, null]];
  }

  columns() {
    return Math.max(this.box.clientWidth - 80, 100);
  }

  range(rows) {
    const values = rows.map(row => row[1]).filter(value => value !== null);
    if (this.signal.limit !== undefined) values.push(this.signal.limit);
    let least = Infinity, greatest = -Infinity;
    for (const value of values) {
      if (value < least) least = value;
      if (value > greatest) greatest = value;
    }
    if (least > greatest) return [0, 1];
    const room = (greatest - least) * 0.08 || Math.max(Math.abs(least) * 0.05, 1);
    return [least - room, greatest + room];
  }

  options() {
    const {first, last} = this.run, rows = this.rows(first, last);
    return {file: rows, dateWindow: [first, last], valueRange: this.range(rows), drawPoints: this.single || !this.held(), colors: [colour(this.signal.kind)],
      axisLineColor: colour("axis"), gridLineColor: colour("grid")};
  }

  // Whether a value holds until the next event.
  held() {
    return this.signal.group === "trends";
  }

  draw() {
    if (!this.visible) return;
    if (this.graph) this.graph.updateOptions(this.options());
    else this.graph = this.drawnIn(this.box);
    this.drawCursor();
  }

  drawnIn(place, more = {}) {
    const {file, ...options} = this.options();
    return new Dygraph(place, file, {...this.fixed(), ...options, ...more});
  }

  // A browser prints no canvas that was never on its screen, so on paper a trend is a picture. A trend that isn't chosen has none.
  toPaper() {
    if (this.element.hidden) return;
    const place = made("div", {className: "paper"});
    this.box.after(place);
    this.paper = this.drawnIn(place, {width: PAPER, height: HEIGHT, pixelRatio: 3});
    for (const canvas of place.querySelectorAll("canvas")) {
      const picture = made("img", {alt: "", src: canvas.toDataURL()});
      picture.style.cssText = canvas.style.cssText;
      canvas.replaceWith(picture);
    }
  }

  fromPaper() {
    if (this.paper) this.paper.destroy();
    this.paper = null;
    for (const place of this.element.querySelectorAll(".paper")) place.remove();
  }

  fixed() {
    const {run} = this;
    return {
      labels: ["time", this.signal.name], legend: "never", stepPlot: this.held(), strokeWidth: this.held() ? 1.3 : 0, pointSize: 2.2, highlightCircleSize: 0,
      animatedZooms: false, includeZero: false, axisLabelFontSize: 11, labelsKMB: false, digitsAfterDecimal: 6, maxNumberWidth: 20,
      drawPointCallback: (graph, name, canvas, x, y, shade, size, index) => this.drawPoint(canvas, x, y, shade, size, index),
      underlayCallback: (canvas, area, graph) => this.drawMarks(canvas, area, graph),
      interactionModel: run.interaction(this),
      axes: {
        x: {ticker: (a, b, pixels) => run.clock.ticks(a, b, pixels), axisLabelWidth: 100, valueFormatter: time => run.clock.text(time)},
        y: {axisLabelWidth: 70, axisLabelFormatter: shortened, pixelsPerLabel: 17},
      },
    };
  }

  drawPoint(canvas, x, y, shade, size, index) {
    // The last row may be the value that is held.
    if (index >= this.shown.length) return;
    canvas.fillStyle = shade;
    canvas.beginPath();
    canvas.arc(x, y, this.single ? size : 1, 0, 2 * Math.PI);
    canvas.fill();
  }

  // Triangles at the top for what was missed, diamonds for what came late; both have their words in the lists.
  drawMarks(canvas, area, graph) {
    if (this.signal.limit !== undefined) {
      const y = graph.toDomYCoord(this.signal.limit);
      canvas.strokeStyle = colour("limit");
      canvas.setLineDash([6, 4]);
      canvas.beginPath();
      canvas.moveTo(area.x, y);
      canvas.lineTo(area.x + area.w, y);
      canvas.stroke();
      canvas.setLineDash([]);
    }
    this.drawEach(canvas, area, graph, this.signal.missed, "missed", (x, y) => [[x - 5, y], [x + 5, y], [x, y + 9]]);
    this.drawEach(canvas, area, graph, this.signal.late, "late", (x, y) => [[x, y], [x + 5, y + 6], [x, y + 12], [x - 5, y + 6]]);
  }

  drawEach(canvas, area, graph, marks, name, corners) {
    canvas.fillStyle = colour(name);
    let drawn = -Infinity;
    for (const index of marks) {
      const x = Math.round(graph.toDomXCoord(this.signal.times[index]));
      if (x < area.x || x > area.x + area.w || x - drawn < 3) continue;
      drawn = x;
      canvas.globalAlpha = 0.25;
      canvas.fillRect(x - 0.5, area.y, 1, area.h);
      canvas.globalAlpha = 1;
      canvas.beginPath();
      corners(x, area.y).forEach(([a, b], number) => number ? canvas.lineTo(a, b) : canvas.moveTo(a, b));
      canvas.fill();
    }
  }

  drawCursor() {
    const {cursor, first, last} = this.run;
    const inside = cursor !== null && cursor >= first && cursor <= last && this.graph;
    this.line.hidden = !inside;
    if (inside) this.line.style.left = `${this.graph.toDomXCoord(cursor)}px`;
    this.value.textContent = cursor === null ? "" : this.valueAt(cursor);
  }

  valueAt(time) {
    const {signal} = this, index = signal.before(time);
    if (index < 0) return "nothing yet";
    const step = signal.steps && signal.steps[index] ? `, step ${signal.steps[index]}` : "";
    const after = signal.after && signal.after[index];
    const handled = after === null || after === undefined ? "" : `, ${WORDS[signal.kind] || "fired"} ${after} us after`;
    return `${signal.text(index)} ${UNITS[signal.group] || ""}at ${this.run.clock.text(signal.times[index], 1, false)}${step}${handled}`;
  }
}

const WORDS = {sensor: "seen", actuator: "acted", message: "handled"};
const UNITS = {rooms: "us ", readings: "us ", network: "us "};

const titleOf = signal => {
  const reduced = signal.of ? `, ${signal.times.length.toLocaleString("en")} of ${signal.of.toLocaleString("en")} events, which have the same outline` : "";
  const missed = signal.missed.length && signal.group === "trends" ? `, ${signal.missed.length.toLocaleString("en")} missed` : "";
  const what = {room: "us until the deadline", reading: "us after the time of the event, by its clock", transit: `us on the way to ${signal.coded.to}`};
  const empty = signal.times.length ? "" : ", no events";
  return (what[signal.kind] || `${signal.coded.of_kind || signal.kind}, on ${signal.platform}`) + missed + reduced + empty;
};

const shortened = value => Math.abs(value) >= 1e7 ? value.toExponential(3).replace(/\.?0+e/, "e").replace("e+", "e") : String(Number(value.toFixed(6)));
