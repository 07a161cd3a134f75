// A run: trends that share a time axis and a cursor, and what is clicked and typed. signals.js and trends.js come before it.
"use strict";

const MOST_LISTED = 500;
// The shortest part of the time axis.
const SHORTEST = 10;

class Run {
  constructor(section, coded) {
    Object.assign(this, {section, clock: new Clock(coded.zero), earliest: coded.first, latest: coded.last, first: coded.first, last: coded.last});
    Object.assign(this, {cursor: null, focused: null, trends: []});
    this.signals = coded.signals.map(each => new Signal(each));
    this.watcher = new IntersectionObserver(entries => entries.forEach(entry => this.seen(entry)), {rootMargin: "200px"});
    for (const signal of this.signals) this.add(signal);
    this.toolbar();
    this.list();
    this.show(this.first, this.last);
    this.resized = new ResizeObserver(() => this.redraw());
    this.resized.observe(section);
  }

  find(name) {
    return this.section.querySelector(`[data-part="${name}"]`);
  }

  add(signal) {
    const place = this.find(signal.group);
    if (!place) return;
    const trend = new Trend(this, signal, place);
    trend.element.trend = trend;
    this.trends.push(trend);
    this.watcher.observe(trend.element);
  }

  seen(entry) {
    const {trend} = entry.target;
    trend.visible = entry.isIntersecting;
    trend.draw();
  }

  redraw() {
    for (const trend of this.trends) if (trend.graph && trend.visible) trend.graph.resize();
    this.show(this.first, this.last);
  }

  // ---- the window and the cursor

  show(first, last) {
    const whole = this.latest - this.earliest;
    const length = Math.min(Math.max(last - first, SHORTEST), whole);
    this.first = Math.min(Math.max(first, this.earliest), this.latest - length);
    this.last = this.first + length;
    for (const trend of this.trends) trend.draw();
    this.describe();
  }

  zoom(factor, centre = this.centre()) {
    this.show(centre - (centre - this.first) * factor, centre + (this.last - centre) * factor);
  }

  // Of the cursor, if it can be seen.
  centre() {
    const {cursor, first, last} = this;
    return cursor !== null && cursor >= first && cursor <= last ? cursor : (first + last) / 2;
  }

  pan(part) {
    const by = (this.last - this.first) * part;
    this.show(this.first + by, this.last + by);
  }

  all() {
    this.show(this.earliest, this.latest);
  }

  put(cursor) {
    this.cursor = cursor;
    for (const trend of this.trends) trend.drawCursor();
    this.describe();
  }

  // To the event after the cursor, or before it: of the trend that has the focus, or of any that is shown.
  step(direction) {
    const from = this.cursor === null ? (direction > 0 ? this.first - 1 : this.last + 1) : this.cursor;
    const chosen = this.focused ? [this.focused] : this.trends.filter(trend => !trend.element.hidden && trend.signal.group === "trends");
    const times = chosen.map(({signal}) => signal.times[direction > 0 ? signal.before(from) + 1 : signal.before(from - 1)]).filter(time => time !== undefined);
    if (!times.length) return;
    const to = direction > 0 ? Math.min(...times) : Math.max(...times);
    if (to < this.first || to > this.last) this.show(to - (this.last - this.first) / 2, to + (this.last - this.first) / 2);
    this.put(to);
  }

  // To an event of an actor, with what is around it.
  goto(time, around, actor) {
    this.show(time - around, time + around);
    this.put(time);
    const trend = this.trends.find(({signal}) => signal.name === actor && signal.group === "trends");
    const place = trend ? trend.element : this.find("trends");
    place.scrollIntoView({block: "start"});
    if (trend) place.focus({preventScroll: true});
  }

  describe() {
    const step = this.digits();
    this.from.value = this.clock.text(this.first, step);
    this.to.value = this.clock.text(this.last, step);
    this.at.textContent = this.cursor === null ? "" : `cursor ${this.clock.text(this.cursor)} = ${Math.round(this.cursor)} us`;
    this.section.dataset.first = Math.round(this.first);
    this.section.dataset.last = Math.round(this.last);
  }

  digits() {
    return 10 ** Math.max(0, Math.floor(Math.log10((this.last - this.first) / 1000)));
  }

  // ---- what is clicked and typed

  toolbar() {
    const bar = this.find("toolbar");
    const button = (text, label, act) => {
      const found = made("button", {type: "button", textContent: text, title: label, onclick: act});
      found.setAttribute("aria-label", label);
      return found;
    };
    const field = label => {
      const found = made("input", {type: "text", spellcheck: false, size: 24, onchange: () => this.typed()});
      found.setAttribute("aria-label", label);
      return found;
    };
    this.from = field("from");
    this.to = field("to");
    this.at = made("output", {className: "at"});
    const kinds = [...new Set(this.signals.filter(({group}) => group === "trends").map(({kind}) => kind))];
    bar.append(
      button("+", "zoom in (+)", () => this.zoom(0.5)), button("\u2212", "zoom out (-)", () => this.zoom(2)),
      button("\u25c0", "earlier (left arrow)", () => this.pan(-0.25)), button("\u25b6", "later (right arrow)", () => this.pan(0.25)),
      button("all", "the whole run (Home)", () => this.all()),
      button("\u2039 event", "to the event before (p)", () => this.step(-1)), button("event \u203a", "to the next event (n)", () => this.step(1)),
      made("label", {}, "from ", this.from), made("label", {}, "to ", this.to),
      made("label", {}, "show ", made("input", {type: "search", placeholder: "part of a name", size: 14, oninput: event => this.filter(event.target.value)})),
      made("span", {}, ...kinds.map(kind => made("label", {}, made("input", {type: "checkbox", checked: true, value: kind, onchange: () => this.filter()}),
        ` ${KINDS[kind] || kind}`))),
      this.at);
    this.bar = bar;
    this.section.addEventListener("keydown", event => this.key(event));
  }

  typed() {
    const first = this.clock.read(this.from.value, this.first), last = this.clock.read(this.to.value, this.last);
    if (Number.isFinite(first) && Number.isFinite(last) && first < last) this.show(first, last);
    else this.describe();
  }

  filter(text = this.text) {
    this.text = text;
    const off = new Set([...this.bar.querySelectorAll("input[type=checkbox]")].filter(box => !box.checked).map(box => box.value));
    for (const {element, signal} of this.trends) {
      if (signal.group === "trends") element.hidden = off.has(signal.kind) || Boolean(text) && !signal.name.toLowerCase().includes(text.toLowerCase());
    }
  }

  key(event) {
    if (event.target.matches("input:not([type=checkbox])") || event.ctrlKey || event.metaKey || event.altKey) return;
    const acts = {"+": () => this.zoom(0.5), "=": () => this.zoom(0.5), "-": () => this.zoom(2), ArrowLeft: () => this.pan(-0.25), ArrowRight: () => this.pan(0.25),
      Home: () => this.all(), "0": () => this.all(), n: () => this.step(1), p: () => this.step(-1)};
    if (!acts[event.key]) return;
    event.preventDefault();
    acts[event.key]();
  }

  // Dygraphs' own, but what it ends with goes to all trends.
  interaction(trend) {
    const usual = Dygraph.defaultInteractionModel;
    const after = act => (event, graph, context) => {
      act(event, graph, context);
      this.show(...graph.xAxisRange());
    };
    const wheel = (event, graph) => {
      if (!event.ctrlKey && !event.shiftKey) return;
      event.preventDefault();
      this.zoom(event.deltaY + event.deltaX > 0 ? 1.25 : 0.8, graph.toDataXCoord(graph.eventToDomCoords(event)[0]));
    };
    const down = (event, graph, context) => {
      trend.element.focus({preventScroll: true});
      usual.mousedown(event, graph, context);
      // The button may be released anywhere.
      document.addEventListener("mouseup", () => setTimeout(() => this.show(...graph.xAxisRange())), {once: true});
    };
    const move = (event, graph) => {
      const time = graph.toDataXCoord(graph.eventToDomCoords(event)[0]);
      this.put(Math.round(Math.min(Math.max(time, this.first), this.last)));
    };
    return {...usual, mousedown: down, touchend: after(usual.touchend), dblclick: () => this.all(), wheel, mousemove: move};
  }

  // ---- the list of what was missed

  list() {
    this.misses = this.signals.filter(({group}) => group === "trends").flatMap(signal => [...signal.missed].map(index => ({signal, index})));
    this.section.addEventListener("click", event => {
      const button = event.target.closest("button[data-time]");
      if (!button) return;
      const {time, by, actor} = button.dataset;
      this.goto(Number(time), Math.max(Number(by) * 8, (this.latest - this.earliest) / 200, SHORTEST), actor);
    });
    const table = this.find("misses"), search = this.find("search");
    if (table && search) search.addEventListener("input", () => this.search(search.value.trim().toLowerCase(), table));
  }

  search(text, table) {
    const found = [];
    for (const {signal, index} of this.misses) {
      const line = this.line(signal, index);
      if (line.toLowerCase().includes(text)) found.push({signal, index, line});
      if (found.length > MOST_LISTED) break;
    }
    table.tBodies[0].replaceChildren(...found.slice(0, MOST_LISTED).map(each => this.row(each)));
    this.find("found").textContent = found.length > MOST_LISTED ? `more than ${MOST_LISTED} fit` : `${found.length} fit`;
  }

  // The line of the program.
  line(signal, index) {
    const time = signal.times[index], step = signal.steps ? signal.steps[index] : 0;
    return `missed ${signal.name} at ${time}.${step}, reading ${time + signal.after[index]} past ${time + signal.coded.slack}`;
  }

  row({signal, index, line}) {
    const time = signal.times[index], by = signal.after[index] - signal.coded.slack;
    const button = made("button", {type: "button", textContent: "show"});
    Object.assign(button.dataset, {time, by, actor: signal.name});
    return made("tr", {}, made("td", {}, line), made("td", {textContent: this.clock.text(time)}), made("td", {className: "number", textContent: by}),
      made("td", {}, button));
  }
}

const KINDS = {sensor: "sensors", inner: "inner signals", message: "messages", actuator: "actuators"};

// ---- the page -----------------------------------------------------------------------------------------------------------

const runs = new Map();

const openRun = section => {
  const {key} = section.dataset;
  if (!runs.has(key)) runs.set(key, new Run(section, JSON.parse(document.getElementById(`data-${key}`).textContent)));
};

const allTrends = () => [...runs.values()].flatMap(run => run.trends);

// On paper all is open but the licence, in the colours for light.
const toPaper = () => {
  fromPaper();
  document.documentElement.classList.add("printing");
  for (const details of document.querySelectorAll("main details:not([open])")) {
    details.open = true;
    details.classList.add("opened");
    if (details.dataset.key) openRun(details);
  }
  for (const trend of allTrends()) trend.toPaper();
};

const fromPaper = () => {
  document.documentElement.classList.remove("printing");
  for (const details of document.querySelectorAll(".opened")) {
    details.open = false;
    details.classList.remove("opened");
  }
  for (const trend of allTrends()) {
    trend.fromPaper();
    trend.draw();
  }
};

for (const section of document.querySelectorAll("[data-key]")) {
  if (section.tagName === "DETAILS") section.addEventListener("toggle", () => section.open && openRun(section));
  if (section.tagName !== "DETAILS" || section.open) openRun(section);
}
// A link to something that is closed opens it.
addEventListener("click", event => {
  const link = event.target.closest("a[href^='#']");
  const target = link && document.getElementById(link.getAttribute("href").slice(1));
  if (target && target.tagName === "DETAILS") target.open = true;
});
addEventListener("beforeprint", toPaper);
addEventListener("afterprint", fromPaper);
matchMedia("(prefers-color-scheme: dark)").addEventListener("change", () => runs.forEach(run => run.redraw()));
window.report = {runs};
