// The data of a report: signals, and times as text. All times are whole microseconds from the zero of the run.
"use strict";
const SECOND = 1e6, MINUTE = 60 * SECOND, HOUR = 60 * MINUTE, DAY = 24 * HOUR;
const STEPS = [1, 2, 5].flatMap(digit => [0, 1, 2, 3, 4, 5].map(power => digit * 10 ** power)).sort((a, b) => a - b)
  .concat([1, 2, 5, 10, 15, 30].map(count => count * SECOND), [1, 2, 5, 10, 15, 30].map(count => count * MINUTE),
    [1, 2, 3, 6, 12].map(count => count * HOUR), [1, 2, 5, 10, 20, 50, 100, 200, 500, 1000, 2000, 5000, 10000].map(count => count * DAY));

// ---- reading the data ---------------------------------------------------------------------------------------------------

const sums = numbers => {
  let last = 0;
  return numbers.map((number, index) => last = index ? last + number : number);
};

const timesOf = coded => {
  const times = new Array(coded.length);
  let difference = 0;
  coded.forEach((number, index) => {
    if (index > 1) difference += number;
    else difference = number;
    times[index] = index ? times[index - 1] + difference : number;
  });
  return times;
};

// The first index whose run reaches past `index`; runs are few.
const fromRuns = (runs, count) => {
  const all = new Array(count);
  let index = 0;
  for (const [number, times] of runs) {
    all.fill(number, index, index + times);
    index += times;
  }
  return all;
};

class Signal {
  constructor(coded) {
    Object.assign(this, {name: coded.name, platform: coded.platform, kind: coded.kind, group: coded.group, limit: coded.limit, of: coded.of, coded});
    this.times = timesOf(coded.t);
    // Values that are too large to be exact are text.
    this.texts = typeof coded.v[0] === "string" ? coded.v : null;
    this.values = this.texts ? coded.v.map(Number) : sums(coded.v);
    this.steps = coded.s ? fromRuns(coded.s, this.times.length) : null;
    this.after = !coded.r ? null : coded.r.runs ? fromRuns(coded.r.runs, this.times.length) : sums(coded.r.values);
    this.missed = sums(coded.missed || []);
    this.late = sums(coded.late || []);
  }

  // The number of the last event at or before a time; -1 if there is none.
  before(time) {
    let low = 0, high = this.times.length;
    while (low < high) {
      const middle = (low + high) >> 1;
      if (this.times[middle] <= time) low = middle + 1; else high = middle;
    }
    return low - 1;
  }

  // The events from the one before the window to the one after it. Of many in one of the columns only the outline stays.
  shown(first, last, columns) {
    const from = Math.max(this.before(first), 0), to = Math.min(this.before(last) + 2, this.times.length);
    if (to - from <= 4 * columns) return range(from, to);
    const kept = [from];
    const width = (last - first) / columns;
    for (let index = from; index < to;) {
      const end = first + (Math.floor((this.times[index] - first) / width) + 1) * width;
      let least = index, greatest = index, next = index;
      for (; next < to && this.times[next] < end; next++) {
        if (this.values[next] < this.values[least]) least = next;
        if (this.values[next] > this.values[greatest]) greatest = next;
      }
      next = Math.max(next, index + 1);
      kept.push(...[...new Set([index, least, greatest, next - 1])].sort((a, b) => a - b));
      index = next;
    }
    return kept;
  }

  text(index) {
    return this.texts ? this.texts[index] : String(this.values[index]);
  }
}

const range = (from, to) => Array.from({length: Math.max(to - from, 0)}, (_, index) => from + index);

// ---- times as text ------------------------------------------------------------------------------------------------------

const padded = (number, digits) => String(number).padStart(digits, "0");

class Clock {
  // `zero` has the microseconds since 1970 of 0 in UTC, and from which time on which offset holds; without it times are counted from 0.
  constructor(zero) {
    this.zero = zero ? zero.utc : null;
    this.offsets = zero ? zero.offsets : [];
  }

  // What is added to a time for the clock on the wall.
  shift(time) {
    let found = this.offsets[0][1];
    for (const [from, offset] of this.offsets) if (from <= time) found = offset;
    return this.zero + found;
  }

  // Days, and microseconds of the day.
  parts(time) {
    const local = Math.round(time) + this.shift(time);
    const day = Math.floor(local / DAY);
    return [day, local - day * DAY];
  }

  date(day) {
    return new Date(day * DAY / 1000).toISOString().slice(0, 10);
  }

  // As many digits after the second as a step needs.
  text(time, step = 1, withDate = true) {
    const digits = step >= SECOND ? 0 : Math.min(6, 6 - Math.floor(Math.log10(step) + 1e-9));
    if (this.zero === null) return (Math.round(time) / SECOND).toFixed(digits) + " s";
    const [day, rest] = this.parts(time);
    const second = Math.floor(rest / SECOND);
    const hours = `${padded(Math.floor(second / 3600), 2)}:${padded(Math.floor(second / 60) % 60, 2)}`;
    const fraction = digits ? "." + padded(Math.floor(rest % SECOND), 6).slice(0, digits) : "";
    const seconds = step >= MINUTE ? "" : ":" + padded(second % 60, 2) + fraction;
    return (withDate ? this.date(day) + " " : "") + hours + seconds;
  }

  label(time, step) {
    if (this.zero === null) return this.text(time, step);
    const [day, rest] = this.parts(time);
    return step >= DAY || rest === 0 ? this.date(day) : this.text(time, step, false);
  }

  // The time that a text means: seconds, or a date and a time, or a time of the day at `near`; NaN if it means none.
  read(text, near) {
    if (this.zero === null) return Math.round(Number(text.replace(/s$/, "").trim()) * SECOND);
    const found = /^\s*(?:(\d{4}-\d\d-\d\d)[T ]+)?(\d\d?):(\d\d)(?::(\d\d)(?:[.,](\d{1,6}))?)?\s*$/.exec(text);
    if (!found) return NaN;
    const day = found[1] ? Date.parse(found[1]) * 1000 : this.parts(near)[0] * DAY;
    const second = found[2] * 3600 + found[3] * 60 + Number(found[4] || 0);
    return day + second * SECOND + Number((found[5] || "0").padEnd(6, "0")) - this.shift(near);
  }

  ticks(first, last, pixels) {
    const most = Math.max(pixels / 110, 2);
    const step = STEPS.find(each => (last - first) / each <= most) || STEPS[STEPS.length - 1];
    const shift = this.zero === null ? 0 : this.shift(first) % DAY;
    const ticks = [];
    // A label below the corner would cover the least number of the other axis.
    const corner = first + (last - first) * 20 / pixels;
    for (let time = Math.ceil((first + shift) / step) * step - shift; time <= last; time += step) {
      ticks.push({v: time, label: time < corner ? "" : this.label(time, step)});
    }
    return ticks;
  }
}
