"use strict";
const data = window.unpacked ?? JSON.parse(document.getElementById("data").textContent);
// A large page has its tables by blocks of rows.
for (const [name, table] of Object.entries(data))
  if (table.blocks) {
    data[name] = {};
    table.columns.forEach((column, i) => {
      const [key, near] = [column].flat(), other = near && data[name][near], own = table.blocks.flatMap(it => it[i]);
      const more = (value, row) => value === null ? null : Array.isArray(value) ? value[0] : value + other[row];
      data[name][key] = near ? own.map(more) : own;
    });
  }
if (data.packed) {
  const {ends, parts} = data, sum = (a, b) => a === null || b === null ? null : a + b;
  if (parts && !parts.vl) Object.assign(parts, {vl: ends.vl, where: ends.where, skew_max: ends.skew_max, skew_bound: ends.skew});
  if (parts && !ends.bound && parts.network_bound) ends.bound = parts.network_bound.map((ns, i) => sum(ns, parts.wait_bound[i]));
  for (const {paths} of data.vls) for (const side of ["A", "B"]) {
    let before = [];
    paths[side] = paths[side].map(([alike, ...rest]) => before = [...before.slice(0, alike), ...rest]);
  }
}
const ends = data.ends, lines = data.lines, vls = new Map(data.vls.map(vl => [vl.id, vl]));
const element = id => document.getElementById(id);

// ---- numbers as text ----

const digits = new Intl.NumberFormat("en-US");
const whole = number => digits.format(number);
const esc = text => String(text).replace(/[&<>"']/g, sign => `&#${sign.charCodeAt(0)};`);
const parts = (number, unit, places) => {
  const size = Math.abs(number);
  return (number < 0 ? "-" : "") + whole(Math.floor(size / unit)) + "." + String(size % unit).padStart(places, "0");
};
const us = ns => parts(ns, 1e3, 3);
const percent = hundredths => parts(hundredths, 100, 2);
// A time as a text has it, without zeros at its end.
const span = ns => us(ns).replace(/\.?0+$/, "") + " µs";
const counts = found => Array.isArray(found) ? whole(found[0]) + " to " + whole(found[1]) : whole(found);
const counted = (count, one, many) => whole(count) + " " + (count === 1 ? one : many || one + "s");
const toVl = (id, text) => `<a href="#vl-${id}">${text ?? id}</a>`;
const toLine = (name, text) => `<a href="#line-${encodeURIComponent(name)}">${esc(text ?? name)}</a>`;

// ---- drawings in cells ----

const stand = ns => ns <= 0 ? 0 : Math.max(0, 100 * (Math.log10(ns) - data.low) / (data.high - data.low));
const at = ns => stand(ns).toFixed(1) + "%";
const mark = (look, ns) => ns ? `<rect class="${look}" x="${at(ns)}"/>` : "";
const range = i => {
  let marks = mark("bag", ends.bag[i]) + mark("jit", ends.jitter[i]) + mark("pol", ends.policing[i]);
  if (ends.count[i]) {
    const left = stand(ends.least[i]), wide = Math.max(0.5, stand(ends.greatest[i]) - left);
    const late = ends.greatest[i] > ends.bag[i] ? " late" : "";
    marks += `<rect class="range${late}" x="${left.toFixed(1)}%" width="${wide.toFixed(1)}%"/>`;
    marks += `<circle cx="${at(ends.mean[i])}"/>`;
  }
  return `<svg>${marks + mark("bound", ends.bound?.[i]) + mark("limit", ends.limit?.[i])}</svg>`;
};
const histogram = (i, wide = 504, high = 30) => {
  const found = ends.histogram[i], least = ends.least[i], greatest = ends.greatest[i];
  if (!ends.count[i]) return "nothing was delivered";
  if (!found) return "";
  const place = ns => greatest === least ? wide / 2 : (ns - least) * wide / (greatest - least);
  let bars = "";
  if (ends.count[i] < data.enough) {
    // Frames of one place stand on each other.
    const heights = new Map();
    const rows = found.map(ns => {
      const x = place(ns).toFixed(0), row = heights.get(x) ?? 0;
      heights.set(x, row + 1);
      return [x, row];
    });
    const step = Math.min(8, (high - 10) / Math.max(1, ...heights.values()));
    const dot = ([x, row]) => `<circle class="frame" cx="${x}" cy="${(high - 5 - step * row).toFixed(1)}" r="4"/>`;
    bars = rows.map(dot).join("");
  } else {
    const top = Math.max(...found), step = wide / data.bars;
    const bar = (count, j) => count &&
      `M${(j * step).toFixed(1)} ${high}v${-Math.max(1, Math.round((high - 2) * count / top))}h${step - 1}V${high}`;
    bars = greatest === least ? `<path class="bars" d="M${wide / 2 - 5} ${high}V2h10V${high}"/>`
      : `<path class="bars" d="${found.map(bar).filter(Boolean).join("")}"/>`;
  }
  const marks = data.percents.map(it => `<path class="p${it}" d="M${place(ends["p" + it][i]).toFixed(1)} 0V${high}"/>`);
  const text = (x, anchor, words) => `<text x="${x}" y="${high + 13}" text-anchor="${anchor}">${words}</text>`;
  const texts = greatest === least ? text(wide / 2, "middle", span(least) + ", all")
    : text(0, "start", span(least)) + text(wide, "end", span(greatest));
  const words = `viewBox="-5 0 ${wide + 10} ${high + 16}" style="width:${wide + 10}px"`;
  return `<svg ${words}><path class="foot" d="M0 ${high}H${wide}"/>${bars}${marks.join("")}${texts}</svg>`;
};
const heat = (count, top) => {
  const part = 0.15 + 0.85 * Math.log(1 + count) / Math.log(1 + top);
  return `style="background:rgba(178,34,34,${part.toFixed(2)});color:${part > 0.6 ? "#fff" : "var(--heat)"}"`;
};

// ---- looks of columns: how a value is shown, and whether it is a number ----

const LOOKS = {
  vl: {number: true, show: value => toVl(value)},
  line: {show: value => toLine(value)},
  text: {show: esc},
  words: {show: esc, more: "wrap"},
  text_number: {number: true, show: String},
  count: {number: true, show: whole},
  range_of_counts: {number: true, show: counts},
  us: {number: true, show: us},
  percent: {number: true, show: percent},
  load: {number: true, show: percent, words: (value, i) => `style="${shade(i)}"`, more: "load"},
  heat: {number: true, show: whole, words: (value, i, grid) => value ? heat(value, grid.top) : "", none: true},
  range: {fixed: true, show: (value, i) => range(i), more: "rg"},
  histogram: {fixed: true, show: (value, i) => histogram(i), more: "hg"},
};
const TONES = ["", "warn", "bad"];
const least = value => value === null || value === undefined ? -Infinity : Array.isArray(value) ? value[0] + value[1] / 1e9 : value;

// ---- tables: the ten worst rows, or all, of which those are drawn that are in sight ----

const WORST = 10, FOLD_ABOVE = 15, SPARE = 12;

class Grid {
  constructor(spec, place) {
    Object.assign(this, spec);
    this.rows = typeof spec.rows === "string" ? data[spec.rows] : spec.rows;
    this.numbers = spec.only ?? Array.from(this.rows[this.columns[0].key] ?? [], (_, i) => i);
    this.rank = [];
    this.numbers.forEach((i, rank) => { this.rank[i] = rank; });
    this.columns = this.columns.map(column => ({...LOOKS[column.look], ...column}));
    this.top = Math.max(1, ...this.columns.filter(it => it.look === "heat").flatMap(it => this.rows[it.key]));
    this.wants = "";
    this.isAll = this.numbers.length <= FOLD_ABOVE;
    this.build(place);
    this.sortBy(this.columns.findIndex(column => column.key === this.sort && !column.fixed), !this.up);
  }

  build(place) {
    const folds = this.numbers.length > FOLD_ABOVE;
    const asked = `<p class="asked"><span class="shown"></span><button type="button" class="all"></button><label>Only
      <input type="search" class="only" placeholder="number or name"></label></p>`;
    const head = this.columns.map(column => this.head(column)).join("");
    const wide = column => `<td class="${this.look(column)}${column.tone ? " warn" : ""}">${this.widest(column)}`;
    const widest = this.columns.map(wide).join("");
    place.innerHTML = `${folds ? asked : ""}<div class="box"><table id="${this.name}">
      <thead><tr>${head}</tr></thead><tbody class="space" aria-hidden="true"></tbody><tbody></tbody>
      <tbody class="space" aria-hidden="true"></tbody>
      <tfoot aria-hidden="true"><tr>${widest}</tr></tfoot></table></div>`;
    this.box = place.querySelector(".box");
    this.table = place.querySelector("table");
    [this.before, this.body, this.after] = this.table.tBodies;
    this.table.querySelectorAll("th").forEach((th, i) => th.querySelector("button")?.addEventListener("click", () => {
      const was = th.getAttribute("aria-sort");
      this.sortBy(i, was ? was === "ascending" : Boolean(this.columns[i].number));
    }));
    this.box.addEventListener("scroll", () => this.draw());
    this.button = place.querySelector(".all");
    this.shown = place.querySelector(".shown");
    this.button?.addEventListener("click", () => {
      this.isAll = !this.isAll;
      this.box.scrollTop = 0;
      this.draw(true);
    });
    place.querySelector(".only")?.addEventListener("input", event => this.filter(event.target.value.trim()));
  }

  look(column) { return [column.number ? "n" : "", column.more ?? ""].join(" ").trim(); }

  head(column) {
    const unit = column.unit ? `<small>${esc(column.unit)}</small>` : "";
    const words = `class="${this.look(column).replace("rg", "")}"${column.hint ? ` title="${esc(column.hint)}"` : ""}`;
    if (column.look === "range") return `<th>${column.name}${axis()}</th>`;
    if (column.fixed) return `<th ${words}>${esc(column.name)}</th>`;
    return `<th ${words}><button type="button">${esc(column.name)}${unit}</button></th>`;
  }

  // The text of a column that needs the most room: so no column changes its width while rows go by.
  widest(column) {
    const values = this.rows[column.key] ?? [];
    if (column.fixed || !values.length) return "";
    let best = null, size = -1;
    for (const i of this.numbers) {
      const value = values[i];
      const own = column.number ? Math.abs(least(value)) + (value < 0 ? 1e16 : 0) : String(value ?? "").length;
      if (own > size && own !== Infinity) { size = own; best = value; }
    }
    return best === null ? "–" : column.show(best, 0, this);
  }

  sortBy(at, down) {
    if (at >= 0) {
      const {key, order, number} = this.columns[at], values = this.rows[order ?? key];
      // Whether those rows stand first that are always shown.
      this.isWorstFirst = key === this.sort && !down === Boolean(this.up);
      // What is not known stands last.
      const last = down ? -Infinity : Infinity;
      const keys = number || order ? values.map(value => value === null ? last : least(value)) : values;
      const compare = (a, b) => keys[a] < keys[b] ? -1 : keys[a] > keys[b] ? 1 : 0;
      this.numbers.sort((a, b) => (down ? compare(b, a) : compare(a, b)) || this.rank[a] - this.rank[b]);
      this.table.querySelectorAll("th").forEach((th, i) =>
        i === at ? th.setAttribute("aria-sort", down ? "descending" : "ascending") : th.removeAttribute("aria-sort"));
    }
    this.ask();
  }

  filter(text) {
    this.wants = text.toLowerCase();
    this.box.scrollTop = 0;
    this.ask();
  }

  // Which rows are asked for, in their order.
  ask() {
    const isNumber = /^[0-9]+$/.test(this.wants);
    const texts = this.columns.filter(it => ["text", "line"].includes(it.look)).map(it => this.rows[it.key]);
    const has = i => isNumber && this.rows.vl ? this.rows.vl[i] === Number(this.wants)
      : texts.some(values => String(values[i]).toLowerCase().includes(this.wants));
    this.asked = this.wants ? this.numbers.filter(has) : this.numbers;
    this.draw(true);
  }

  row(i) {
    const cells = this.columns.map(column => {
      const value = this.rows[column.key]?.[i] ?? null;
      const tone = column.tone ? TONES[this.rows[column.tone]?.[i] ?? 0] : "";
      const none = column.none && !value ? "none" : "";
      const look = [this.look(column), tone, none].filter(Boolean).join(" ");
      const words = column.words && value !== null ? " " + column.words(value, i, this) : "";
      const marked = column.mark && this.rows[column.mark]?.[i] ? "<sup>†</sup>" : "";
      const shown = value === null && !column.fixed ? "–" : column.show(value, i, this) + marked;
      return `<td${look ? ` class="${look}"` : ""}${words}>${shown}`;
    });
    return "<tr>" + cells.join("");
  }

  // How many of the rows are shown, of which those are drawn that are in sight: all, or the worst.
  most() {
    const always = this.isWorstFirst && !this.wants ? this.always ?? 0 : 0;
    return this.isAll ? this.asked.length : Math.min(Math.max(WORST, always), this.asked.length);
  }

  // The first and the last of the rows that are drawn.
  window() {
    const count = this.most();
    if (Grid.prints || count <= 4 * SPARE) return [0, count];
    const row = this.body.rows[1];
    if (row) this.high ??= Math.max(10, row.getBoundingClientRect().height);
    const high = this.high ?? 26, first = Math.max(0, Math.floor(this.box.scrollTop / high) - SPARE);
    return [first, Math.min(count, first + Math.ceil(this.box.clientHeight / high) + 2 * SPARE)];
  }

  draw(isNew) {
    const most = this.most(), isHigh = most > FOLD_ABOVE;
    this.box.classList.toggle("high", isHigh);
    // What scrolls can be reached by keys.
    if (isHigh) this.box.tabIndex = 0;
    else this.box.removeAttribute("tabindex");
    const [first, last] = this.window();
    if (!isNew && first === this.first && last === this.last) return;
    [this.first, this.last] = [first, last];
    this.body.innerHTML = this.asked.slice(first, last).map(i => this.row(i)).join("");
    const space = count => count ? `<tr><td colspan="99" style="height:${count * (this.high ?? 26)}px">` : "";
    this.before.innerHTML = space(first);
    this.after.innerHTML = space(most - last);
    this.say();
  }

  say() {
    if (!this.button) return;
    const all = whole(this.asked.length), most = whole(this.most()), only = this.wants ? " with this name" : "";
    const isWhole = this.asked.length <= this.most() && !this.isAll;
    this.button.hidden = this.asked.length <= WORST || isWhole;
    this.shown.textContent = this.isAll || isWhole ? `All ${all} ${this.what}${only}.` : `The first ${most} of ${all} ${this.what}${only}.`;
    this.button.textContent = this.isAll ? "Show the first alone" : "Show all";
  }
}

// A power of ten as an axis has it: short, whatever it is.
const SMALL = "⁰¹²³⁴⁵⁶⁷⁸⁹";
const power = ten => ten < 6 ? span(10 ** ten) : "10" + [...String(ten - 3)].map(digit => SMALL[digit]).join("") + " µs";
// Of the marks of an axis so many are written that they do not touch each other where the column is narrowest.
const MOST_MARKS = {screen: 4, print: 2};
const axis = () => {
  const count = data.high - data.low;
  const looks = i => [...Object.keys(MOST_MARKS).filter(look => i % Math.ceil(count / MOST_MARKS[look]) === 0),
    ...(i > 0.85 * count ? ["end"] : [])].join(" ");
  const ticks = Array.from({length: count + 1}, (_, i) =>
    `<i class="${looks(i)}" style="left:${(100 * i / count).toFixed(2)}%">${power(data.low + i)}</i>`);
  return `<span class="axis">${ticks.join("")}</span>`;
};

// ---- one virtual link, or one line ----

const endsOf = new Map(), usersOf = lines.name.map(() => []);
ends.vl?.forEach((id, i) => endsOf.has(id) ? endsOf.get(id).push(i) : endsOf.set(id, [i]));
for (const vl of data.vls) {
  vl.lines = [...new Set([...vl.paths.A, ...vl.paths.B].flat())];
  vl.nodes = [...new Set(vl.lines.flatMap(line => data.nodes[line]))];
  for (const line of vl.lines) usersOf[line].push(vl);
}
if (data.delays && !data.delays.line) {
  data.delays.vl = data.vls.flatMap(vl => vl.lines.map(() => vl.id));
  data.delays.line = data.vls.flatMap(vl => vl.lines.map(line => lines.name[line]));
}
const share = (vl, line) => (vl.sends ?? (vl.size + 20) * 8e5 / Math.max(vl.bag_ns, vl.period_ns)) / lines.mbit[line];
// The sizes of the frames of a virtual link, from the least to the greatest.
const sizesOf = vl => {
  const found = (vl.streams ?? [[vl.size, 1, vl.size]]).flatMap(([size, frames, last]) => frames > 1 ? [size, last] : [last]);
  const [least, greatest] = [Math.min(...found), Math.max(...found)];
  return least === greatest ? whole(least) : `${whole(least)} to ${whole(greatest)}`;
};
const wordsOfStream = ([size, frames, last, offset, period, jitter, isSporadic, end, sub]) =>
  (frames > 1 ? `${frames} frames of ${size === last ? "" : `${size} bytes, the last of `}${last} bytes` : `${last} bytes`)
  + (isSporadic ? `, sporadic, ${span(period)} apart at the least` : ` each ${span(period)}`)
  + (jitter ? `, jitter ${span(jitter)}` : "") + `, from ${span(offset)} on` + (end === null ? "" : ` until ${span(end)}`)
  + (sub === null ? "" : `, sub-virtual link ${sub}`);
const table = (id, columns, rows) => {
  const look = ([, unit]) => unit === undefined ? "" : "n";
  const heads = columns.map(it => `<th class="${look(it)}">${it[0]}<small>${it[1] ?? ""}</small></th>`);
  const cells = row => row.map((cell, i) => `<td class="${look(columns[i])}">${cell}`).join("");
  return `<div class="box"><table id="${id}"><thead><tr>${heads.join("")}</tr></thead>
    <tbody>${rows.map(row => "<tr>" + cells(row)).join("")}</tbody></table></div>`;
};
// The losses of a virtual link at a place, on one network or on both.
const lostAt = (vl, where, side = "") => vl.lost.filter(it => it[0] === where && it[1].includes(side))
  .map(it => `${it[2]} ${whole(it[3])}`).join(", ");
const shade = line => `--w:${Math.min(100, lines.load[line] / 100)}%;--c:${lines.colour[line]}`;
const bar = line => `<i class="bar" style="${shade(line)}"></i>`;

// What the document calls a virtual link or a node.
const namesOf = vl => Object.values(vl.named ?? {});
const factsOf = vl => [
  ...Object.entries(vl.named ?? {}).map(([kind, text]) => [kind, esc(text)]),
  ["BAG", span(vl.bag_ns)],
  ...(vl.streams ? [] : [["period", span(vl.period_ns)], ["size", vl.size + " bytes"]]),
  ["Smax", vl.smax + " bytes"], ["priority", vl.priority],
  ...(vl.streams ? [] : [["offset", span(vl.offset_ns)], ["jitter", span(vl.jitter_ns)]]),
  ["policing", "by " + vl.policing + ", jitter " + span(vl.policing_ns)], ["SkewMax", span(vl.skew_ns)],
  ["depth", counted(vl.depth, "frame")], ...(vl.sub > 1 ? [["sub-virtual links", vl.sub]] : []),
];

// The lines of the tree of a virtual link on one network, from the source on, each with its hop.
const hops = paths => {
  const tree = new Map();
  for (const path of paths)
    path.reduce((here, line) => here.get(line) ?? here.set(line, new Map()).get(line), tree);
  const walk = (here, hop) => [...here].flatMap(([line, behind]) => [[line, hop], ...walk(behind, hop + 1)]);
  return walk(tree, 1);
};

// What was measured of a hop, and its bound, where either is known.
const delays = new Map(data.delays?.vl.map((id, i) => [id + " " + data.delays.line[i], i]));
const delayColumns = !data.delays ? [] : [["delay", "µs"], ["delay_bound", "µs"]]
  .filter(([key]) => data.delays[key].some(ns => ns !== null));
const delayCells = (vl, line) => delayColumns.map(([key]) => {
  const i = delays.get(vl.id + " " + lines.name[line]), ns = data.delays[key][i] ?? null;
  return `<span class="${TONES[data.delays.delay_tone[i] ?? 0]}">${ns === null ? "–" : us(ns)}</span>`;
});

// What a capture shows: the verdicts on a virtual link, on a line, or on both.
const judged = data.judged;
const verdictsOn = (vl, line) => judged.vl.map((_, i) => i)
  .filter(i => (!vl || judged.vl[i] === vl.id) && (line === undefined || judged.lines[i].includes(line)));
const verdict = i => `<span class="${TONES[judged.tone[i]]}">${judged.verdict[i]}</span>`;
const judgedPart = (id, found) => table(id, [["what"], ["VL", "number"], ["network"], ["tap"], ["where"], ["judged", "frames"],
  ["break it", "frames"], ["worst", ""], ["allowed", ""], ["verdict"], ["packet", "number"], ["why"]],
found.map(i => [judged.what[i], toVl(judged.vl[i]), judged.net[i], esc(judged.tap[i]), esc(judged.where[i]), whole(judged.frames[i]),
  whole(judged.broken[i]), judged.shown[i] ?? "–", judged.most[i] ?? "–", verdict(i), judged.packet[i] ?? "–",
  `<div class="wrap">${esc(judged.why[i])}</div>`]));
// The worst verdict on a virtual link at a line; nothing where no tap is.
const worstOn = (vl, line) => {
  const [first, ...rest] = verdictsOn(vl, line);
  return first === undefined ? "" : verdict(rest.reduce((a, b) => judged.rank[b] > judged.rank[a] ? b : a, first));
};

const hopRows = vl => ["A", "B"].flatMap(side => hops(vl.paths[side]).map(([line, hop]) => {
  const [, there] = data.nodes[line];
  const lost = [lostAt(vl, lines.name[line], side), lostAt(vl, there, side)].filter(Boolean).join("; ");
  const out = lines.outages[line].map(([from, to]) => ` (out ${span(from)} to ${span(to)})`).join("");
  return [side, hop, `<span style="padding-left:${hop - 1}em">${toLine(lines.name[line])}</span>`,
    bar(line) + percent(lines.load[line]), share(vl, line).toFixed(2), whole(usersOf[line].length),
    ...delayCells(vl, line), (judged ? worstOn(vl, line) : lost || "–") + out];
}));

const strips = vl => `<div class="strips">${["A", "B"].filter(side => vl.paths[side].length).map(side => {
  const ways = vl.paths[side].slice(0, 12).map(path => {
    const loadOf = line => toLine(lines.name[line], percent(lines.load[line]) + " %");
    const steps = path.map(line => ` <span class="step">${loadOf(line)}</span> <b>${esc(data.nodes[line][1])}</b>`);
    return `<li><b>${esc(vl.source)}</b>${steps.join("")}</li>`;
  });
  const more = vl.paths[side].length > 12 ? `<li>and ${vl.paths[side].length - 12} more</li>` : "";
  return `<ul class="strip ${side.toLowerCase()}">${ways.join("")}${more}</ul>`;
}).join("")}</div>`;

const endColumns = [
  ["destination"], ["offered", "frames", "offered"], ["delivered", "frames", "count"],
  ["under way", "frames", "under_way"], ["missing", "frames", "missing"], ["least", "µs", "least"],
  ["mean", "µs", "mean"],
  ...data.percents.map(it => [it + "th", "µs", "p" + it]), ["greatest", "µs", "greatest"], ["limit", "µs", "limit"],
  ["bound", "µs", "bound"], ["margin", "µs", "margin"], ["copies", "frames", "copies"],
  ["lost on A", "copies", "lostA"], ["lost on B", "copies", "lostB"], ["ten frames take", "µs", "needed"],
];
const columnsFor = own => endColumns.filter(([, , key]) => !key || key in ends && own.some(i => ends[key][i] !== null));

const endCell = (i, unit, key) => {
  const value = ends[key][i];
  const tone = {limit: "limit_tone", margin: "limit_tone", missing: "missing_tone", count: "few"}[key];
  const shown = value === null ? "–" : unit === "µs" ? us(value) : counts(value);
  return `<span class="${TONES[ends[tone]?.[i] ?? 0]}">${shown}</span>`;
};

const vlPart = vl => {
  const own = endsOf.get(vl.id) ?? [];
  const columns = columnsFor(own);
  const rows = own.map(i => [esc(ends.where[i]), ...columns.slice(1).map(([, unit, key]) => endCell(i, unit, key))]);
  const passes = (path, where) => path.some(line => lines.name[line] === where || data.nodes[line].includes(where));
  const concerns = where => [...new Set([...vl.paths.A, ...vl.paths.B].filter(path => passes(path, where))
    .map(path => data.nodes[path.at(-1)][1]))];
  const lost = vl.lost.map(([where, side, cause, count]) =>
    [esc(where), side, cause, whole(count), `<div class="wrap">${esc(concerns(where).join(", "))}</div>`]);
  const figure = i => `<figure><figcaption>${esc(ends.where[i])}: ${counted(ends.count[i], "frame")}</figcaption>
    <div class="hg">${histogram(i, 560, 64)}</div></figure>`;
  const drawn = "histogram" in ends ? own.map(figure).join("") : "";
  const percentiles = data.percents.map(it => `<span><b class="k p${it}"></b> ${it}th percentile</span>`).join("");
  const facts = factsOf(vl).map(([name, value]) => `<div><dt>${name}</dt><dd>${value}</dd></div>`).join("");
  const streams = (vl.streams ?? []).map(it => `<li>${wordsOfStream(it)}</li>`).join("");
  const first = judged ? `<h3>What was judged</h3>${judgedPart("vl-judged", verdictsOn(vl))}`
    : `<h3>At each destination</h3>${table("vl-ends", columns, rows)}`;
  const copies = judged ? "" : `<h3>Copies lost</h3>${lost.length ? table("vl-lost", [["place"], ["network"], ["cause"], ["lost", "frames"],
      ["on the way to"]], lost) : "<p><b>No copy was lost.</b></p>"}`;
  return `${first}
    <h3>Hop by hop</h3>${table("vl-hops", [["network"], ["hop", "number"], ["line"], ["load", "%"], ["of this", "%"],
      ["virtual links", "number"], ...delayColumns.map(([key, unit]) => [key === "delay" ? "delay" : "bound of it", unit]),
      [judged ? "verdict" : "lost on it or at its end"]], hopRows(vl))}
    ${copies}
    ${drawn ? `<h3>Latencies</h3><div class="legend">${percentiles}</div><div class="figures">${drawn}</div>` : ""}
    <h3>What it is</h3><dl class="facts">${facts}</dl>${streams ? `<h3>What is offered to it</h3><ul id="vl-streams">${streams}</ul>` : ""}`;
};

const linePart = line => {
  const users = [...usersOf[line]].sort((a, b) => share(b, line) - share(a, line));
  const rows = users.map(vl => [toVl(vl.id), share(vl, line).toFixed(2), us(vl.bag_ns), sizesOf(vl),
    lostAt(vl, lines.name[line]) || "–", esc(vl.source),
    `<div class="wrap">${esc((endsOf.get(vl.id) ?? []).map(i => ends.where[i]).join(", "))}</div>`]);
  const first = judged ? `<h3>What was judged on it</h3>${judgedPart("line-judged", verdictsOn(null, line))}` : "";
  return first + `<h3>Virtual links that use it</h3>` + table("line-vls", [["VL", "number"], ["takes", "%"], ["BAG", "µs"],
    ["size", "bytes"], ["lost on the line"], ["source"], ["destinations"]], rows);
};

const headOf = (title, words, more) =>
  `<h3>${title}</h3><a class="close" href="#network">All lines</a><p>${words}</p>${more}`;

const vlHead = vl => {
  const own = endsOf.get(vl.id) ?? [], where = own.map(i => esc(ends.where[i]));
  const said = `from <b>${esc(vl.source)}</b> to <b>${where.join(", ")}</b>: ${sizesOf(vl)} bytes, BAG ${span(vl.bag_ns)}`;
  return headOf(`Virtual link ${vl.id}${vl.named ? " " + esc(namesOf(vl)[0]) : ""}`, said, strips(vl));
};

const lineHead = line => {
  const out = lines.outages[line].map(([from, to]) => `, out from ${span(from)} to ${span(to)}`).join("");
  const most = lines.waiting && (lines.waiting[line] === null ? "there is no bound on the bytes that wait before it"
    : `at most ${whole(lines.waiting[line])} bytes wait before it`);
  const waiting = most ? `; ${most}, and its port holds ${whole(lines.holds[line])}` : "";
  const users = counted(usersOf[line].length, "virtual link");
  const said = `${percent(lines.load[line])} % of ${lines.mbit[line]} Mbit/s by ${users}`;
  return headOf(`Line ${esc(lines.name[line])}`, said + out + waiting, "");
};

// ---- the drawing ----

const drawing = element("drawing");
const shapes = {line: new Map(), node: new Map()};
drawing?.querySelectorAll("[data-line]").forEach(it => shapes.line.set(it.dataset.line, it));
drawing?.querySelectorAll("[data-node]").forEach(it => shapes.node.set(it.dataset.node, it));

const number = (shape, hop) => {
  const path = shape.querySelector("path[stroke]"), long = path.getTotalLength();
  const isStraight = !path.getAttribute("d").includes("V");
  const {x, y} = path.getPointAtLength(long * (isStraight && long > 80 ? 0.22 : 0.5));
  const size = long > 80 ? 6.5 : 5;
  return `<circle cx="${x}" cy="${y}" r="${size}"/><text x="${x}" y="${y + 3.3}" text-anchor="middle">${hop}</text>`;
};

const light = (lit, nodes, source, targets, hopOf) => {
  if (!drawing) return;
  drawing.querySelector(".hops")?.remove();
  drawing.classList.toggle("lit", Boolean(lit));
  drawing.querySelectorAll(".on").forEach(it => it.classList.remove("on", "from", "to"));
  if (!lit) return;
  let numbers = "";
  for (const line of lit) {
    const shape = shapes.line.get(lines.name[line]);
    shape.classList.add("on");
    if (hopOf) numbers += number(shape, hopOf.get(line));
  }
  for (const name of nodes) {
    shapes.node.get(name)?.classList.add("on", ...(name === source ? ["from"] : targets.includes(name) ? ["to"] : []));
  }
  drawing.insertAdjacentHTML("beforeend", `<g class="hops">${numbers}</g>`);
};

const choose = () => {
  const hash = decodeURIComponent(location.hash.slice(1)), [, table, name] = /^(vl|line)-(.*)$/.exec(hash) ?? [];
  const vl = table === "vl" ? vls.get(Number(name)) : null, line = table === "line" ? lines.name.indexOf(name) : -1;
  const chosen = element("chosen"), one = element("one");
  chosen.hidden = one.hidden = !vl && line < 0;
  element("found").hidden = true;
  if (vl) {
    chosen.innerHTML = vlHead(vl);
    one.innerHTML = vlPart(vl);
    const targets = (endsOf.get(vl.id) ?? []).map(i => ends.where[i]);
    light(vl.lines, vl.nodes, vl.source, targets, new Map([...hops(vl.paths.A), ...hops(vl.paths.B)]));
  } else if (line >= 0) {
    chosen.innerHTML = lineHead(line);
    one.innerHTML = linePart(line);
    light([line], data.nodes[line], data.nodes[line][0], [data.nodes[line][1]]);
  } else {
    chosen.innerHTML = one.innerHTML = "";
    light(null);
  }
  if (vl || line >= 0) element("network").scrollIntoView();
};

// ---- the search ----

const MOST_FOUND = 60;
const find = element("find"), list = element("found");
const findVls = text => {
  const wants = text.toLowerCase();
  if (/^[0-9]+$/.test(wants) && vls.has(Number(wants)))
    return [...data.vls.filter(vl => String(vl.id) === wants),
      ...data.vls.filter(vl => String(vl.id) !== wants && String(vl.id).startsWith(wants))];
  const exact = shapes.node.has(text) || shapes.line.has(text);
  const has = name => (name ?? "").toLowerCase().includes(wants);
  const is = name => exact ? name === text : has(name) || has(data.named[name]);
  const rank = vl => is(vl.source) || !exact && namesOf(vl).some(has) ? 0 : (endsOf.get(vl.id) ?? []).some(i => is(ends.where[i])) ? 1 :
    vl.nodes.some(is) || vl.lines.some(line => is(lines.name[line])) ? 2 : String(vl.id).startsWith(wants) ? 3 : 4;
  return [0, 1, 2, 3].flatMap(wanted => data.vls.filter(vl => rank(vl) === wanted));
};
const search = () => {
  const text = find.value.trim(), found = text ? findVls(text) : [];
  const rows = found.slice(0, MOST_FOUND).map(vl => {
    const where = (endsOf.get(vl.id) ?? []).map(i => ends.where[i]);
    const more = where.length > 6 ? ` and ${where.length - 6} more` : "";
    const said = `<b>${vl.id}</b> ${esc(vl.source)} to ${esc(where.slice(0, 6).join(", "))}${more}`;
    return `<li>${toVl(vl.id, said)}</li>`;
  });
  const head = `<li class="count">${text ? counted(found.length, "virtual link") : ""}${
    found.length > MOST_FOUND ? `, of which the first ${MOST_FOUND}` : ""}</li>`;
  list.innerHTML = head + rows.join("");
  list.hidden = !text;
};
find.addEventListener("input", search);
find.addEventListener("focus", search);
find.addEventListener("keydown", event => {
  if (event.key === "Enter") { list.querySelector("a")?.click(); }
  if (event.key === "ArrowDown") { list.querySelector("a")?.focus(); event.preventDefault(); }
});
list.addEventListener("keydown", event => {
  const step = {ArrowDown: "nextElementSibling", ArrowUp: "previousElementSibling"}[event.key];
  if (step) { (event.target.closest("li")[step]?.querySelector("a") ?? find).focus(); event.preventDefault(); }
});
document.addEventListener("keydown", event => { if (event.key === "Escape") list.hidden = true; });
document.addEventListener("click", event => { if (!event.target.closest(".find")) list.hidden = true; });
const pick = event => {
  const line = event.target.closest("[data-line]"), node = event.target.closest("[data-node]");
  if (line) location.hash = "line-" + encodeURIComponent(line.dataset.line);
  else if (node) { find.value = node.dataset.node; find.focus(); search(); event.stopPropagation(); }
};
drawing?.addEventListener("click", pick);
// The tabulator goes from line to line, and Enter or the space bar does what a click does.
shapes.line.forEach(it => { it.setAttribute("tabindex", "0"); it.setAttribute("role", "button"); });
drawing?.addEventListener("keydown", event => {
  if (event.key === "Enter" || event.key === " ") { pick(event); event.preventDefault(); }
});

// ---- begin ----

document.documentElement.style.setProperty("--decades", data.high - data.low);
const grids = data.grids.map(spec => new Grid(spec, element("grid-" + spec.name)));
const print = prints => {
  Grid.prints = prints;
  element("printed").textContent = prints ? `Printed ${new Date().toISOString().slice(0, 16).replace("T", " ")} UTC.` : "";
  grids.forEach(grid => grid.draw(true));
};
addEventListener("beforeprint", () => print(true));
addEventListener("afterprint", () => print(false));
addEventListener("hashchange", choose);
choose();
