"use strict";
const run = JSON.parse(document.getElementById("data").textContent);
const $ = (id) => document.getElementById(id);
const ROW = 18, LABEL = 130, AXIS = 22, LINE = 20;
const shown = (number) => (number === null ? "" : number.toLocaleString("en"));

// Tabs: a click, the arrows on a tab, or a number chooses one.
const tabs = [...document.querySelectorAll("[role=tab]")];
function choose(tab, isFirst = false) {
  for (const it of tabs) {
    it.setAttribute("aria-selected", it === tab);
    it.tabIndex = it === tab ? 0 : -1;
    $(it.getAttribute("aria-controls")).hidden = it !== tab;
  }
  if (!isFirst && !location.hash.includes("=")) history.replaceState(null, "", "#view=" + tab.getAttribute("aria-controls"));
  redraw();
}
tabs.forEach((tab, index) => {
  tab.onclick = () => choose(tab);
  tab.onkeydown = (event) => {
    const step = { ArrowRight: 1, ArrowLeft: -1 }[event.key];
    if (!step) return;
    const next = tabs[(index + step + tabs.length) % tabs.length];
    choose(next);
    next.focus();
  };
});
document.addEventListener("keydown", (event) => {
  if (event.target.tagName === "INPUT" || event.ctrlKey || event.metaKey || event.altKey) return;
  if (event.key === "/") {
    choose($("tab-log"));
    $("search").focus();
    event.preventDefault();
  } else if (event.key > "0" && event.key <= String(tabs.length)) choose(tabs[event.key - 1]);
});

// The segments of each thread, in order of time.
const threads = Object.keys(run.threads).map(Number).sort((a, b) => a - b);
const rowOf = new Map(threads.map((thread, row) => [thread, row]));
const rows = threads.map(() => ({ start: [], end: [], node: [], ready: [] }));
const { thread: threadOf, start: starts, cost: costs, end: ends, ready: readies } = run.segments;
const READY = "#a0651fcc";
for (let index = 0; index < starts.length; index++) {
  const row = rows[rowOf.get(threadOf[index])];
  row.start.push(starts[index]);
  row.end.push(starts[index] + costs[index]);
  row.node.push(ends[index]);
  row.ready.push(readies[index]);
}
for (const row of rows) {
  row.busy = new Float64Array(row.start.length + 1);
  for (let index = 0; index < row.start.length; index++) row.busy[index + 1] = row.busy[index] + row.end[index] - row.start[index];
}
// The least index whose number is above `limit`.
function above(numbers, limit) {
  let low = 0, high = numbers.length;
  while (low < high) {
    const middle = (low + high) >> 1;
    if (numbers[middle] > limit) high = middle;
    else low = middle + 1;
  }
  return low;
}
const nodes = Object.keys(run.nodes).map(Number).filter((node) => node > 1);
const isDark = matchMedia("(prefers-color-scheme: dark)");
// The colour of a node's place, with its pattern, as in the other views.
const fills = new Map();
function colour(node, context) {
  if (node <= 1) return "transparent";
  const [hue, pattern] = run.styles[node], key = hue + pattern;
  if (!pattern || !context) return hue;
  if (!fills.has(key)) {
    const tile = document.createElement("canvas"), marks = tile.getContext("2d");
    tile.width = tile.height = 8;
    marks.fillStyle = hue;
    marks.fillRect(0, 0, 8, 8);
    marks.fillStyle = "#0006";
    for (let at = 0; at < 8; at++) marks.fillRect(pattern === 1 ? at : (at & 4) + 1, pattern === 1 ? 7 - at : (at & 4) + 1, 2, 2);
    fills.set(key, tile);
  }
  return context.createPattern(fills.get(key), "repeat");
}
const fromStyle = (name) => getComputedStyle(document.documentElement).getPropertyValue(name);

const arrivals = run.requests.map((it) => it[1]);

// The window of the timeline, in ticks.
const whole = Math.max(run.clock, 1);
let from = 0, to = whole;
function show(first, last) {
  const width = Math.min(Math.max(last - first, 10), whole);
  from = Math.min(Math.max(first, 0), whole - width);
  to = from + width;
  $("from").value = Math.round(from);
  $("to").value = Math.round(to);
  redraw();
}
const zoom = (factor, at = (from + to) / 2) => show(at - (at - from) * factor, at + (to - at) * factor);
const move = (share) => show(from + (to - from) * share, to + (to - from) * share);

function sized(canvas, width, height) {
  const ratio = devicePixelRatio || 1;
  canvas.width = width * ratio;
  canvas.height = height * ratio;
  canvas.style.width = width + "px";
  canvas.style.height = height + "px";
  const context = canvas.getContext("2d");
  context.scale(ratio, ratio);
  context.font = "12px ui-monospace, monospace";
  return context;
}

// One row: a wait in the colour of its place, a segment in ink. Where several segments begin within a pixel, the ink is as
// strong as the share of time that they run, over the colour of the first wait there.
function drawRow(context, row, y, width, ink) {
  const scale = width / (to - from), x = (time) => LABEL + (time - from) * scale;
  let index = Math.max(above(row.start, from) - 1, 0);
  while (index < row.start.length && row.start[index] < to) {
    const left = Math.max(x(row.start[index]), LABEL);
    const tick = 1 / scale;
    const next = Math.max(above(row.start, row.start[index] + tick), index + 1);
    const last = next - 1;
    const waitEnd = next < row.start.length ? row.start[next] : row.node[last] > 1 ? whole : row.end[last];
    if (row.end[last] < waitEnd && waitEnd > from) {
      context.globalAlpha = isDark.matches ? 0.5 : 1;
      context.fillStyle = colour(row.node[last], context);
      const begin = Math.max(x(row.end[last]), LABEL);
      context.fillRect(begin, y + 4, Math.max(Math.min(x(waitEnd), LABEL + width) - begin, 0), ROW - 8);
      context.globalAlpha = 1;
      if (next < row.start.length && row.ready[next] < row.start[next]) {
        const since = Math.max(x(row.ready[next]), LABEL);
        context.fillStyle = READY;
        context.fillRect(since, y + 4, Math.max(Math.min(x(waitEnd), LABEL + width) - since, 0), ROW - 8);
      }
    }
    const right = Math.min(x(row.end[last]), LABEL + width);
    if (right > LABEL) {
      const isMany = next - index > 1, begin = isMany ? Math.floor(left) : left, wide = isMany ? Math.floor(right) - begin : right - begin;
      if (isMany && row.node[index] > 1) {
        context.fillStyle = colour(row.node[index], context);
        context.fillRect(begin, y + 4, Math.max(wide, 1), ROW - 8);
      }
      const share = isMany ? (row.busy[next] - row.busy[index]) / Math.max(row.end[last] - row.start[index], tick) : 1;
      context.globalAlpha = Math.max(Math.min(share, 1), 0.15);
      context.fillStyle = ink;
      context.fillRect(begin, y + 2, Math.max(wide, 1), ROW - 4);
      context.globalAlpha = 1;
    }
    index = next;
  }
}
// A step between marks of the axis: 1, 2 or 5 and zeros.
function roundStep(least) {
  const power = 10 ** Math.floor(Math.log10(Math.max(least, 1)));
  return [1, 2, 5, 10].map((it) => it * power).find((it) => it >= least);
}
function drawTimeline() {
  const box = $("rows"), canvas = $("canvas");
  $("space").style.height = rows.length * ROW + AXIS + "px";
  const wide = box.clientWidth, high = box.clientHeight, width = wide - LABEL - 8;
  const context = sized(canvas, wide, high), ink = fromStyle("--run"), soft = fromStyle("--soft");
  const step = roundStep((to - from) / Math.max(width / 110, 1));
  context.strokeStyle = fromStyle("--line");
  for (let mark = Math.ceil(from / step) * step; mark <= to; mark += step) {
    const x = Math.round(LABEL + ((mark - from) * width) / (to - from)) + 0.5;
    context.beginPath();
    context.moveTo(x, AXIS);
    context.lineTo(x, high);
    context.stroke();
    context.fillStyle = soft;
    if (x + 80 < wide) context.fillText(shown(mark), x + 3, 14);
  }
  // Arrivals above the rows, and drops in red.
  for (const [clocks, ink] of [[arrivals, fromStyle("--accent")], [run.drops, "#cc3311"]]) {
    context.fillStyle = ink;
    for (let index = above(clocks, from - 1), before = -1; index < clocks.length && clocks[index] <= to; index++) {
      const x = Math.floor(LABEL + ((clocks[index] - from) * width) / (to - from));
      if (x !== before) context.fillRect(x, AXIS - 6, 1.5, 6);
      before = x;
    }
  }
  const first = Math.floor(box.scrollTop / ROW);
  for (let row = first; row < rows.length; row++) {
    const y = AXIS + row * ROW - box.scrollTop;
    if (y > high) break;
    if (y < AXIS - 1) continue;
    context.fillStyle = fromStyle("--ink");
    context.fillText(run.threads[threads[row]].slice(0, 16), 6, y + 13);
    drawRow(context, rows[row], y, width, ink);
  }
}
// How busy the run was in each part of its time, and the window.
const PARTS = 600, busy = new Float64Array(PARTS);
for (let index = 0; index < starts.length; index++) {
  const first = starts[index], last = first + costs[index];
  for (let part = Math.floor((first / whole) * PARTS); part < PARTS && (part / PARTS) * whole < last; part++) {
    busy[part] += Math.min(last, ((part + 1) / PARTS) * whole) - Math.max(first, (part / PARTS) * whole);
  }
}
function drawOverview() {
  const canvas = $("strip"), wide = canvas.parentElement.clientWidth - 32, context = sized(canvas, wide, 40), width = wide - LABEL - 8;
  context.fillStyle = fromStyle("--mark");
  context.fillRect(LABEL + (from / whole) * width, 0, Math.max(((to - from) / whole) * width, 2), 40);
  context.fillStyle = fromStyle("--accent");
  for (let part = 0; part < PARTS; part++) {
    const height = Math.min((busy[part] / (whole / PARTS)) * 36, 36), left = Math.floor(LABEL + (part * width) / PARTS);
    if (height) context.fillRect(left, 40 - Math.max(height, 1), Math.floor(LABEL + ((part + 1) * width) / PARTS) - left, 40);
  }
  context.strokeStyle = fromStyle("--ink");
  context.lineWidth = 2;
  context.strokeRect(LABEL + (from / whole) * width, 1, Math.max(((to - from) / whole) * width, 2), 38);
  context.fillStyle = fromStyle("--soft");
  context.fillText("busy, whole run", 6, 24);
}
function redraw() {
  if (!$("timeline").hidden) requestAnimationFrame(() => { drawTimeline(); drawOverview(); });
  if (!$("requests").hidden) requestList.draw();
  if (!$("log").hidden) logList.draw();
  if (!$("state").hidden) state.draw();
}
$("window").onsubmit = (event) => {
  event.preventDefault();
  const number = (id) => Number($(id).value.replace(/[ ,]/g, ""));
  if (number("to") > number("from")) show(number("from"), number("to"));
};
$("all").onclick = () => show(0, whole);
$("in").onclick = () => zoom(0.5);
$("out").onclick = () => zoom(2);
$("rows").onscroll = redraw;
$("rows").onkeydown = (event) => {
  const width = to - from;
  const does = {
    ArrowLeft: () => move(-0.1), ArrowRight: () => move(0.1), "+": () => zoom(0.5), "=": () => zoom(0.5), "-": () => zoom(2), 0: () => show(0, whole),
    Home: () => show(0, width), End: () => show(whole - width, whole),
  }[event.key];
  if (!does || event.ctrlKey || event.metaKey) return;
  does();
  event.preventDefault();
};
const timeAt = (event, canvas) => from + ((event.clientX - canvas.getBoundingClientRect().left - LABEL) / (canvas.clientWidth - LABEL - 8)) * (to - from);
$("rows").addEventListener("wheel", (event) => {
  if (event.ctrlKey || event.metaKey) zoom(event.deltaY > 0 ? 1.25 : 0.8, timeAt(event, $("canvas")));
  else if (event.shiftKey) move(event.deltaY > 0 ? 0.1 : -0.1);
  else return;
  event.preventDefault();
}, { passive: false });
$("canvas").onpointerdown = (event) => {
  const x = event.clientX, first = from, last = to, scale = (to - from) / ($("canvas").clientWidth - LABEL - 8);
  $("canvas").setPointerCapture(event.pointerId);
  $("canvas").onpointermove = (it) => show(first - (it.clientX - x) * scale, last - (it.clientX - x) * scale);
  $("canvas").onpointerup = () => { $("canvas").onpointermove = point; };
};
function point(event) {
  const y = event.clientY - $("canvas").getBoundingClientRect().top - AXIS + $("rows").scrollTop;
  $("pointed").textContent = tellAt(rows[Math.floor(y / ROW)], threads[Math.floor(y / ROW)], timeAt(event, $("canvas")));
}
function tellAt(row, thread, time) {
  if (!row || time < from) return "";
  const index = above(row.start, time) - 1;
  if (index < 0) return "";
  const name = `thread ${run.threads[thread]}`, node = row.node[index], at = node < 0 ? "cut" : run.nodes[node];
  const start = row.start[index], end = row.end[index], until = row.start[index + 1];
  if (time <= end) return `${name}: runs from ${shown(start)} to ${shown(end)}, ${shown(end - start)} instructions, then ${at}`;
  const rest = until === undefined ? "to the stop" : `to ${shown(until)}, ${shown(until - end)} ticks`;
  return node > 1 ? `${name}: waits at ${at} from ${shown(end)} ${rest}` : "";
}
$("canvas").onpointermove = point;
$("canvas").onclick = (event) => state.toClock(timeAt(event, $("canvas")));
const overviewTime = (event) => ((event.clientX - $("strip").getBoundingClientRect().left - LABEL) / ($("strip").clientWidth - LABEL - 8)) * whole;
$("strip").onpointerdown = (event) => {
  const first = overviewTime(event);
  $("strip").setPointerCapture(event.pointerId);
  $("strip").onpointermove = (it) => show(Math.min(first, overviewTime(it)), Math.max(first, overviewTime(it)));
  $("strip").onpointerup = () => { $("strip").onpointermove = null; };
};
function drawLegend() {
  $("legend").replaceChildren(...nodes.map((node) => {
    const entry = document.createElement("span"), box = document.createElement("i");
    box.style.background = colour(node);
    if (run.styles[node][1]) box.style.backgroundImage = run.styles[node][1] === 1 ? "repeating-linear-gradient(45deg, #0006 0 1px, transparent 1px 4px)" : "radial-gradient(#0008 1px, transparent 1.5px)", box.style.backgroundSize = run.styles[node][1] === 1 ? "" : "4px 4px";
    entry.append(box, link(`#line=${run.styles[node][2]}`, run.nodes[node]));
    return entry;
  }));
  const [running, ready] = [["runs", fromStyle("--run")], ["ready, not chosen", READY]].map(([name, ink]) => {
    const entry = document.createElement("span"), box = document.createElement("i");
    box.style.background = ink;
    entry.append(box, name);
    return entry;
  });
  $("legend").prepend(running, ready);
}

// A list of which only the lines in view are elements.
class List {
  constructor(element, fill, pick) {
    Object.assign(this, { element, fill, pick, order: [], current: -1 });
    this.space = element.appendChild(document.createElement("div"));
    element.onscroll = () => this.draw();
    element.onkeydown = (event) => this.key(event);
  }
  set(order) {
    this.order = order;
    this.current = -1;
    this.element.scrollTop = 0;
    this.draw();
  }
  draw() {
    this.space.style.height = this.order.length * LINE + "px";
    for (const it of [...this.element.querySelectorAll(".row")]) it.remove();
    const first = Math.floor(this.element.scrollTop / LINE), last = Math.min(first + Math.ceil(this.element.clientHeight / LINE) + 1, this.order.length);
    for (let place = first; place < last; place++) {
      const row = document.createElement("div");
      row.className = place === this.current ? "row current" : "row";
      row.style.top = place * LINE + "px";
      this.fill(row, this.order[place]);
      row.onclick = () => this.go(place, true);
      this.element.append(row);
    }
  }
  go(place, isPicked) {
    this.current = Math.min(Math.max(place, 0), this.order.length - 1);
    const top = this.current * LINE, box = this.element;
    if (top < box.scrollTop) box.scrollTop = top;
    if (top + LINE > box.scrollTop + box.clientHeight) box.scrollTop = top + LINE - box.clientHeight;
    this.draw();
    this.moved?.(this.order[this.current]);
    if (isPicked && this.current >= 0) this.pick(this.order[this.current]);
  }
  key(event) {
    const page = Math.floor(this.element.clientHeight / LINE);
    const step = { ArrowDown: 1, ArrowUp: -1, PageDown: page, PageUp: -page, Home: -Infinity, End: Infinity }[event.key];
    if (step) this.go(this.current + step, false);
    else if (event.key === "Enter") this.go(this.current, true);
    else return;
    event.preventDefault();
  }
}
function cell(text, name = "cell") {
  const it = document.createElement("span");
  it.className = name;
  it.textContent = text;
  return it;
}

function link(target, text) {
  const it = document.createElement("a");
  it.href = target;
  it.textContent = text;
  it.onclick = (event) => event.stopPropagation();
  return it;
}

// Requests: value, arrived, taken, thread, first, last, the number of outputs, the first outputs. A request that was never
// taken has neither a thread nor later clocks.
const minus = (a, b) => (a === null ? null : a - b);
const COLUMNS = [
  ["request", (it, index) => index + 1], ["value", (it) => it[0]], ["thread", (it) => it[3]], ["arrived", (it) => it[1]], ["taken", (it) => it[2]],
  ["queued", (it) => minus(it[2], it[1])], ["first answer", (it) => minus(it[4], it[1])], ["last answer", (it) => minus(it[5], it[1])],
  ["outputs", (it) => it[6]],
];
const requestList = new List(
  $("requestList"),
  (row, index) => {
    const it = run.requests[index];
    row.append(...COLUMNS.map(([, value]) => cell(shown(value(it, index)))));
    row.append(cell(it[2] === null ? "never taken" : it[7].map(shown).join(" ") + (it[6] > it[7].length ? " .." : ""), "told"));
  },
  (index) => {
    const it = run.requests[index], last = it[5] ?? it[2] ?? it[1], room = Math.max((last - it[1]) * 0.2, 20);
    show(it[1] - room, last + room);
    choose($("tab-timeline"));
    toThread(it[3]);
  },
);
let sortedBy = -1, isFalling = false;
function sortBy(column) {
  isFalling = column === sortedBy ? !isFalling : false;
  sortedBy = column;
  const value = COLUMNS[column][1], sign = isFalling ? -1 : 1;
  const keys = run.requests.map((it, index) => value(it, index) ?? Infinity);
  requestList.set(keys.map((_, index) => index).sort((a, b) => (keys[a] === keys[b] ? a - b : sign * (keys[a] < keys[b] ? -1 : 1))));
  [...$("columns").children].forEach((it, index) => {
    it.setAttribute("aria-sort", index !== column ? "none" : isFalling ? "descending" : "ascending");
    it.textContent = COLUMNS[index][0] + (index !== column ? "" : isFalling ? " ▾" : " ▴");
  });
}
$("columns").append(...COLUMNS.map(([name], column) => {
  const button = document.createElement("button");
  button.setAttribute("role", "columnheader");
  button.textContent = name;
  button.onclick = () => sortBy(column);
  return button;
}));

// The log, and the lines of it that have what is searched for.
const lines = run.log.split("\n");
const logList = new List(
  $("logList"),
  (row, index) => row.append(cell(shown(index + 1), "number"), cell(lines[index], ""), told(lines[index])),
  (index) => {
    while (index >= 0 && !/^(run|event|drop) /.test(lines[index])) index--;
    if (index < 0) return;
    const clock = Number(lines[index].split(" ")[1]), half = Math.min((to - from) / 2, 500);
    show(clock - half, clock + half);
    choose($("tab-timeline"));
  },
);
// A line of the log in words, with a link to the line of the source.
function told(line) {
  const [kind, ...it] = line.split(" "), box = cell("", "told"), name = (thread) => `thread ${run.threads[thread] ?? thread}`;
  const at = (node) => (node > 1 && run.styles[node] ? link(`#line=${run.styles[node][2]}`, run.nodes[node]) : (run.nodes[node] ?? ""));
  const says = {
    run: () => [`${name(it[1])} goes on from `, at(it[2])], out: () => [`${name(it[0])} puts ${shown(Number(it[1]))}`],
    block: () => [`${name(it[0])} waits at `, at(it[1]), `; ${shown(Number(it[3]))} instructions, ${shown(Number(it[4]))} chunks free`],
    end: () => [`${name(it[0])} ends; ${shown(Number(it[1]))} instructions, ${shown(Number(it[2]))} chunks free`],
    event: () => [it[1] === "data" ? `message ${it[3]} on channel ${it[2]}` : `request ${it[2]} comes`],
    drop: () => [it[1] === "data" ? `message ${it[3]} on channel ${it[2]} is dropped` : `request ${it[2]} is dropped`],
    edge: () => [`${shown(Number(it[2]))} segments from `, at(it[0]), " to ", at(it[1])],
  }[kind];
  if (says) box.append(...says());
  return box;
}
function matcher(text) {
  const pattern = text.match(/^\/(.+)\/$/);
  if (!pattern) return (line) => line.includes(text);
  const expression = new RegExp(pattern[1]);
  return (line) => expression.test(line);
}
function find() {
  let has;
  try {
    has = matcher($("search").value);
  } catch {
    $("found").textContent = "no such expression";
    return;
  }
  const order = [];
  lines.forEach((line, index) => has(line) && order.push(index));
  const more = run.leftOut ? `; ${shown(run.leftOut)} more lines of the log aren't on this page` : "";
  $("found").textContent = `${shown(order.length)} of ${shown(lines.length)} lines` + more;
  logList.set(order);
}
$("search").oninput = find;
$("find").onsubmit = (event) => {
  event.preventDefault();
  $("logList").focus();
  logList.go(0, false);
};

if (run.leftOut) document.querySelector("h1 small").append(`; this page has the first ${shown(lines.length)} lines of the log, and ${shown(run.leftOut)} more are left out`);

/* state.js */
logList.moved = (index) => index !== undefined && state.toLine(index + 1);
// Links: to a line of the source, the log's lines at a line, a thread, a request, a clock.
function toThread(thread) {
  choose($("tab-timeline"));
  if (rowOf.has(thread)) $("rows").scrollTop = Math.max(rowOf.get(thread) * ROW - 100, 0);
}
const routes = {
  view: (name) => choose($("tab-" + name) ?? tabs[0]),
  line: (line) => {
    choose($("tab-source"));
    for (const it of document.querySelectorAll(".code.current")) it.classList.remove("current");
    $("L" + line)?.classList.add("current");
    $("L" + line)?.scrollIntoView({ block: "center" });
  },
  at: (line) => {
    const here = nodes.filter((node) => run.styles[node][2] === Number(line));
    choose($("tab-log"));
    $("search").value = here.length ? `/^(run \\d+ \\d+|block \\d+) (${here.join("|")})( |$)/` : `no thread blocks at line ${line}`;
    find();
  },
  thread: (thread) => toThread(Number(thread)),
  request: (number) => { choose($("tab-requests")); requestList.go(requestList.order.indexOf(number - 1), false); },
  clock: (clock) => { show(Number(clock) - 500, Number(clock) + 500); choose($("tab-timeline")); },
};
function follow() {
  const [kind, value] = location.hash.slice(1).split("=");
  if (routes[kind]) routes[kind](value);
}
addEventListener("hashchange", follow);

// Tables that sort by the column whose head is clicked.
for (const table of document.querySelectorAll("table.sorts")) {
  [...table.tHead.rows[0].cells].forEach((head, column) => {
    head.firstChild.onclick = () => {
      const isUp = head.getAttribute("aria-sort") === "descending";
      for (const it of table.tHead.rows[0].cells) it.removeAttribute("aria-sort");
      head.setAttribute("aria-sort", isUp ? "ascending" : "descending");
      const value = (row) => { const text = row.cells[column].dataset.value; return text !== "" && !isNaN(text) ? Number(text) : text; };
      const rows = [...table.tBodies[0].rows].sort((a, b) => (value(a) < value(b) ? -1 : value(a) > value(b) ? 1 : 0));
      table.tBodies[0].append(...(isUp ? rows : rows.reverse()));
    };
  });
}

isDark.addEventListener("change", () => {
  drawLegend();
  redraw();
});
drawLegend();
addEventListener("resize", redraw);
sortBy(0);
find();
show(0, whole);
choose(tabs[0], true);
follow();
