// The chart: life lines, the marks of calls, and the arrows between them.

const MARKS = {
  done: ["call answered NO_ERROR", g => g.append(make("svg:circle", {r: 4, class: "done"}))],
  refused: ["call refused or not made", g => g.append(make("svg:path", {d: "M-4 -4L4 4M-4 4L4 -4", class: "refused"}))],
  departs: ["reply of a log that is not the expected one",
    g => g.append(make("svg:path", {d: "M0 -8L8 0L0 8L-8 0Z", class: "departs"}),
      make("svg:path", {d: "M0 -4V1M0 3V4.5", class: "departs-sign"}))],
  waits: ["send whose message waits in the end", g => g.append(make("svg:circle", {r: 7, class: "waits"}),
    make("svg:circle", {r: 4, class: "done"}))],
};
const ARROWS = {
  message: "from a send to the receive that took its message", sample: "from a write to a read that showed its sample",
  stale: "from a write to a read that showed its sample as INVALID",
};

const kindOfArrow = arrow => arrow.isStale ? "stale" : arrow.isSample ? "sample" : "message";

function kindsOfMarks(run, call) {
  const kinds = [run.waits.has(call.place) ? "waits" : call.isRefused ? "refused" : "done"];
  return call.departure ? ["departs"] : kinds;
}

// The heads of arrows, which are defined once.
function arrowHeads() {
  const heads = Object.keys(ARROWS).map(kind => make("svg:marker", {
    id: `head-${kind}`, viewBox: "0 0 10 8", markerWidth: 9, markerHeight: 8, refX: 14, refY: 4, orient: "auto",
    markerUnits: "userSpaceOnUse"}, make("svg:path", {d: "M1 1L9 4L1 7Z", class: `head ${kind}-head`})));
  return make("svg:svg", {width: 0, height: 0, class: "heads", "aria-hidden": "true"}, make("svg:defs", {}, ...heads));
}

// The width of a life line's column if the list has this width, in whole units.
function columnWidth(width, count) {
  const share = width < 500 ? 0.3 : 0.36, atMost = part => Math.floor(width * part / Math.max(1, count));
  // (upright names are legible from 10 units on)
  return Math.max(4, Math.min(90, Math.max(atMost(share), Math.min(10, atMost(0.4)))));
}

// The path of an arrow; between calls of one life line it bends aside.
function courseOf(x1, y1, x2, y2, column) {
  if (x1 !== x2) return `M${x1} ${y1}L${x2} ${y2}`;
  const aside = x1 + Math.max(10, column / 2);
  return `M${x1} ${y1}C${aside} ${y1} ${aside} ${y2} ${x2} ${y2}`;
}

// The part of a way down that lies between two heights. (dashes that are far out of sight take long)
function clipped([x1, y1], [x2, y2], top, bottom) {
  const across = y => x1 + (x2 - x1) * (y - y1) / (y2 - y1), begin = Math.max(y1, top), end = Math.min(y2, bottom);
  return [across(begin), begin, across(end), end];
}

// The maximum number of arrows drawn to ends below the rows in sight, and also of the chosen call's arrows.
const MOST_BELOW = 100;

// Draws the rows of the list from first up to, but not including, last, as one picture of their height.
function drawChart(shown, first, last, column, high) {
  const {run, rows, rowOf} = shown;
  const across = name => (run.module.partitions.indexOf(name) + 0.5) * column;
  const down = row => (row - first + 0.5) * high;
  const place = call => [across(call.partition), down(rowOf[call.place])];
  const width = column * run.module.partitions.length, height = (last - first) * high;
  const lines = run.module.partitions.map(name => make("svg:path", {
    class: `life${belongs(shown.mark, {partition: name}) ? " marked" : ""}`, d: `M${across(name)} 0V${height}`}));
  const isSeen = ({from, to}) => rowOf[from] >= 0 && rowOf[to] >= 0 && rowOf[from] < last && rowOf[to] >= first;
  const drawArrow = (arrow, more) => make("svg:path", {
    class: `arrow ${kindOfArrow(arrow)}${more}`, "marker-end": `url(#head-${kindOfArrow(arrow)})`,
    "data-from": arrow.from + 1, "data-to": arrow.to + 1,
    d: courseOf(...clipped(place(run.calls[arrow.from]), place(run.calls[arrow.to]), -3 * high, height + 3 * high), column)});
  const {selected} = shown, arrows = [], marks = [];
  // (arrows are in the order of their ends, so those that end in sight come first)
  const most = last - first + MOST_BELOW;
  for (const arrow of run.arrows) {
    if (arrows.length === most) break;
    if (isSeen(arrow) && arrow.from !== selected && arrow.to !== selected) arrows.push(drawArrow(arrow, ""));
  }
  // (those of the chosen call are drawn over all others)
  const chosen = [run.incoming.get(selected), ...run.outgoing.get(selected) || []].filter(it => it && isSeen(it));
  arrows.push(...chosen.slice(0, most).map(arrow => drawArrow(arrow, " chosen")));
  for (let row = first; row < last; row += 1) {
    const call = run.calls[rows[row]], [x, y] = place(call);
    const mark = make("svg:g", {transform: `translate(${x} ${y})`, "data-call": call.place + 1});
    for (const kind of kindsOfMarks(run, call)) MARKS[kind][1](mark);
    if (call.place === selected) mark.append(make("svg:circle", {r: 11, class: "chosen-ring"}));
    marks.push(mark);
  }
  return make("svg:svg", {width, height, viewBox: `0 0 ${width} ${height}`, class: "chart", "aria-hidden": "true"},
    ...lines, ...arrows, ...marks);
}

const longestName = module => Math.max(0, ...module.partitions.map(name => name.length));
const isTurnedAt = (module, column) => longestName(module) * 8 > column;

// The maximum height of the names.
const heightOfHeads = (module, column) => isTurnedAt(module, column) ? 10 + 7.4 * longestName(module) : 26;

// The names above the life lines, upright if they fit.
function drawHeads(module, mark, column, onMark) {
  // (if the lines are close, only some have their names)
  const isTurned = isTurnedAt(module, column), every = Math.ceil(8 / column);
  return module.partitions.map((name, at) => {
    const head = make("button", {
      type: "button", text: name, title: `Mark partition ${name}`, class: `head-name${isTurned ? " turned" : ""}`,
      "aria-pressed": String(Boolean(mark && mark.kind === "partition" && mark.partition === name)),
      onclick: () => onMark({kind: "partition", partition: name})});
    head.style.width = `${column}px`;
    head.style.fontSize = `${Math.min(12, column * every)}px`;
    head.style.visibility = at % every ? "hidden" : null;
    return head;
  });
}

// What the marks and arrows mean.
function legend() {
  const box = {width: 60, height: 20, viewBox: "-30 -10 60 20", "aria-hidden": "true"};
  const picture = (...parts) => make("svg:svg", box, ...parts);
  const items = Object.values(MARKS).map(([words, draw]) => {
    const mark = make("svg:g");
    draw(mark);
    return [picture(mark), words];
  });
  for (const [kind, words] of Object.entries(ARROWS)) {
    const arrow = make("svg:path", {class: `arrow ${kind}`, "marker-end": `url(#head-${kind})`, d: "M-28 0H28"});
    items.push([picture(arrow), words]);
  }
  return items.flatMap(([drawn, words]) => [make("dt", {}, drawn), make("dd", {text: words})]);
}
