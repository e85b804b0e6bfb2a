// The list of calls: which are listed, which are drawn, and which one is chosen.

// What is shown: the run, the places of the listed calls, the row of each place or -1, the chosen place, the mark, the width
// of a life line's column, the number of characters that fit in a line, and the lines and the height of a row.
const shown = {run: null, rows: [], rowOf: [], selected: null, mark: null, column: 20, room: 60, lines: 2, high: 40,
  drawn: ""};
// Browsers limit the height of an element to some 17 million units.
const HIGHEST = 12e6;
const FILTERS = {"by-partition": "partition", "by-channel": "channel", "by-service": "service", "by-code": "code"};

// Whether something belongs to what is marked. it: a port, or a part of one.
function belongs(mark, it) {
  if (!mark || !it) return false;
  if (mark.kind === "partition") return it.partition === mark.partition;
  if (mark.kind === "channel") return it.channel === mark.channel;
  return it.partition === mark.partition && it.port === mark.port;
}

const callBelongs = (mark, call) => Boolean(mark) && (mark.kind === "partition" ? call.partition === mark.partition
  : belongs(mark, call.port));

function valueOf(call, name) {
  return name === "channel" ? call.port && call.port.channel : call[name];
}

// Lists the calls that pass the filters and the search.
function filter() {
  const wanted = Object.entries(FILTERS).map(([id, name]) => [name, find(id).value]).filter(([, value]) => value !== "");
  const words = find("by-words").value.toLowerCase().split(/\s+/).filter(word => word !== "");
  const {run} = shown;
  if (!run) return;
  shown.rows = [];
  shown.rowOf = new Int32Array(run.calls.length).fill(-1);
  for (const call of run.calls) {
    if (!wanted.every(([name, value]) => valueOf(call, name) === value)) continue;
    if (words.length && !words.every(word => run.haystack(call).includes(word))) continue;
    shown.rowOf[call.place] = shown.rows.length;
    shown.rows.push(call.place);
  }
  find("count").textContent = `${shown.rows.length} of ${plural(run.calls.length, "call")}`;
  draw(true);
}

// Fills the choices of a filter, and keeps the chosen one if it still exists.
function fillFilter(id, values) {
  const chosen = find(id).value;
  find(id).replaceChildren(make("option", {value: "", text: "all"}), ...values.map(it => make("option", {value: it, text: it})));
  find(id).value = values.includes(chosen) ? chosen : "";
}

function fillFilters() {
  const {module, calls} = shown.run;
  const inOrder = values => [...new Set(values)].sort();
  fillFilter("by-partition", module.partitions);
  fillFilter("by-channel", [...module.channels.keys()]);
  fillFilter("by-service", Object.keys(SERVICES).filter(it => calls.some(call => call.service === it)));
  fillFilter("by-code", inOrder(calls.map(call => call.code)));
}

// ---- what is drawn

// The text of a call's reply: parts with their elements.
function partsOfReply(call) {
  const inBrackets = words => words ? ` (${words})` : "", {departure, replies} = call;
  const parts = [["span", `${call.isRefused ? "\u2717 " : ""}${call.answer}${inBrackets(call.words)}`]];
  if (departure) parts.push(["strong", ` \u25c6 expected: ${departure.standard}${inBrackets(departure.words)}`]);
  if (replies && replies.length > 1) parts.push(["em", ` \u21c4 ${replies.length} replies by order`]);
  return parts;
}

const textOf = parts => parts.map(([, text]) => text).join("");

// The number of lines of a text if this many characters fit in one; it is broken at spaces, as by the browser.
function linesOf(text, room) {
  let lines = 1, used = 0;
  for (const {length} of text.split(" ")) {
    if (used && used + 1 + length > room) [lines, used] = [lines + 1, 0];
    used += (used ? 1 : 0) + length;
    for (; used > room; used -= room) lines += 1;
  }
  return lines;
}

// The number of lines of each row: enough for the longest departure and, in a narrow list, the longest refusal, in bounds.
function linesOfRows(run, room, isNarrow) {
  const least = isNarrow ? 3 : 2, most = least + (isNarrow && run.facts.departures.length ? 2 : 1);
  let lines = least;
  for (const call of run.calls) {
    if (lines >= most) return most;
    if (call.departure || isNarrow && call.words) lines = Math.max(lines, 1 + linesOf(textOf(partsOfReply(call)), room));
  }
  return Math.min(lines, most);
}

// The width of the column of numbers and moments: each moment fits, in a narrow list in two lines.
function numberWidth(run, isNarrow) {
  const wanted = run.calls.reduce((most, {at}) => Math.max(most, 10 + Math.ceil(6.7 * String(at).length)), isNarrow ? 62 : 92);
  return isNarrow ? Math.min(80, wanted) : wanted;
}

// The number of characters that fit beside the chart, by the width of one.
const roomFor = (width, number, chart, character) => Math.max(8, Math.floor((width - number - chart - 18) / character));

function measure() {
  const {clientWidth} = find("list"), isNarrow = clientWidth < 700;
  shown.column = columnWidth(clientWidth, shown.run.module.partitions.length);
  const width = shown.column * shown.run.module.partitions.length;
  const number = numberWidth(shown.run, isNarrow);
  shown.room = roomFor(clientWidth, number, width, 7.3);
  shown.lines = linesOfRows(shown.run, shown.room, isNarrow);
  shown.high = Math.ceil(5 + 17.4 * shown.lines);
  // (later, since an observer must not change what it observes)
  requestAnimationFrame(() => {
    find("list").style.maxHeight = `${shown.run.calls.length * shown.high + 2}px`;
  });
  document.documentElement.style.setProperty("--number", `${number}px`);
  document.documentElement.style.setProperty("--chart", `${width}px`);
  document.documentElement.style.setProperty("--row", `${shown.high}px`);
  keepFocus(find("heads"), () => find("heads").replaceChildren(
    make("span", {class: "head-number", text: "Call, moment"}),
    make("span", {class: "head-names"}, ...drawHeads(shown.run.module, shown.mark, shown.column, toggleMark)),
    make("span", {class: "head-text", text: "What was called, and the reply"})));
}

// The row at the top of the list, as a fraction; in a list that is too high, by its scroll position.
function topRow(list, height) {
  const count = shown.rows.length, room = list.clientHeight;
  if (height === count * shown.high) return list.scrollTop / shown.high;
  return list.scrollTop / Math.max(1, height - room) * Math.max(0, count - room / shown.high);
}

// Draws the visible rows, and some above and below. isAnew: even if the same rows are already drawn.
function draw(isAnew) {
  const list = find("list"), count = shown.rows.length;
  const height = Math.min(count * shown.high, HIGHEST);
  find("space").style.height = `${height}px`;
  const top = topRow(list, height);
  const first = Math.max(0, Math.floor(top) - 6);
  const last = Math.min(count, Math.ceil(top + list.clientHeight / shown.high) + 6);
  find("rows").style.transform = `translateY(${list.scrollTop - (top - first) * shown.high}px)`;
  if (!isAnew && shown.drawn === `${first} ${last}`) return;
  shown.drawn = `${first} ${last}`;
  find("rows").replaceChildren(drawChart(shown, first, last, shown.column, shown.high),
    ...Array.from({length: last - first}, (_, at) => drawRow(first + at, shown.lines, shown.room)));
}

// The other ends of a call's arrows, in words.
function endsOf(run, call) {
  const ends = (run.outgoing.get(call.place) || []).map(arrow => arrow.to + 1);
  const from = run.incoming.get(call.place);
  const first = ends.slice(0, 3).join(", ") + (ends.length > 3 ? ".." : "");
  return (from ? ` \u2190 ${from.from + 1}` : "") + (first ? ` \u2192 ${first}` : "");
}

// Writes parts of a text into at most this many lines, and returns their number. A longer text fills each line.
function write(into, parts, wanted, lines) {
  into.append(...parts.map(([tag, text]) => make(tag, {text})));
  into.classList.toggle("filled", wanted > lines);
  into.style.webkitLineClamp = Math.min(wanted, lines);
  return Math.min(wanted, lines);
}

// One call: its number and moment, room for the chart, what was called, and the reply, in this many lines.
function drawRow(row, lines, room) {
  const call = shown.run.calls[shown.rows[row]];
  const reply = make("span", {class: `reply${call.isRefused ? " is-refused" : ""}`}), asked = make("span", {class: "asked"});
  const replied = partsOfReply(call), called = [["b", call.partition], ["span", ` ${call.asked}${endsOf(shown.run, call)}`]];
  const wanted = linesOf(textOf(called), room);
  // (words of a refusal or a departure come first)
  const kept = call.isRefused || call.departure ? 1 : Math.min(wanted, Math.floor(lines / 2));
  const taken = write(reply, replied, linesOf(textOf(replied), room), lines - kept);
  write(asked, called, wanted, lines - taken);
  const classes = ["row", callBelongs(shown.mark, call) && "marked", call.place === shown.selected && "selected",
    call.departure && "departing"].filter(Boolean).join(" ");
  return make("div", {
    class: classes, role: "option", id: `call-${call.place + 1}`, "aria-selected": String(call.place === shown.selected),
    "aria-setsize": shown.rows.length, "aria-posinset": row + 1, title: `${call.text.trim()} -> ${textOf(partsOfReply(call))}`,
    onclick: () => select(call.place)},
    make("span", {class: "number"}, make("b", {text: call.place + 1}), make("i", {text: call.at})),
    make("span", {class: "room"}),
    make("span", {class: "text"}, asked, reply));
}

// ---- the chosen call

function select(place) {
  shown.selected = place;
  find("list").setAttribute("aria-activedescendant", place === null ? "" : `call-${place + 1}`);
  if (place !== null) reveal(shown.rowOf[place]);
  draw(true);
  showDetail();
  movePlots();
}

// Scrolls to a row if it isn't visible.
function reveal(row) {
  const list = find("list");
  if (row < 0) return;
  const height = Math.min(shown.rows.length * shown.high, HIGHEST), seen = list.clientHeight / shown.high;
  const top = topRow(list, height);
  if (row >= top && row + 1 <= top + seen) return;
  const wanted = Math.max(0, row < top ? row - 1 : row + 2 - seen);
  const scale = height === shown.rows.length * shown.high ? shown.high
    : (height - list.clientHeight) / Math.max(1, shown.rows.length - seen);
  list.scrollTop = wanted * scale;
}

// Moves by rows among the listed calls.
function step(by) {
  const now = shown.selected === null ? -1 : shown.rowOf[shown.selected];
  if (!shown.rows.length) return;
  // (if none is chosen, down begins at the first and up at the last)
  const from = now < 0 && by < 0 ? shown.rows.length : now;
  select(shown.rows[Math.max(0, Math.min(shown.rows.length - 1, from + by))]);
}

// The kinds of calls to which keys go.
const SOUGHT = {r: call => call.isRefused, d: call => call.departure, m: call => callBelongs(shown.mark, call)};

// Goes to the next or the previous listed call for which this holds.
function seek(holds, isBack) {
  const count = shown.rows.length, way = isBack ? -1 : 1;
  const now = shown.selected === null ? (isBack ? count : -1) : shown.rowOf[shown.selected];
  for (let far = 1; far <= count; far += 1) {
    const place = shown.rows[((now + way * far) % count + count) % count];
    if (holds(shown.run.calls[place])) {
      select(place);
      return;
    }
  }
}

// Goes to the other end of the chosen call's arrow; from a write, to each read in turn.
function follow() {
  const run = shown.run, place = shown.selected;
  if (place === null) return;
  const out = run.outgoing.get(place), into = run.incoming.get(place);
  const next = out ? out[0].to : into ? into.from : null;
  if (next === null) return;
  if (shown.rowOf[next] < 0) clearFilters();
  select(next);
}

function clearFilters() {
  for (const id of [...Object.keys(FILTERS), "by-words"]) find(id).value = "";
  filter();
}

function onListKey(event) {
  const page = Math.max(1, Math.floor(find("list").clientHeight / shown.high) - 1);
  const all = shown.rows.length;
  const moves = {ArrowDown: 1, ArrowUp: -1, PageDown: page, PageUp: -page, Home: -all, End: all};
  if (event.ctrlKey || event.altKey || event.metaKey) return;
  if (event.key in moves) step(moves[event.key]);
  else if (event.key === "Enter") follow();
  else if (event.key.toLowerCase() in SOUGHT) seek(SOUGHT[event.key.toLowerCase()], event.shiftKey);
  else if (event.key === "Escape") toggleMark(null);
  else return;
  event.preventDefault();
}
