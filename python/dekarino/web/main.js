// Starts the page, and prints it.

// The maximum number of printed calls; the size of a row on paper, and of a page that fits both A4 and Letter.
const MOST_PRINTED = 4000, PRINTED_ROW = 50, PRINTED_LINES = 3, PRINTED_WIDTH = 680, PRINTED_HEIGHT = 920;
const BUTTONS = {"next-refused": "r", "next-departure": "d", "next-marked": "m"};
const FOLDS = ["legend-fold", "config-fold", "sources-fold"];

let data = null;
let place = 0;

function titleOf(facts) {
  return `${facts.name}, ${plural(facts.calls.rows.length, "call")}`;
}

function runButton(run, at) {
  return make("button", {
    type: "button", text: run.name, "aria-pressed": String(at === place), onclick: () => {
      place = at;
      shown.selected = null;
      show(data);
    }});
}

// Shows these facts, with the chosen run.
function show(facts) {
  data = facts;
  const kept = shown.selected;
  const module = new Module(facts.table);
  shown.run = new Run(module, facts.runs[place]);
  shown.selected = kept !== null && kept < shown.run.calls.length ? kept : null;
  const parts = [...module.ports, ...module.partitions.map(partition => ({partition}))];
  if (!parts.some(part => belongs(shown.mark, part))) shown.mark = null;
  find("title").textContent = titleOf(facts.runs[place]);
  keepFocus(find("runs"), () => find("runs").replaceChildren(...facts.runs.length < 2 ? [] : facts.runs.map(runButton)));
  showSources(facts);
  showModule();
  fillFilters();
  showPlots();
  showRemarks();
  measure();
  filter();
  showDetail();
  movePlots();
}

function start() {
  const facts = JSON.parse(find("data").textContent);
  document.body.prepend(arrowHeads());
  find("legend").replaceChildren(...legend());
  listen();
  if (!facts.live) return show(facts);
  data = facts;
  const live = new Live(facts);
  return live.show(facts);
}

function listen() {
  for (const id of Object.keys(FILTERS)) find(id).addEventListener("change", filter);
  find("by-words").addEventListener("input", filter);
  find("filters").addEventListener("submit", event => event.preventDefault());
  find("all-calls").addEventListener("click", clearFilters);
  for (const [id, key] of Object.entries(BUTTONS)) find(id).addEventListener("click", () => seek(SOUGHT[key]));
  let isAwaited = false;
  find("list").addEventListener("scroll", () => {
    if (isAwaited) return;
    isAwaited = true;
    requestAnimationFrame(() => {
      isAwaited = false;
      draw(false);
    });
  });
  find("list").addEventListener("keydown", onListKey);
  new ResizeObserver(() => {
    if (!shown.run) return;
    measure();
    draw(true);
  }).observe(find("list"));
  document.addEventListener("keydown", onKey);
  addEventListener("beforeprint", printPaper);
  addEventListener("afterprint", () => {
    find("paper").replaceChildren();
    FOLDS.forEach(id => find(id).removeAttribute("open"));
  });
}

// Keys that go to a place, except from a field.
function onKey(event) {
  if (/^(INPUT|TEXTAREA|SELECT)$/.test(event.target.tagName) || event.ctrlKey || event.altKey || event.metaKey) return;
  const goal = {"/": "by-words", "l": "list"}[event.key];
  if (!goal) return;
  find(goal).focus();
  event.preventDefault();
}

// Lays out all listed calls, in blocks that stay whole on a page, each with the names above it.
function printPaper() {
  if (!shown.run) return;
  const count = Math.min(shown.rows.length, MOST_PRINTED);
  const column = columnWidth(PRINTED_WIDTH, shown.run.module.partitions.length);
  const width = column * shown.run.module.partitions.length, number = numberWidth(shown.run, false);
  const room = roomFor(PRINTED_WIDTH, number, width, 6.7);
  const perBlock = Math.floor((PRINTED_HEIGHT - heightOfHeads(shown.run.module, column)) / PRINTED_ROW), blocks = [];
  for (let first = 0; first < count; first += perBlock) {
    const last = Math.min(count, first + perBlock);
    blocks.push(make("div", {class: "block"}, make("div", {class: "paper-heads"}, make("span", {class: "head-number", text: "Call, moment"}),
      ...drawHeads(shown.run.module, shown.mark, column, () => {})),
      make("div", {class: "paper-rows"}, drawChart(shown, first, last, column, PRINTED_ROW),
        ...Array.from({length: last - first}, (_, at) => printedRow(first + at, room)))));
  }
  FOLDS.forEach(id => find(id).setAttribute("open", ""));
  const paper = find("paper");
  paper.style.setProperty("--row", `${PRINTED_ROW}px`);
  paper.style.setProperty("--number", `${number}px`);
  paper.style.setProperty("--chart", `${width}px`);
  const left = shown.rows.length - count;
  paper.replaceChildren(make("h2", {text: `Calls (${find("count").textContent})`}), ...blocks,
    ...(left > 0 ? [make("p", {text: `${plural(left, "more call")}, not printed: filter the list to print a part.`})] : []));
}

function printedRow(row, room) {
  const drawn = drawRow(row, PRINTED_LINES, room);
  for (const name of ["id", "role", "aria-selected", "aria-setsize", "aria-posinset"]) drawn.removeAttribute(name);
  return drawn;
}

start();
