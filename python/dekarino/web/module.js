// The module: its partitions, ports and channels, which of them are marked, and the messages that wait on each channel.

// Marks what belongs to something, or removes the mark if it is marked.
function toggleMark(mark) {
  if (!shown.run) return;
  const isSame = mark && shown.mark && JSON.stringify(mark) === JSON.stringify(shown.mark);
  shown.mark = isSame ? null : mark;
  showModule();
  measure();
  draw(true);
  for (const button of document.querySelectorAll("#plots .channel-name")) {
    button.setAttribute("aria-pressed", String(Boolean(shown.mark) && shown.mark.channel === button.textContent));
  }
}

function marking(label, mark, classes) {
  const isPressed = shown.mark && JSON.stringify(mark) === JSON.stringify(shown.mark);
  return make("button", {
    type: "button", class: classes, text: label, "aria-pressed": String(Boolean(isPressed)), onclick: () => toggleMark(mark)});
}

function wordsOfPort(port) {
  const ends = port.partners.map(it => `${it.partition}.${it.port}`).join(", ");
  const refresh = port.refresh === null ? "" : `, refresh ${port.refresh}`;
  const arrow = port.direction === "source" ? "\u2192" : "\u2190";
  return ` ${arrow} ${port.channel} ${arrow} ${ends}${refresh}`;
}

// Whether a port is marked: by itself, its partition, its channel, or a port at the other end.
function isMarked(port) {
  const {mark} = shown;
  return belongs(mark, port) || Boolean(mark) && mark.kind === "port" && port.partners.some(it => belongs(mark, it));
}

function showPartition(module, name) {
  const ports = module.ports.filter(port => port.partition === name);
  const items = ports.map(port => make("li", {class: `port ${port.kind}${isMarked(port) ? " marked" : ""}`},
    marking(`${port.id} ${port.port}`, {kind: "port", partition: name, port: port.port}, "port-name"),
    make("span", {text: wordsOfPort(port)})));
  const isIn = ports.some(isMarked) || shown.mark && shown.mark.kind === "partition" && shown.mark.partition === name;
  return make("li", {class: `partition${isIn ? " marked" : ""}`},
    marking(name, {kind: "partition", partition: name}, "partition-name"), make("ul", {}, ...items));
}

function wordsOfChannel(channel) {
  const depth = channel.depth === null ? "" : `, depth ${channel.depth}`;
  return ` ${channel.kind}, size ${channel.size}${depth}`;
}

function showModule() {
  const {module, calls} = shown.run;
  const channels = [...module.channels.values()].map(channel => make("li", {
    class: `channel ${channel.kind}${channel.ports.some(isMarked) ? " marked" : ""}`},
    marking(channel.name, {kind: "channel", channel: channel.name}, "channel-name"),
    make("span", {text: wordsOfChannel(channel)})));
  const partitions = module.partitions.map(name => showPartition(module, name));
  keepFocus(find("module"), () => find("module").replaceChildren(
    make("ul", {class: "partitions", "aria-label": "Partitions"}, ...partitions),
    make("ul", {class: "channels", "aria-label": "Channels"}, ...channels)));
  for (const [id, key] of Object.entries(BUTTONS)) find(id).disabled = !calls.some(SOUGHT[key]);
  const {mark} = shown;
  find("mark").textContent = !mark ? "Choose a partition, a port or a channel to mark what belongs to it."
    : `Marked: ${mark.kind} ${mark.kind === "port" ? `${mark.partition}.${mark.port}` : mark[mark.kind]}, `
      + `${plural(calls.filter(call => callBelongs(mark, call)).length, "call")}`;
}

// ---- plots

const PLOT = {width: 300, height: 54, top: 8, bottom: 50};

// The steps of a count, at most two per unit of the width.
function stepsOf(counts, total, level) {
  const across = place => place / Math.max(1, total) * PLOT.width;
  const points = [`M0 ${level(0)}`];
  let column = -1, low = 0, high = 0, last = 0;
  const close = () => points.push(`V${level(high)}V${level(low)}V${level(last)}`);
  counts.places.forEach((place, at) => {
    const unit = Math.round(across(place + 1) * 2) / 2;
    if (unit !== column) {
      if (column >= 0) close();
      points.push(`H${unit}`);
      [column, low, high] = [unit, last, last];
    }
    last = counts.values[at];
    low = Math.min(low, last);
    high = Math.max(high, last);
  });
  if (column >= 0) close();
  return `${points.join("")}H${across(shown.run.facts.known)}`;
}

function plotOf(counts) {
  const {channel} = counts, total = shown.run.calls.length;
  const {known} = shown.run.facts;
  const when = known < total ? `after call ${known}` : "in the end";
  const words = `${counts.end} ${when}, at most ${counts.most}, depth ${channel.depth}`;
  if (!counts.agrees) {
    return make("p", {text: `${channel.name}: the count of replies is not what the program says, and is not drawn`});
  }
  const greatest = Math.max(channel.depth, counts.most);
  const level = value => PLOT.bottom - value / greatest * (PLOT.bottom - PLOT.top);
  const picture = make("svg:svg", {
    class: "plot", viewBox: `0 0 ${PLOT.width} ${PLOT.height}`, preserveAspectRatio: "none", role: "img", "aria-label": `${channel.name}: messages waiting: ${words}`,
    onclick: event => {
      const box = picture.getBoundingClientRect();
      choose(Math.max(0, Math.min(total - 1, Math.round((event.clientX - box.left) / box.width * total) - 1)));
    }},
    make("svg:path", {class: "base", d: `M0 ${PLOT.bottom}H${PLOT.width}`}),
    make("svg:path", {class: "count", d: stepsOf(counts, total, level)}),
    make("svg:path", {class: "depth", d: `M0 ${level(channel.depth)}H${PLOT.width}`}),
    make("svg:path", {class: "now", d: ""}));
  const name = marking(channel.name, {kind: "channel", channel: channel.name}, "channel-name");
  return make("figure", {}, make("figcaption", {}, name, make("span", {text: ` ${words}`})), picture);
}

// Goes to a call, even if the filters left it out, and to the list.
function choose(place) {
  if (!shown.run.calls.length) return;
  if (shown.rowOf[place] < 0) clearFilters();
  select(place);
  find("list").focus();
}

function showPlots() {
  const {run} = shown;
  const plots = run.counts.map(plotOf);
  if (!plots.length) plots.push(make("p", {text: "The module has no queuing channel."}));
  if (run.facts.known < run.calls.length) {
    plots.push(make("p", {text: `Counted up to call ${run.facts.known}, the last before the first departure.`}));
  }
  find("plots").replaceChildren(...plots);
}

// Shows the chosen call in each plot.
function movePlots() {
  const {selected, run} = shown;
  const x = selected === null ? null : (selected + 1) / run.calls.length * PLOT.width;
  for (const line of document.querySelectorAll("#plots .now")) line.setAttribute("d", x === null ? "" : `M${x} 0V${PLOT.height}`);
}
