// The chosen call with its message from send to end, the remarks, and the origin of the page.

const callButton = (run, place, words) => make("button", {
  type: "button", class: "link", text: `${words || "call"} ${place + 1}`, onclick: () => choose(place)});

// A list of terms, without those that have no value.
function terms(items) {
  return make("dl", {}, ...items.filter(([, value]) => value !== null && value !== undefined && value !== "")
    .flatMap(([name, value]) => [make("dt", {text: name}), make("dd", {}, ...[value].flat())]));
}

const between = (run, from, to) => String(BigInt(run.calls[to].at) - BigInt(run.calls[from].at));

// What happened to a message that a call sent or wrote.
function fateOf(run, call) {
  const out = run.outgoing.get(call.place) || [];
  if (call.isRefused || call.place >= run.facts.known) return null;
  if (call.service === "write") return fateOfSample(run, call, out);
  if (call.service !== "send") return null;
  if (out.length) return ["received by ", callButton(run, out[0].to), `, ${between(run, call.place, out[0].to)} ns later`];
  if (run.waits.has(call.place)) return "waits in the end";
  if (run.facts.waits === null) return `not received in the first ${plural(run.facts.known, "call")}`;
  const clear = run.calls.slice(call.place).find(it => it.service === "clear" && !it.isRefused && it.port
    && it.port.channel === call.port.channel);
  return ["cleared", ...(clear ? [" by ", callButton(run, clear.place)] : [])];
}

function fateOfSample(run, call, out) {
  if (!out.length) return run.facts.known < run.calls.length
    ? `shown by none of the first ${plural(run.facts.known, "call")}` : "shown by no read";
  const most = 20, more = out.length > most ? [` and ${out.length - most} more`] : [];
  return ["shown by ", ...out.slice(0, most).flatMap((arrow, at) => [
    at ? ", " : "", callButton(run, arrow.to), arrow.isStale ? " (INVALID)" : ""]), ...more];
}

function originOf(run, call) {
  const arrow = run.incoming.get(call.place);
  return arrow && [arrow.isSample ? "written by " : "sent by ", callButton(run, arrow.from),
    `, ${between(run, arrow.from, call.place)} ns before`];
}

function wordsOfDeparture(departure) {
  return departure && `logged ${departure.logged}; expected: ${departure.standard}`
    + (departure.words ? ` (${departure.words})` : "");
}

function showDetail() {
  const {run, selected} = shown;
  find("detail-part").classList.toggle("is-empty", selected === null);
  if (selected === null) {
    find("detail").replaceChildren(make("p", {text: "Choose a call in the list: by a click, or by the arrow keys."}));
    return;
  }
  const call = run.calls[selected];
  find("detail").replaceChildren(make("p", {class: "chosen-call", text: call.text.trim()}), terms([
    ["Number", `${call.place + 1}, line ${call.line} of ${run.facts.name}`],
    ["Reply", call.answer + (call.words ? ` (${call.words})` : "")],
    ["Note in the log", call.note],
    ["Departure", wordsOfDeparture(call.departure)],
    ["Row", call.place < run.facts.known ? call.row : call.departure && call.departure.row],
    ["Port", call.port && `${call.port.partition}.${call.port.port}, channel ${call.port.channel}`],
    ["Its message", originOf(run, call)],
    [call.service === "write" ? "Its sample" : "Its end", fateOf(run, call)],
    ["In every order", call.replies && call.replies.flatMap((reply, at) => [at ? make("br") : "", reply])],
  ]));
}

// ---- remarks

function wordsOfOrders(orders) {
  if (!orders) return [];
  if (orders.said) return [`Orders: ${orders.said}`];
  const open = orders.calls.filter(([, replies]) => replies.length > 1).length;
  const depends = open === 1 ? "1 reply depends" : `${open} replies depend`;
  return [`Orders: ${depends} on which partition calls first`,
    ...orders.groups.map(it => `Orders of ${it.partitions.join(", ")}: `
      + `${plural(it.states, "state")}, ${plural(it.ends, "end")}`)];
}

function wordsOfArrows(facts, count) {
  if (facts.known >= count) return [];
  return [`Arrows: those of the first ${plural(facts.known, "call")}, since the first departure comes behind them`];
}

function showRemarks() {
  const {facts, calls} = shown.run;
  const list = [];
  if (facts.judged) {
    const count = plural(facts.judged.calls, "call"), departures = plural(facts.judged.departures, "departure");
    list.push(facts.judged.departures ? `Judged: ${departures} in ${count}` : `Judged: ${count}, as the standard says`,
      "Judged with time-out zero where a call says none, and with the identifiers that this project gives ports");
  }
  const departures = calls.filter(call => call.departure)
    .map(call => [callButton(shown.run, call.place), `: ${wordsOfDeparture(call.departure)}`]);
  const remarks = facts.remarks.map(it => {
    const call = it.line && calls.find(each => each.line === it.line);
    return call ? [callButton(shown.run, call.place), `: ${it.words}`] : [it.words];
  });
  const all = [...list.map(it => [it]), ...departures, ...remarks, ...wordsOfOrders(facts.orders).map(it => [it]),
    ...wordsOfArrows(facts, calls.length).map(it => [it])];
  const most = 200, more = all.length > most ? [make("li", {text: `and ${all.length - most} more`})] : [];
  find("remarks").replaceChildren(all.length
    ? make("ul", {}, ...all.slice(0, most).map(parts => make("li", {}, ...parts)), ...more) : make("p", {text: "None."}));
}

// ---- the origin of the page

function showSources(data) {
  const of = it => `${it.name}, ${it.bytes} bytes, SHA-256 ${it.sha256}`;
  const {program} = data;
  const items = [["Program", [`${program.version}, SHA-256 ${program.sha256}`, ...program.origin].join("; ")],
    ["Configuration", of(data.config)], ...data.runs.map(run => [run.kind === "log" ? "Log" : "Trace", of(run)]), ...(data.made ? [["Made", data.made]] : [])];
  find("sources").replaceChildren(...items.flatMap(([name, value]) => [make("dt", {text: name}), make("dd", {text: value})]));
  const texts = [data.config, ...data.runs].map(it => `${it.name} (SHA-256 ${it.sha256.slice(0, 12)}..)`).join(", ");
  find("origin").textContent = `What ${data.program.version} says of ${texts}${data.made ? `. Made ${data.made}` : ""}`;
  find("config-text").textContent = data.config.text;
  find("config-fold").hidden = Boolean(data.live);
}
