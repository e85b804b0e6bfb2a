"use strict";
// Prepares what the programs said for the page: ports, calls, arrows and counts. It decides nothing.

const SVG = "http://www.w3.org/2000/svg";
const find = id => document.getElementById(id);

// Makes an element: `text` is its text, `on..` are listeners, all others are attributes.
function make(tag, properties, ...children) {
  const made = tag.startsWith("svg:") ? document.createElementNS(SVG, tag.slice(4)) : document.createElement(tag);
  for (const [name, value] of Object.entries(properties || {})) {
    if (name === "text") made.textContent = value;
    else if (name.startsWith("on")) made.addEventListener(name.slice(2), value);
    else if (value !== null && value !== undefined && value !== false) made.setAttribute(name, value === true ? "" : value);
  }
  made.append(...children);
  return made;
}

// Renders a part anew, and puts the focus on the button at the place of the one that had it.
function keepFocus(part, render) {
  const at = [...part.querySelectorAll("button")].indexOf(document.activeElement);
  render();
  const button = part.querySelectorAll("button")[at];
  if (button) button.focus({preventScroll: true});
}

const plural = (count, word) => `${count} ${word}${count === 1 ? "" : "s"}`;

// The kind of port that a service is about, and whether its first argument is a name.
const SERVICES = {
  "create-queuing": ["queuing", true], "queuing-id": ["queuing", true], "send": ["queuing", false],
  "receive": ["queuing", false], "queuing-status": ["queuing", false], "clear": ["queuing", false],
  "create-sampling": ["sampling", true], "sampling-id": ["sampling", true], "write": ["sampling", false],
  "read": ["sampling", false], "sampling-status": ["sampling", false], "mode": [null, false],
};

class Module {
  // lines: those of `table --json`.
  constructor(lines) {
    this.partitions = lines.filter(line => "ports" in line).map(line => line.partition);
    this.ports = lines.filter(line => "port" in line);
    this.channels = new Map();
    this.byArgument = new Map();
    for (const port of this.ports) {
      if (!this.channels.has(port.channel)) this.channels.set(port.channel, {...port, name: port.channel, ports: []});
      this.channels.get(port.channel).ports.push(port);
      this.byArgument.set(`${port.partition} ${port.kind} #${port.id}`, port);
      this.byArgument.set(`${port.partition} ${port.kind} ${port.port}`, port);
    }
  }

  // The port that a call names, if the partition has one.
  portOf(call) {
    const [kind, isNamed] = SERVICES[call.service];
    const word = call.parts[3];
    return kind && this.byArgument.get(`${call.partition} ${kind} ${isNamed ? word : `#${Number(word)}`}`) || null;
  }
}

// The reply of a call in the words of a report.
function answerOf(call) {
  if (call.id !== null) return `${call.reply} id ${call.id}`;
  if (call.message !== null) return `${call.reply} message ${call.message || "-"}${call.validity ? ` ${call.validity}` : ""}`;
  if (call.waiting !== null) {
    return `${call.reply} waiting ${call.waiting} depth ${call.depth} size ${call.size} ${call.direction}`;
  }
  if (call.refresh !== null) {
    return `${call.reply} refresh ${call.refresh} size ${call.size} ${call.direction} last ${call.last}`;
  }
  return call.reply;
}

const codeOf = answer => /^not made/i.test(answer) ? "not made" : answer.split(" ")[0].toUpperCase();

// A trace or a log with what the programs said about it.
class Run {
  constructor(module, facts) {
    Object.assign(this, {module, facts});
    const {keys, rows} = facts.calls;
    this.calls = rows.map((row, place) => this.readCall(place, Object.fromEntries(keys.map((key, at) => [key, row[at]]))));
    const byLine = new Map(this.calls.map(call => [call.line, call]));
    const note = (line, more) => Object.assign(byLine.get(line) || {}, more);
    for (const departure of facts.departures) note(departure.line, {departure});
    for (const [line, replies] of facts.orders ? facts.orders.calls : []) note(line, {replies});
    this.readArrows();
    this.counts = [...module.channels.values()].filter(it => it.kind === "queuing").map(it => this.countsOf(it));
  }

  readCall(place, call) {
    call.place = place;
    call.parts = call.text.trim().split(/[ \t]+/);
    call.port = this.module.portOf(call);
    call.asked = call.parts.slice(2).join(" ");
    call.answer = answerOf(call);
    if (this.facts.logged) {
      [call.answer, call.note] = this.facts.logged[place];
      // (the words of the row are those of an equal reply before the first departure)
      if (place >= this.facts.known) call.words = call.note;
    }
    call.code = codeOf(call.answer);
    call.isRefused = call.code !== "NO_ERROR";
    return call;
  }

  readArrows() {
    const {arrows, waits} = this.facts;
    this.arrows = arrows.map(([sent, taken, isSample]) => ({from: sent - 1, to: taken - 1, isSample: isSample === 1}));
    this.outgoing = new Map();
    this.incoming = new Map();
    for (const arrow of this.arrows) {
      if (!this.outgoing.has(arrow.from)) this.outgoing.set(arrow.from, []);
      this.outgoing.get(arrow.from).push(arrow);
      this.incoming.set(arrow.to, arrow);
      arrow.isStale = arrow.isSample && this.calls[arrow.to].validity === "INVALID";
    }
    this.waits = new Set((waits || []).map(number => number - 1));
  }

  // The number of messages that wait on a channel after each call that changes it, counted from the replies. agrees: whether
  // the programs give the same number at the end and in each status.
  countsOf(channel) {
    const found = {channel, places: [], values: [], most: 0, agrees: true};
    let waiting = 0;
    for (const call of this.calls.slice(0, this.facts.known)) {
      if (call.isRefused || !call.port || call.port.channel !== channel.name) continue;
      if (call.service === "queuing-status" && call.waiting !== waiting) found.agrees = false;
      const before = waiting;
      if (call.service === "send") waiting += 1;
      if (call.service === "receive") waiting -= 1;
      if (call.service === "clear") waiting = 0;
      if (waiting === before) continue;
      found.places.push(call.place);
      found.values.push(waiting);
      found.most = Math.max(found.most, waiting);
    }
    found.end = waiting;
    const remark = this.facts.remarks.find(it => it.remark === "messages waiting" && it.channel === channel.name);
    const isWhole = this.facts.is_whole && this.facts.known === this.calls.length;
    if (isWhole && (remark ? remark.waiting : 0) !== waiting || waiting < 0) found.agrees = false;
    return found;
  }

  // The text of a call that is searched.
  haystack(call) {
    call.searched = call.searched || `${call.place + 1} ${call.text} -> ${call.answer} ${call.words || ""}`.toLowerCase();
    return call.searched;
  }
}
