// The texts of the live page: two editors, whose mistakes are shown at their lines.

const LINE = 18;

class Editor {
  // place: the element to fill; onChange is called after each change.
  constructor(place, label, onChange) {
    this.gutter = make("div", {class: "gutter", "aria-hidden": "true"});
    this.notes = make("div", {class: "notes", "aria-hidden": "true"});
    this.area = make("textarea", {
      id: `${place}-text`, spellcheck: "false", autocomplete: "off", autocapitalize: "off", wrap: "off", rows: 12,
      "aria-describedby": `${place}-mistakes`, oninput: () => {
        this.draw();
        onChange();
      }, onscroll: () => this.draw()});
    this.list = make("ul", {class: "mistakes", id: `${place}-mistakes`, role: "status"});
    this.name = label;
    this.mistakes = [];
    find(place).replaceChildren(
      make("div", {class: "editor-head"}, make("label", {for: `${place}-text`, text: label}),
        make("button", {type: "button", text: "Save a copy", onclick: () => this.save()})),
      make("div", {class: "frame"}, this.gutter, make("div", {class: "field"}, this.area, this.notes)), this.list);
  }

  save() {
    const address = URL.createObjectURL(new Blob([this.area.value], {type: "text/plain"}));
    make("a", {href: address, download: this.name.split("/").pop()}).click();
    setTimeout(() => URL.revokeObjectURL(address), 1000);
  }

  // Shows the mistakes; those without a line are shown below the text.
  tell(mistakes) {
    const isSame = JSON.stringify(mistakes) === JSON.stringify(this.mistakes);
    this.mistakes = mistakes;
    this.draw();
    if (isSame) return;
    this.area.setAttribute("aria-invalid", String(mistakes.length > 0));
    this.list.replaceChildren(...mistakes.map(it => {
      const place = it.line === null ? "" : `${it.line}${it.column === null ? "" : `:${it.column}`}: `;
      return make("li", {}, it.line === null ? it.words
        : make("button", {type: "button", class: "link", text: `${place}${it.words}`, onclick: () => this.goTo(it)}));
    }));
  }

  // Draws the numbers of the visible lines and, for a mistake there, what is wrong and what was meant.
  draw() {
    const lines = this.area.value.split("\n"), first = Math.floor(this.area.scrollTop / LINE);
    const last = Math.min(lines.length, first + Math.ceil(this.area.clientHeight / LINE) + 1);
    const at = new Map(this.mistakes.filter(it => it.line !== null).map(it => [it.line, it]));
    const numbers = [], notes = [];
    for (let line = first + 1; line <= last; line += 1) {
      const top = `${(line - 1) * LINE - this.area.scrollTop + 4}px`, mistake = at.get(line);
      const number = make("span", {text: `${mistake ? "\u2717" : ""}${line}`, class: mistake ? "wrong" : null});
      number.style.top = top;
      numbers.push(number);
      if (!mistake) continue;
      const parts = mistake.words.split("; ");
      const note = make("span", {text: `\u2190 ${parts[0]}${parts.length > 1 ? `; ${parts[parts.length - 1]}` : ""}`});
      note.style.top = top;
      note.style.left = `calc(${lines[line - 1].length + 2}ch - ${this.area.scrollLeft}px)`;
      notes.push(note);
    }
    this.gutter.replaceChildren(...numbers);
    this.notes.replaceChildren(...notes);
  }

  // Puts the caret at a mistake.
  goTo(mistake) {
    const lines = this.area.value.split("\n");
    const start = lines.slice(0, mistake.line - 1).reduce((sum, line) => sum + line.length + 1, 0);
    const at = Math.min(start + (mistake.column || 1) - 1, this.area.value.length);
    this.area.focus();
    this.area.setSelectionRange(at, at);
    this.area.scrollTop = Math.max(0, (mistake.line - 3) * LINE);
  }
}

// Sends the texts to the server, one request at a time; changes made meanwhile go into the next request.
class Live {
  constructor(data) {
    this.config = new Editor("edit-config", data.config.name, () => this.ask());
    this.run = new Editor("edit-run", data.name, () => this.ask());
    this.config.area.value = data.config.text;
    this.run.area.value = data.text;
    find("edit").hidden = false;
  }

  async ask() {
    if (this.isAsking) {
      this.isStale = true;
      return;
    }
    this.isAsking = true;
    do {
      this.isStale = false;
      await this.askOnce();
    } while (this.isStale);
    this.isAsking = false;
  }

  async askOnce() {
    const names = {config: this.config.name, run: this.run.name};
    const body = JSON.stringify({config: this.config.area.value, run: this.run.area.value, names});
    try {
      const answer = await fetch("run", {method: "POST", headers: {"Content-Type": "application/json"}, body});
      if (!answer.ok) throw new Error(await answer.text());
      find("alert").textContent = "";
      this.show(await answer.json());
    } catch (error) {
      // (if nothing answers, fetch throws this)
      const why = error instanceof TypeError ? "the server has ended, or can't be reached" : error.message.trim();
      find("alert").textContent = `No answer: ${why}. The last answer is shown below.`;
    }
  }

  show(data) {
    const run = data.runs[0];
    this.config.tell(mistakesOf(data.config, data.runs.length === 0));
    this.run.tell(run ? mistakesOf(run, !run.is_whole) : []);
    if (run) show(data);
    else find("alert").textContent = "The configuration is refused. The last one that was accepted is shown below.";
  }
}

// The mistakes of a text; if there are none, what the program said about it.
function mistakesOf(facts, isRefused) {
  return facts.mistakes.length || !isRefused ? facts.mistakes : [{line: null, column: null, words: facts.said}];
}
