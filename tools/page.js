"use strict";
// What the page does once values are chosen for nulls. The first part knows nothing of the page, and can be run by itself.
//
// A world is a list with the value of each null, by the number of the null, or null where none is chosen. Of conditions,
// rows and assertions true, false and null are said, and null is where that depends on a null that is open.

const EQUAL = 0;
const UNEQUAL = 1;
const AND = 2;
const OR = 3;
const TRUE = 4;

// Whether two terms are equal: a number stands for a null, and a text for a constant.
function areEqual(s, t, world) {
  if (s === t) return true;
  const left = typeof s === "number" ? world[s] : s;
  const right = typeof t === "number" ? world[t] : t;
  return left === null || right === null ? null : left === right;
}

// The truth of parts with one word between them: one false decides an `and`, and one true an `or`.
function combined(deciding, parts, found) {
  let isOpen = false;
  for (const part of parts) {
    if (found[part] === deciding) return deciding;
    isOpen = isOpen || found[part] === null;
  }
  return isOpen ? null : !deciding;
}

// The truth of each node, where children stand before their parents.
function truths(nodes, world) {
  const found = [];
  for (const [kind, ...parts] of nodes) {
    if (kind === EQUAL || kind === UNEQUAL) {
      const equal = areEqual(parts[0], parts[1], world);
      found.push(equal === null || kind === EQUAL ? equal : !equal);
    } else if (kind === AND || kind === OR) {
      found.push(combined(kind === OR, parts, found));
    } else {
      found.push(kind === TRUE);
    }
  }
  return found;
}

// What is said of an answer: whether its assertions admit the world, and of each row whether it is there. A row and an
// answer have the place of a node, or -1 where they have no condition.
function judge(answer, world) {
  const found = truths(answer.nodes, world);
  const at = (place) => place < 0 || found[place];
  return { admitted: at(answer.allowed), rows: answer.rows.map(at) };
}

// Whether all assertions hold.
function admits(asserted, world) {
  const found = truths(asserted.nodes, world);
  return combined(false, asserted.places, found);
}

// The numbers of the open nulls that the assertions name.
function openNulls(asserted, world) {
  const terms = asserted.nodes.filter(([kind]) => kind <= UNEQUAL).flatMap(([, s, t]) => [s, t]);
  return [...new Set(terms)].filter((term) => typeof term === "number" && world[term] === null);
}

// ---- the page ----

const WORDS = new Map([[true, "always"], [null, "sometimes"], [false, "never"]]);
// So many choosers stand open at most.
const CHOOSERS = 60;
const MARKS = { always: "\u25cf", sometimes: "\u25d0", never: "\u25cb" };

class Page {
  constructor(data) {
    this.data = data;
    this.world = data.nulls.map(() => null);
    this.last = data.answers.map(() => null);
    this.bodies = data.answers.map((answer) => document.getElementById(answer.id));
    this.cells = new Map();
    for (const cell of document.querySelectorAll("td[data-null]")) {
      const number = Number(cell.dataset.null);
      if (!this.cells.has(number)) this.cells.set(number, []);
      this.cells.get(number).push(cell);
    }
    // Those nulls come first on which the most rows hang. The choosers of the others are made once they are looked for.
    this.choosers = [];
    const first = data.nulls.findIndex((one, number) => one.rows === 0 || number === CHOOSERS);
    this.makeChoosers("choosers", first < 0 ? data.nulls.length : first);
    document.getElementById("more").hidden = this.choosers.length === data.nulls.length;
    document.getElementById("fixed").hidden = data.nulls.every((one) => one.fixed === null);
    this.listen();
  }

  // Makes the choosers of the nulls up to a number, which have none so far.
  makeChoosers(place, end) {
    const made = document.createDocumentFragment();
    while (this.choosers.length < end) {
      const number = this.choosers.length;
      made.append(this.chooser(this.data.nulls[number], number));
    }
    document.getElementById(place).append(made);
  }

  // Makes the chooser of a null.
  chooser(one, number) {
    const label = document.createElement("label");
    const name = document.createElement("span");
    name.textContent = one.name;
    const select = document.createElement("select");
    select.append(new Option("open", ""));
    for (const [value, text] of one.values) select.append(new Option(text, value));
    select.value = this.world[number] || "";
    this.choosers.push(select);
    select.addEventListener("change", () => this.choose([[number, select.value || null]]));
    label.append(name, select);
    if (one.fixed !== null) {
      const note = document.createElement("small");
      note.textContent = "asserted: " + this.text(one, one.fixed);
      label.append(note);
    }
    return label;
  }

  // The text that is shown for a value.
  text(one, value) {
    const found = one.values.find(([known]) => known === value);
    return found ? found[1] : value;
  }

  listen() {
    const all = (values) => this.choose(this.data.nulls.map((one, number) => [number, values(one)]));
    document.getElementById("open").addEventListener("click", () => all(() => null));
    document.getElementById("fixed").addEventListener("click", () => all((one) => one.fixed));
    for (const button of document.querySelectorAll("button[data-world]")) {
      const world = new Map(JSON.parse(button.dataset.world));
      button.hidden = false;
      button.addEventListener("click", () => all((one) => world.get(one.name) || "@0"));
    }
    document.getElementById("more").addEventListener("toggle", () => this.makeChoosers("others", this.data.nulls.length));
    // What is closed would not be printed.
    addEventListener("beforeprint", () => {
      for (const part of document.querySelectorAll("main details")) part.open = true;
    });
    addEventListener("hashchange", () => this.read());
  }

  // Takes values for nulls, and shows what follows.
  choose(values) {
    for (const [number, value] of values) {
      if (this.world[number] === value) continue;
      this.world[number] = value;
      if (number < this.choosers.length) this.choosers[number].value = value || "";
      this.fill(number);
    }
    this.data.answers.forEach((answer, k) => this.show(answer, k));
    this.verdict();
    this.write();
  }

  // Puts the value of a null into its cells.
  fill(number) {
    const one = this.data.nulls[number];
    const value = this.world[number];
    for (const cell of this.cells.get(number) || []) {
      const inner = document.createElement("bdi");
      inner.textContent = value === null ? one.name : this.text(one, value);
      cell.replaceChildren(inner);
      cell.classList.toggle("filled", value !== null);
      if (value !== null) {
        const name = document.createElement("small");
        name.textContent = one.name;
        cell.append(" ", name);
      }
    }
  }

  // Shows which rows of an answer are there. A list of possible or certain rows has no conditions, and stays as it is.
  show(answer, k) {
    if (answer.kind !== "rows") return;
    const found = judge(answer, this.world);
    const body = this.bodies[k];
    const before = this.last[k];
    found.rows.forEach((truth, i) => {
      if (!before || before.rows[i] !== truth) this.mark(body.rows[i], WORDS.get(truth));
    });
    this.last[k] = found;
    this.count(answer, found);
  }

  mark(row, word) {
    row.className = word;
    row.cells[0].textContent = MARKS[word] + " " + word;
  }

  count(answer, found) {
    const number = (truth) => found.rows.filter((one) => one === truth).length;
    const line = document.getElementById(answer.id + "-count");
    line.textContent = `${number(true)} always, ${number(null)} sometimes, ${number(false)} never`;
    const worlds = document.getElementById(answer.id + "-worlds");
    if (worlds) {
      worlds.textContent = this.sentence(found.admitted, "these worlds");
      worlds.className = "verdict " + WORDS.get(found.admitted);
    }
  }

  sentence(admitted, which) {
    if (admitted === null) return `\u25d0 open: it depends on more nulls whether the assertions admit ${which}`;
    return admitted ? `\u25cf the assertions admit ${which}` : `\u25cb the assertions do not admit ${which}`;
  }

  // Says whether the assertions admit what is chosen.
  verdict() {
    const line = document.getElementById("verdict");
    const { asserted, nulls } = this.data;
    const far = asserted.isWhole ? "" : ", as far as the transcript goes";
    if (asserted.places.length === 0) {
      line.textContent = `The history asserts nothing that can fail: it admits every world${far}`;
      return;
    }
    const admitted = admits(asserted, this.world);
    const open = admitted === null ? openNulls(asserted, this.world).map((number) => nulls[number].name) : [];
    const names = open.length > 5 ? `${open.slice(0, 5).join(", ")} and ${open.length - 5} more` : open.join(", ");
    line.textContent = this.sentence(admitted, "what is chosen") + far + (names ? `: ${names}` : "");
    line.className = "verdict " + WORDS.get(admitted);
  }

  // Keeps the world in the address of the page, so that it can be sent and comes back when the page is loaded again.
  write() {
    const chosen = new URLSearchParams();
    this.data.nulls.forEach((one, number) => {
      if (this.world[number] !== null) chosen.append(one.name, this.world[number]);
    });
    history.replaceState(null, "", "#" + chosen);
  }

  // Takes the world from the address of the page.
  read() {
    const chosen = new URLSearchParams(location.hash.slice(1));
    this.choose(this.data.nulls.map((one, number) => {
      const value = chosen.get(one.name);
      return [number, one.values.some(([known]) => known === value) ? value : null];
    }));
  }
}

if (typeof document !== "undefined") {
  document.documentElement.classList.add("alive");
  new Page(JSON.parse(document.getElementById("data").textContent)).read();
}
