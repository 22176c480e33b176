// The timeline: what was told of each element, what is foreseen, and where the clock is.

const ROW = 22;
const LEFT = 132;
const RIGHT = 12;
const SHORTEST = 10000;
const TICKS = [500, 1000, 2000, 5000, 10000, 30000, 60000, 300000, 600000, 3600000];
const DRAWN = ["active", "paused", "frozen", "deferred"];
const SVG = "http://www.w3.org/2000/svg";

export class Timeline {
  #picture;
  #presentation;
  #cursor;
  span = SHORTEST; // how much time it shows, in milliseconds

  // Draws the presentation into an SVG element of the page.
  constructor(picture, presentation) {
    this.#picture = picture;
    this.#presentation = presentation;
    this.#cursor = shape("line", { class: "cursor" });
    picture.addEventListener("click", (event) => this.#go(event));
  }

  // Draws all of it.
  draw() {
    const nodes = this.#presentation.nodes.filter((node) => node.kind !== "priorityClass");
    const height = nodes.length * ROW + 24;
    this.span = this.#wanted(nodes);
    const rows = nodes.flatMap((node, at) => this.#row(node, at * ROW));
    this.#picture.replaceChildren(...this.#ticks(height), ...rows, this.#cursor);
    this.#picture.style.height = `${Math.max(height, 6 * ROW)}px`;
    this.move();
  }

  // Moves the cursor to the clock.
  move() {
    const x = this.#x(this.#presentation.now);
    set(this.#cursor, { x1: x, x2: x, y1: 0, y2: "100%" });
  }

  get #width() {
    return Math.max(this.#picture.clientWidth - LEFT - RIGHT, 1);
  }

  #x(moment) {
    return LEFT + Math.min(moment / this.span, 1) * this.#width;
  }

  // The time up to the last moment that is known, and a little more.
  #wanted(nodes) {
    const { history, moment } = this.#presentation;
    const times = nodes.flatMap((node) => history.of(node)).flatMap(({ begin, end }) => [begin, end]);
    const last = times.filter(Number.isFinite).reduce((one, other) => Math.max(one, other), moment);
    return Math.max(SHORTEST, Math.ceil((last * 1.05) / 5000) * 5000);
  }

  #ticks(height) {
    const step = TICKS.find((each) => (each / this.span) * this.#width >= 48) ?? this.span;
    const ticks = [];
    for (let at = 0; at <= this.span; at += step) {
      const x = this.#x(at);
      ticks.push(shape("line", { x1: x, x2: x, y1: 0, y2: height - 18, class: "tick" }));
      ticks.push(shape("text", { x, y: height - 4, class: "seconds" }, `${at / 1000}`));
    }
    return ticks;
  }

  #row(node, y) {
    const label = shape("text", { x: 4 + 8 * Math.min(node.depth, 4), y: y + 15, class: "name" }, node.name);
    return [label, ...this.#past(node, y), ...this.#foreseen(node, y)];
  }

  // The states through which the element went.
  #past(node, y) {
    const { history, now } = this.#presentation;
    const told = history.of(node);
    return told.flatMap((change, at) => {
      const to = told[at + 1]?.moment ?? now;
      return DRAWN.includes(change.state) ? [this.#bar(change.state, change.moment, to, y)] : [];
    });
  }

  // The interval that is running or comes next, as far as it is known.
  #foreseen(node, y) {
    const { history, now } = this.#presentation;
    const last = history.at(node, now);
    if (!last || !["active", "waiting", "paused"].includes(last.state) || !Number.isFinite(last.begin)) return [];
    const to = Number.isFinite(last.end) ? last.end : this.span;
    return [this.#bar(Number.isFinite(last.end) ? "foreseen" : "foreseen open", Math.max(last.begin, now), to, y)];
  }

  #bar(name, from, to, y) {
    const width = Math.max(this.#x(to) - this.#x(from), 0);
    return shape("rect", { class: name, x: this.#x(from), y: y + 3, width, height: ROW - 6, rx: 2 });
  }

  // A click seeks.
  #go(event) {
    const part = (event.clientX - this.#picture.getBoundingClientRect().left - LEFT) / this.#width;
    if (part >= 0 && part <= 1) this.#presentation.seek(Math.round(part * this.span));
  }
}

function shape(name, attributes, text = "") {
  const made = document.createElementNS(SVG, name);
  set(made, attributes);
  made.textContent = text;
  return made;
}

function set(shape, attributes) {
  for (const [name, value] of Object.entries(attributes)) shape.setAttribute(name, value);
}
