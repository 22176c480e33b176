// A presentation that plays: the engine says when each element begins and ends, and this keeps the clock. Between two
// happenings it sleeps.

import { Refused, Session, changesOf } from "./tenphsar.js";
import { History } from "./history.js";
import { nodesOf } from "./outline.js";

const NAME = "show";
const NOTHING = { showing: null, position: 0, iteration: 0 };
const LONGEST_SLEEP = 2 ** 31 - 1;

// Tells `told` (with `changes`) after each answer, `edited` when the document is another, and `refused` (with
// `refusal`, the order's lines, and which of them it is about, from 0).
export class Presentation extends EventTarget {
  nodes = [];
  history = new History();
  moment = 0; // the engine's
  orders = 0; // how many were given
  next = null; // when something comes next
  #session;
  #screen = new Map(); // by serial, at the engine's moment
  #lines = 0; // how many lines the session was given
  #rate = 1;
  #started = null; // since when the clock runs, and from which moment
  #timer = 0;
  #lengths = new Map(); // by serial: the length that was reported, and when

  constructor(engine) {
    super();
    this.#session = new Session(engine);
  }

  get isPlaying() {
    return this.#started !== null;
  }

  get rate() {
    return this.#rate;
  }

  set rate(rate) {
    this.#catchUp();
    this.#rate = rate;
    this.#restart();
  }

  // The moment by the clock, in milliseconds of document time.
  get now() {
    if (!this.#started) return this.moment;
    return this.#started.from + Math.floor((performance.now() - this.#started.at) * this.#rate);
  }

  // What is on the screen of a node, by the clock.
  onScreen(node) {
    const shown = this.#screen.get(node.serial) ?? NOTHING;
    if (shown.showing !== "playing") return shown;
    return { ...shown, position: shown.position + this.now - this.moment };
  }

  // Closes what is there and opens an outline at moment 0; gives whether it was accepted.
  load(lines) {
    this.pause();
    if (this.nodes.length) this.#say(`close ${NAME}`);
    this.nodes = [];
    this.history = new History();
    this.#lengths.clear();
    this.moment = 0;
    this.next = null;
    this.#screen.clear();
    const isLoaded = this.#give([`load ${NAME}`, ...lines, "%%"], { isEdit: true });
    if (!isLoaded) this.#tell("edited");
    return isLoaded;
  }

  play() {
    if (!this.nodes.length) return;
    this.#started = { at: performance.now(), from: this.moment };
    this.#catchUp();
    this.#tell("told", { changes: [] });
  }

  pause() {
    this.#catchUp();
    this.#started = null;
    clearTimeout(this.#timer);
    this.#tell("told", { changes: [] });
  }

  seek(to) {
    this.#catchUp();
    this.#give([`${NAME} seek ${to}ms`], { to });
    this.#restart();
    for (const [serial, { length, moment }] of this.#lengths) if (moment > to) this.#report(serial, length);
  }

  // An event on an element, as `click`.
  event(node, event) {
    this.#order(`event ${node.name} ${event}`);
  }

  key(letter) {
    this.#order(`key ${letter}`);
  }

  // Says how long the media of an element is, in milliseconds. One that is no longer in the document is passed over.
  length(node, length) {
    const isNew = this.#lengths.get(node.serial)?.length !== length;
    if (isNew && this.nodes.includes(node)) this.#report(node.serial, length);
  }

  // Gives an attribute a value, or takes it away where that is null; gives whether it was accepted.
  edit(node, attribute, value) {
    const change = value === null ? `unset ${node.name} ${attribute}` : `set ${node.name} ${attribute} "${value}"`;
    return this.#order(change, { isEdit: true });
  }

  // The outline as the engine has it.
  saved() {
    return this.#say(`${NAME} save`).replace(/ok [^\n]*\n$/, "");
  }

  #say(...lines) {
    this.#lines += lines.length;
    return this.#session.order(...lines);
  }

  #report(serial, length) {
    const node = this.nodes.find((each) => each.serial === serial);
    if (!node) return;
    this.#order(`media ${node.name} ${length}ms`);
    this.#lengths.set(serial, { length, moment: this.moment });
  }

  // Carries out an order at the present moment.
  #order(text, how) {
    this.#catchUp();
    const isAccepted = this.#give([`${NAME} ${text}`], how);
    this.#sleep();
    return isAccepted;
  }

  // Moves the engine on to the clock, and sleeps until something comes.
  #catchUp() {
    const by = this.now - this.moment;
    if (by > 0 && !this.#give([`${NAME} advance ${by}ms`])) {
      this.#started = null;
      this.#tell("told", { changes: [] });
    }
    this.#sleep();
  }

  #sleep() {
    clearTimeout(this.#timer);
    if (!this.#started || this.next === null) return;
    const wait = Math.ceil((this.next - this.now) / this.#rate);
    this.#timer = setTimeout(() => this.#catchUp(), Math.min(Math.max(wait, 0), LONGEST_SLEEP));
  }

  // The clock goes on from the engine's moment.
  #restart() {
    if (this.#started) this.#started = { at: performance.now(), from: this.moment };
    this.#sleep();
  }

  // Gives the lines of an order, and takes in what it changed; gives whether it was accepted. `to` is where a seek
  // goes.
  #give(lines, { isEdit = false, to = Infinity } = {}) {
    this.orders += 1;
    const before = this.#lines;
    let answer;
    try {
      answer = this.#say(...lines);
    } catch (refusal) {
      if (!(refusal instanceof Refused)) throw refusal;
      this.#tell("refused", { refusal, lines, place: refusal.line - before - 1 });
      return false;
    }
    this.moment = this.#session.moment(NAME);
    this.next = this.#session.next(NAME);
    this.#screen = this.#session.screen(NAME);
    if (to < Infinity) this.history.cut(to);
    if (isEdit) this.#look();
    const changes = changesOf(answer);
    for (const change of changes) this.#take(change);
    if (to < Infinity) for (const change of changesOf(this.#say(`${NAME} show`))) this.#take(change);
    if (isEdit) this.#tell("edited");
    this.#tell("told", { changes });
    return true;
  }

  #look() {
    this.nodes = nodesOf(this.saved());
    this.history.keep(this.nodes);
  }

  #take(change) {
    const node = this.nodes.find((each) => each.name === change.element);
    if (node) this.history.take(node.serial, change);
  }

  #tell(name, more = {}) {
    this.dispatchEvent(Object.assign(new Event(name), more));
  }
}
