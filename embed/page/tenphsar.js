// The timing engine for pages and for Node: a session over the WebAssembly module, which is given lines.
//
//     const session = new Session(await loadEngine(fetch("tenphsar.wasm")));
//     session.order("load show", "par", '  img id="a" dur="3s"', "%%");
//     session.order("show advance 1s");
//
// A session is used by the page's or the worker's thread that made it. Nothing is global: sessions know nothing of each
// other. Moments are milliseconds of document time.

const REFUSED = 2;
const REFUSAL = /^! ([0-9]+) ([a-z-]+)(?: ([0-9]+))?\n$/;
const ROOM = 65536;
const RECORD = 24; // bytes of tenphsar_on_screen
const SHOWING = [null, "playing", "standing", "frozen"];
const WORDS = { "-": null, indefinite: Infinity, unresolved: Infinity, "?": NaN };

// An order that can't be carried out; nothing has changed. `line` counts the session's lines from 1, `word` is one of
// docs/REFUSALS.md, and `column` counts the bytes of the line at fault from 1, null where the word has no column.
export class Refused extends Error {
  constructor(answer) {
    super(answer.trimEnd());
    const [, line, word, column] = REFUSAL.exec(answer);
    this.line = Number(line);
    this.word = word;
    this.column = column === undefined ? null : Number(column);
  }
}

// The calls of the module in `source`: its bytes, or a response of a server with it, or a promise of one.
export async function loadEngine(source) {
  const isBytes = source instanceof ArrayBuffer || ArrayBuffer.isView(source);
  const made = await (isBytes ? WebAssembly.instantiate(source, {}) : WebAssembly.instantiateStreaming(source, {}));
  return made.instance.exports;
}

// The changes that an answer tells, in their order: the element, its state, when it is so, and its times. A begin or an
// end is null where there is none, Infinity where it isn't known or never comes, and NaN while the element stands.
export function changesOf(answer) {
  const lines = answer.split("\n").filter((line) => /^[0-9]+ /.test(line));
  return lines.map((line) => {
    const [moment, element, state, begin, end, iteration, finished] = line.split(" ");
    return { moment: Number(moment), element, state, begin: timeOf(begin), end: timeOf(end),
      iteration: Number(iteration), finished: Number(finished) };
  });
}

function timeOf(word) {
  if (word === undefined) return null;
  return word in WORDS ? WORDS[word] : Number(word);
}

// Up to 64 presentations, each under its name.
export class Session {
  #engine;
  #handle;
  #room;
  #record;
  #size = ROOM;

  // Opens a session of a module that was loaded. Throws an Error where there is no memory for it.
  constructor(engine) {
    this.#engine = engine;
    this.#handle = engine.tenphsar_take(16n);
    this.#room = engine.tenphsar_take(BigInt(ROOM));
    this.#record = engine.tenphsar_take(BigInt(RECORD));
    const hasRoom = this.#handle && this.#room && this.#record;
    if (!hasRoom || engine.tenphsar_open(this.#handle) !== 0) throw new Error("no memory for a session");
  }

  // Takes in a line of bytes without its line feed, and gives its code and its answer in bytes. The code is 0 where the
  // line has no answer, 1 where its order was accepted and 2 where it was refused.
  line(bytes) {
    const length = this.#put(bytes);
    const code = this.#engine.tenphsar_line(this.#handle, this.#room, length);
    if (code < 0) throw new Error("the session takes no more lines");
    return { code, answer: this.#answer() };
  }

  // Takes in the lines of one order, and gives the answer to the last of them. Throws Refused where it is refused.
  order(...lines) {
    let answer = "";
    for (const line of lines) {
      const taken = this.line(new TextEncoder().encode(line));
      answer = new TextDecoder().decode(taken.answer);
      if (taken.code === REFUSED) throw new Refused(answer);
    }
    return answer;
  }

  // The present moment of the presentation of a name; null where there is none.
  moment(name) {
    return this.#ask(this.#engine.tenphsar_moment, name);
  }

  // The moment at which something comes next in the presentation of a name; null where nothing does, or there is none.
  // Up to it no change is told.
  next(name) {
    return this.#ask(this.#engine.tenphsar_next, name);
  }

  // What is on the screen of the presentation of a name, by the elements' serials: `showing` is playing, standing (it or
  // an element above it is paused) or frozen, and `position` where its media is, in milliseconds from the begin of the
  // present iteration, which is counted from 0. An element that shows nothing is left out.
  screen(name) {
    const length = this.#put(new TextEncoder().encode(name));
    const shown = new Map();
    let index = 0n;
    while (this.#engine.tenphsar_screen(this.#handle, this.#room, length, index, this.#record)) {
      const record = new DataView(this.#engine.memory.buffer, Number(this.#record), RECORD);
      const showing = SHOWING[record.getUint32(16, true)];
      const [serial, iteration] = [record.getUint32(8, true), record.getUint32(12, true)];
      if (showing) shown.set(String(serial), { showing, iteration, position: Number(record.getBigInt64(0, true)) });
      index += 1n;
    }
    return shown;
  }

  // Ends the session, and gives its memory back to the module.
  close() {
    if (!this.#handle) return;
    this.#engine.tenphsar_close(this.#handle);
    for (const taken of [this.#record, this.#room, this.#handle]) this.#engine.tenphsar_give(taken);
    this.#handle = 0n;
  }

  #ask(call, name) {
    const moment = call(this.#handle, this.#room, this.#put(new TextEncoder().encode(name)));
    return moment < 0n ? null : Number(moment);
  }

  // The module's memory as it is now: it may have grown since it was looked at.
  #memory(length) {
    return new Uint8Array(this.#engine.memory.buffer, Number(this.#room), length);
  }

  // Puts a text where the module reads it, and gives its length.
  #put(bytes) {
    if (!this.#handle) throw new Error("the session is closed");
    if (bytes.length > this.#size) this.#widen(bytes.length);
    this.#memory(bytes.length).set(bytes);
    return BigInt(bytes.length);
  }

  #widen(size) {
    const room = this.#engine.tenphsar_take(BigInt(size));
    if (!room) throw new Error("no memory for a line");
    this.#engine.tenphsar_give(this.#room);
    this.#room = room;
    this.#size = size;
  }

  // The answer to the last line, piece by piece.
  #answer() {
    const whole = new Uint8Array(Number(this.#engine.tenphsar_size(this.#handle)));
    for (let from = 0; from < whole.length; ) {
      const copied = Number(this.#engine.tenphsar_answer(this.#handle, BigInt(from), this.#room, BigInt(this.#size)));
      whole.set(this.#memory(copied), from);
      from += copied;
    }
    return whole;
  }
}
