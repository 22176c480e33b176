// What was told of each element up to the present moment.

const MOST = 500; // changes of an element that are kept: a loop goes on for days

export class History {
  #told = new Map(); // by serial: the changes of an element, in the order of their moments

  // Takes in a change; one that says what is so already is passed over.
  take(serial, change) {
    const told = this.#told.get(serial) ?? [];
    const last = told.at(-1);
    if (last && ["state", "begin", "end"].every((name) => Object.is(last[name], change[name]))) return;
    told.push(change);
    this.#told.set(serial, told.slice(-MOST));
  }

  // Forgets what came later than a moment.
  cut(moment) {
    for (const [serial, told] of this.#told) this.#told.set(serial, told.filter((change) => change.moment <= moment));
  }

  // Forgets the elements that are not among these nodes.
  keep(nodes) {
    const serials = new Set(nodes.map((node) => node.serial));
    for (const serial of [...this.#told.keys()]) if (!serials.has(serial)) this.#told.delete(serial);
  }

  // The changes of a node.
  of(node) {
    return this.#told.get(node.serial) ?? [];
  }

  // The last change of a node up to a moment; undefined while it is idle.
  at(node, moment) {
    return this.of(node).findLast((change) => change.moment <= moment);
  }
}
