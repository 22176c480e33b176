// What was told, as it stood after any order: states, intervals and what is foreseen. Nothing here knows the page.

const STATES = ["active", "paused", "deferred", "frozen", "waiting", "done", "idle", "gone"];
const MEANS = {
  active: "plays",
  standing: "stands in what is paused",
  paused: "paused by an excl",
  deferred: "put off by an excl",
  frozen: "ended, kept by its fill",
  waiting: "will begin",
  done: "has ended",
  idle: "not begun",
  gone: "removed"
};
const SHOWN = new Set(["active", "standing", "paused", "deferred", "frozen"]);
const PLAYED = new Set(["active", "paused", "frozen", "done"]);
const WORDS = {
  "-": null,
  i: "indefinite",
  u: "unresolved",
  "?": "?"
};

const nodes = DATA.nodes.map(([parent, kind, id, serial, born, gone, attributes, edits], place) =>
  ({
    place,
    parent,
    kind,
    id,
    serial,
    born,
    gone,
    attributes,
    edits,
    name: id || "#" + serial,
    children: [],
    depth: 0
  }));
for (const node of nodes) {
  if (node.parent >= 0) {
    nodes[node.parent].children.push(node.place);
    node.depth = nodes[node.parent].depth + 1;
  }
}
const orders = DATA.orders.map(([line, word, text, moment, refusal, first], place) => ({
  place,
  line,
  word,
  text,
  moment,
  refusal,
  first
}));
const EDITS = new Set(["set", "unset", "insert", "remove"]);

const changes = (function() {
  const told = [],
    flat = DATA.changes;
  let moment = 0;
  for (let at = 0; at < flat.length; at += 7) {
    moment += flat[at + 1];
    const begin = typeof flat[at + 3] === "number" ? moment + flat[at + 3] : WORDS[flat[at + 3]];
    const end = typeof flat[at + 4] === "number" ? (typeof begin === "number" ? begin : moment) + flat[at + 4] :
      WORDS[flat[at + 4]];
    told.push({
      node: flat[at],
      at: moment,
      state: STATES[flat[at + 2]],
      begin,
      end,
      iteration: flat[at + 5],
      finished: flat[at + 6]
    });
  }
  return told;
})();

// How things stood after the order in this place. With `redraw` the past of what it changed is drawn anew.
class Telling {
  constructor(last, redraw) {
    this.last = last;
    this.now = 0;
    this.told = nodes.map(() => []);
    this.instants = nodes.map(() => []);
    this.views = nodes.map(() => null);
    this.marks = [];
    this.changed = new Set();
    this.rows = nodes.map(() => null);
    this.stills = nodes.map(() => null);
    const log = [];
    for (let place = 0; place <= last; place++) {
      const order = orders[place],
        until = place + 1 < orders.length ? orders[place + 1].first : changes.length;
      const forward = order.moment > this.now;
      if (!order.refusal && order.moment < this.now) this.cutBack(log, order.moment);
      if (!order.refusal) this.now = order.moment;
      this.marks.push({
        order,
        forward,
        dropped: false
      });
      for (let at = order.first; at < until; at++) this.take(changes[at], log, redraw && place === last, place ===
        last, forward);
    }
    this.flow = null;
  }
  cutBack(log, moment) {
    const touched = new Set();
    while (log.length && log[log.length - 1].at > moment) touched.add(log.pop().node);
    for (const node of touched) {
      for (const list of [this.told[node], this.instants[node]])
        while (list.length && list[list.length - 1].at > moment) list.pop();
      log.push({
        at: moment,
        node
      });
    }
    for (const mark of this.marks)
      if (mark.order.moment > moment && mark.order.word !== "load") mark.dropped = true;
  }
  take(change, log, redraw, isLast, forward) {
    const list = this.told[change.node],
      old = this.views[change.node];
    this.views[change.node] = change.state === "gone" ? null : change;
    if (isLast) this.changed.add(change.node);
    if (redraw) {
      const begins = [old, change].filter(view => view && typeof view.begin === "number").map(view => view.begin);
      const first = begins.length ? Math.min(...begins) : -Infinity;
      while (list.length && (list[list.length - 1].at >= first || change.state === "gone")) list.pop();
      list.push(...(change.state === "gone" ? [change] : pastOf(change)));
      if (change.state === "gone") this.instants[change.node].length = 0;
    } else {
      this.tell(list, change, forward);
      log.push(change);
    }
    if ((change.state === "done" || change.state === "frozen") && change.begin === change.end && change.begin !==
      null)
      this.instants[change.node].push({
        at: change.begin
      });
  }
  // Puts a state behind the others. A seek forward tells only where it leads: the interval says what came before.
  tell(list, change, forward) {
    let part = change;
    const put = state => {
      while (list.length && list[list.length - 1].at >= state.at) list.pop();
      list.push(state);
    };
    if (forward && PLAYED.has(change.state) && typeof change.begin === "number") {
      if ((change.state === "done" || change.state === "frozen") && change.end < change.at) part = {
        ...change,
        at: change.end
      };
      const last = list[list.length - 1];
      if (change.begin < part.at && !(last && PLAYED.has(last.state) && last.begin === change.begin)) put({
        ...change,
        at: change.begin,
        state: "active"
      });
    }
    put(part);
  }
  // The bars of a node, one behind the other.
  bars(place) {
    if (this.rows[place]) return this.rows[place];
    const bars = [],
      list = this.told[place];
    for (let at = 0; at < list.length; at++) {
      const part = list[at],
        end = at + 1 < list.length ? list[at + 1].at : this.now,
        last = bars[bars.length - 1];
      if (!SHOWN.has(part.state) || part.at >= end) continue;
      if (last && last.state === part.state && last.to === part.at && last.of.begin === part.begin && last.of
        .iteration === part.iteration) last.to = end;
      else bars.push({
        state: part.state,
        from: part.at,
        to: end,
        of: part,
        foreseen: false
      });
    }
    const coming = this.foreseen(place);
    if (coming) bars.push(coming);
    return this.rows[place] = standing(bars, this.still(nodes[place].parent));
  }
  foreseen(place) {
    const view = this.views[place];
    if (!view || !["active", "waiting", "paused"].includes(view.state) || view.end === "?") return null;
    const begin = view.state === "waiting" ? view.begin : this.now;
    let end = typeof view.end === "number" ? view.end : Infinity;
    for (let up = nodes[place].parent; up >= 0; up = nodes[up].parent) {
      const above = this.views[up];
      if (above && (above.state === "active" || above.state === "paused") && typeof above.end === "number") end =
        Math.min(end, above.end);
    }
    if (typeof begin !== "number" || end <= begin) return null;
    return {
      state: view.state,
      from: Math.max(begin, this.now),
      to: end,
      of: view,
      foreseen: true
    };
  }
  // When a node or one above it was paused, as disjoint pairs of moments.
  still(place) {
    if (place < 0) return [];
    if (this.stills[place]) return this.stills[place];
    const above = this.still(nodes[place].parent);
    const own = this.bars(place).filter(bar => bar.state === "paused").map(bar => [bar.from, bar.to]);
    return this.stills[place] = own.length ? union([...above, ...own]) : above;
  }
  // The state of a node at a moment: its word, and whether it is foreseen.
  at(place, moment) {
    const bars = this.bars(place);
    const bar = bars[lastBefore(bars, moment, "from")];
    if (bar && moment < bar.to && !(bar.foreseen && moment <= this.now)) return {
      state: bar.state,
      foreseen: bar.foreseen,
      view: bar.of
    };
    const list = this.told[place],
      part = list[lastBefore(list, moment, "at")];
    if (moment === this.now && part && SHOWN.has(part.state))
      return {
        state: part.state === "active" && this.still(nodes[place].parent).some(([from, to]) => from <= moment &&
          moment <= to) ? "standing" : part.state,
        foreseen: false,
        view: part
      };
    if (moment >= this.now && bar && bar.foreseen) return {
      state: "done",
      foreseen: true,
      view: null
    };
    if (part && !SHOWN.has(part.state)) return {
      state: part.state,
      foreseen: moment > this.now,
      view: part
    };
    if (part && moment > this.now) return {
      state: part.state,
      foreseen: true,
      view: part
    };
    return {
      state: "idle",
      foreseen: false,
      view: null
    };
  }
  // All changes that still stand, by their moments.
  all() {
    if (!this.flow) this.flow = this.told.flat().sort((one, other) => one.at - other.at || one.node - other.node);
    return this.flow;
  }
}

function pastOf(view) {
  const {
    begin,
    end,
    state
  } = view;
  if (typeof begin !== "number" || ["waiting", "idle", "deferred", "gone"].includes(state)) return [];
  const first = {
    ...view,
    at: begin,
    state: "active"
  };
  if (state === "done" || state === "frozen") return [first, {
    ...view,
    at: end
  }];
  if (state === "paused") return [first, view];
  return [{
    ...view,
    at: begin
  }];
}

function union(pairs) {
  pairs.sort((one, other) => one[0] - other[0]);
  const merged = [];
  for (const [from, to] of pairs) {
    const last = merged[merged.length - 1];
    if (last && from <= last[1]) last[1] = Math.max(last[1], to);
    else merged.push([from, to]);
  }
  return merged;
}

function standing(bars, still) {
  if (!still.length) return bars;
  const parts = [];
  for (const bar of bars) {
    let from = bar.from;
    if (bar.state === "active") {
      for (const [first, last] of still) {
        if (last <= from || first >= bar.to) continue;
        if (from < first) parts.push({
          ...bar,
          from,
          to: first
        });
        parts.push({
          ...bar,
          state: "standing",
          from: Math.max(from, first),
          to: Math.min(last, bar.to)
        });
        from = Math.min(last, bar.to);
      }
    }
    if (from < bar.to) parts.push({
      ...bar,
      from
    });
  }
  const joined = [];
  for (const part of parts) {
    const last = joined[joined.length - 1];
    if (last && last.state === part.state && last.to === part.from && last.foreseen === part.foreseen && last.of ===
      part.of) last.to = part.to;
    else joined.push(part);
  }
  return joined;
}

// The place of the last item that isn't behind a moment, or -1.
function lastBefore(list, moment, key) {
  let low = 0,
    high = list.length;
  while (low < high) {
    const middle = (low + high) >> 1;
    if (list[middle][key] <= moment) low = middle + 1;
    else high = middle;
  }
  return low - 1;
}

const kept = new Map();

function tellingOf(last, redraw) {
  const key = last + (redraw ? "r" : "");
  if (!kept.has(key)) {
    if (kept.size > 5) kept.delete(kept.keys().next().value);
    kept.set(key, new Telling(last, redraw));
  }
  return kept.get(key);
}
