// What the page shows: the order, the mode, the rows and their places.

const $ = id => document.getElementById(id);
const axis = $("axis"),
  stage = $("stage"),
  bars = $("bars"),
  tree = $("tree"),
  whole = $("whole"),
  tip = $("tip");
const MODES = ["before", "after", "both", "beside"];
const shown = {
  order: orders.length - 1,
  mode: "after",
  from: 0,
  to: 1000,
  cursor: 0,
  node: 0,
  folded: new Set(),
  packed: new Set(),
  find: "",
  changedOnly: false,
  only: null,
  fitted: true
};
let now, before, beside, rows = [],
  height = 0,
  first = 0,
  last = 1000,
  colours = {},
  hatch = null,
  dirty = false,
  lanes = new Map();

function restate() {
  const edit = EDITS.has(orders[shown.order]?.word) && (shown.order < orders.length - 1 || shown.mode !== "after" ||
    shown.forced);
  const back = shown.order >= 1 ? tellingOf(shown.order - 1, false) : null;
  now = orders.length ? tellingOf(shown.order, edit) : new Telling(-1, false);
  before = shown.mode === "both" ? back : null;
  beside = shown.mode === "beside" ? back : null;
  if (shown.mode === "before" && back) now = back;
  lanes = new Map();
  extent();
  layRows();
  if (shown.fitted) fit();
  const order = orders[shown.order],
    chosen = shown.forced || shown.order < orders.length - 1;
  $("notice").classList.toggle("on", Boolean(chosen));
  if (order) $("which").innerHTML =
    `${shown.mode === "before" ? "As told before" : "As told after"} line ${order.line} <code>${html(order.text || order.word)}</code>`;
  $("two").hidden = shown.mode !== "both";
  for (const id of MODES) $(id).setAttribute("aria-checked", String(shown.mode === id));
  paintLegend();
  say();
}

function extent() {
  first = 0;
  last = now.now;
  for (const telling of [now, before, beside].filter(Boolean)) {
    last = Math.max(last, telling.now);
    for (const list of telling.told)
      for (const part of list.length ? [list[0]] : []) first = Math.min(first, part.at);
    telling.views.forEach(view => {
      if (!view) return;
      if (typeof view.end === "number") last = Math.max(last, Math.min(view.end, capOf(telling, view.node)));
      if (typeof view.begin === "number") {
        first = Math.min(first, view.begin);
        if (view.state === "waiting") last = Math.max(last, Math.min(view.begin, capOf(telling, view.node)));
      }
    });
  }
  if (last <= first) last = first + 1000;
}

function capOf(telling, place) {
  let cap = Infinity;
  for (let up = nodes[place].parent; up >= 0; up = nodes[up].parent) {
    const view = telling.views[up];
    if (view && typeof view.end === "number") cap = Math.min(cap, view.end);
  }
  return Math.max(cap, telling.now);
}

function isThere(node) {
  if (node.born > shown.order) return false;
  return node.gone < 0 || node.gone >= shown.order || now.told[node.place].length > 0;
}

function layRows() {
  const wanted = wantedNodes();
  rows = [];
  let y = 0;
  const walk = place => {
    const node = nodes[place];
    if (!isThere(node) || (wanted && !wanted.has(place))) return;
    const isPacked = shown.packed.has(place) && node.children.length > 0 && !wanted;
    const tall = before ? 34 : nodes.length <= 16 ? 30 : 25;
    const h = isPacked ? 7 + lanesOf(place).count * (before ? 26 : 19) : tall;
    rows.push({
      place,
      y,
      h,
      packed: isPacked
    });
    y += h;
    if (!isPacked && (!shown.folded.has(place) || wanted)) node.children.forEach(walk);
  };
  nodes.forEach(node => {
    if (node.parent < 0) walk(node.place);
  });
  height = y;
  $("spacer").style.height = y + "px";
  paint();
}

// The nodes that are searched for, with what stands above them; null for all.
function wantedNodes() {
  const search = shown.find.toLowerCase(),
    filters = [];
  if (search) filters.push(node => [node.name, node.kind, node.attributes.src, node.attributes.title].some(text =>
    text && text.toLowerCase().includes(search)));
  if (shown.changedOnly) filters.push(node => tellingOf(shown.order, true).changed.has(node.place));
  if (shown.only) filters.push(node => shown.only.has(node.place));
  if (!filters.length) return null;
  const wanted = new Set();
  for (const node of nodes)
    if (filters.every(fits => fits(node)))
      for (let up = node.place; up >= 0 && !wanted.has(up); up = nodes[up].parent) wanted.add(up);
  return wanted;
}

// Which of up to four lanes each child of a packed element is drawn in.
function lanesOf(place) {
  if (lanes.has(place)) return lanes.get(place);
  const lane = new Map(),
    ends = [];
  const children = nodes[place].children.filter(child => isThere(nodes[child]));
  const isSeq = nodes[place].kind === "seq" || nodes[place].kind === "excl";
  for (const child of children) {
    const drawn = now.bars(child);
    const from = drawn.length ? drawn[0].from : Infinity,
      to = drawn.length ? drawn[drawn.length - 1].to : -Infinity;
    let chosen = isSeq ? 0 : ends.findIndex(end => end <= from);
    if (chosen < 0) chosen = ends.length < 4 ? ends.length : lane.size % 4;
    ends[chosen] = Math.max(ends[chosen] ?? -Infinity, to);
    lane.set(child, chosen);
  }
  const found = {
    lane,
    children,
    count: Math.max(1, ends.length)
  };
  lanes.set(place, found);
  return found;
}
