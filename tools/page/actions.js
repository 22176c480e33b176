// What can be done: zoom, move, choose, fold, pack.

function look(from, to) {
  const span = Math.min(Math.max(to - from, 10), (last - first) * 1.12 + 100);
  let start = from + (to - from - span) / 2;
  start = Math.min(Math.max(start, first - span * .06), last + span * .06 - span > first - span * .06 ? last +
    span * .06 - span : first - span * .06);
  shown.from = start;
  shown.to = start + span;
  shown.fitted = false;
  paint();
}

function fit() {
  const span = last - first;
  look(first - span * .015, last + span * .035);
  shown.fitted = true;
}

function zoom(factor, about) {
  const at = about ?? (shown.cursor > shown.from && shown.cursor < shown.to ? shown.cursor : (shown.from + shown
    .to) / 2);
  look(at - (at - shown.from) * factor, at + (shown.to - at) * factor);
}

function pan(share) {
  const by = (shown.to - shown.from) * share;
  look(shown.from + by, shown.to + by);
}

function moveTo(moment, follow = true) {
  shown.cursor = Math.round(Math.min(Math.max(moment, first), last));
  if (follow && (shown.cursor < shown.from || shown.cursor > shown.to)) {
    const half = (shown.to - shown.from) / 2;
    look(shown.cursor - half, shown.cursor + half);
  }
  say();
  paint();
}

function stepChange(way) {
  const flow = now.all();
  let at = lastBefore(flow, way > 0 ? shown.cursor : shown.cursor - 1, "at") + (way > 0 ? 1 : 0);
  if (flow[at]) moveTo(flow[at].at);
}

function choose(place, scroll = true) {
  shown.node = place;
  const row = rows.find(row => row.place === place);
  if (row && scroll) {
    if (row.y < stage.scrollTop) stage.scrollTop = row.y;
    if (row.y + row.h > stage.scrollTop + stage.clientHeight) stage.scrollTop = row.y + row.h - stage.clientHeight;
  }
  say();
  paint();
}

function stepRow(by) {
  const at = rows.findIndex(row => row.place === shown.node);
  const row = rows[Math.min(Math.max(at + by, 0), rows.length - 1)];
  if (row) choose(row.place);
}

function fold(place, close) {
  if (!nodes[place].children.length) return;
  if (shown.packed.delete(place)) close = close ?? false;
  if (close ?? !shown.folded.has(place)) shown.folded.add(place);
  else shown.folded.delete(place);
  layRows();
}

function pack(place) {
  const node = nodes[place],
    of = node.children.length ? place : node.parent;
  if (of < 0) return;
  if (!shown.packed.delete(of)) {
    shown.packed.add(of);
    shown.node = of;
  }
  layRows();
}

function chooseOrder(place, mode) {
  shown.order = Math.min(Math.max(place, 0), orders.length - 1);
  const order = orders[shown.order];
  shown.forced = EDITS.has(order.word) || shown.order < orders.length - 1;
  shown.mode = mode || (EDITS.has(order.word) ? "both" : "after");
  shown.cursor = order.moment;
  restate();
  if (shown.cursor < shown.from || shown.cursor > shown.to) fit();
  const edited = EDITS.has(order.word) ? nodes.findIndex(node => node.edits.some(edit => edit[0] === shown.order) ||
    node.born === shown.order || node.gone === shown.order) : -1;
  if (edited >= 0) choose(edited);
  paint();
}

function setMode(mode) {
  shown.mode = mode;
  shown.forced = true;
  restate();
}

function dark(on) {
  document.documentElement.dataset.theme = on ? "dark" : "light";
  readColours();
  density = null;
  paint();
}

function openTab(session) {
  $("at").hidden = session;
  $("session").hidden = !session;
  $("tabAt").setAttribute("aria-selected", String(!session));
  $("tabSession").setAttribute("aria-selected", String(session));
  if (session) {
    $("session").scrollTop = Math.max(0, shown.order * 24 - 200);
  }
  paint();
}
// Packs what has many children, from the deepest up, until the rows can be taken in.
function autoPack() {
  const few = node => node.kind === "seq" ? 4 : 8;
  const plain = node => node.kind === "seq" || (node.parent >= 0 && node.children.every(child => !nodes[child]
    .children.length));
  const deepest = Math.max(0, ...nodes.map(node => node.depth));
  for (let depth = deepest; depth >= 0 && countRows() > 60; depth--)
    for (const node of nodes)
      if (node.depth === depth && node.children.length >= few(node) && plain(node)) shown.packed.add(node.place);
}

function countRows() {
  let count = 0;
  const hidden = new Set();
  for (const node of nodes) {
    if (hidden.has(node.parent)) {
      hidden.add(node.place);
      continue;
    }
    if (shown.packed.has(node.place)) hidden.add(node.place);
    count++;
  }
  return count;
}
