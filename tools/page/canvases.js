// The axis, the bars and the strip below, drawn on canvases.

function readColours() {
  const style = getComputedStyle(document.documentElement);
  for (const name of ["back", "side", "line", "soft", "text", "dim", "pale", "accent", "chosen", "now", "edit",
      "changed", "bartext", "active", "standing", "paused", "deferred", "frozen", "waiting"
    ])
    colours[name] = style.getPropertyValue("--" + name).trim();
  const tile = document.createElement("canvas");
  tile.width = tile.height = 6;
  const pen = tile.getContext("2d");
  pen.fillStyle = colours.standing;
  pen.fillRect(0, 0, 6, 6);
  pen.strokeStyle = colours.back;
  pen.globalAlpha = .55;
  pen.lineWidth = 1.6;
  pen.beginPath();
  for (const x of [-6, 0, 6]) {
    pen.moveTo(x - 1, 7);
    pen.lineTo(x + 7, -1);
  }
  pen.stroke();
  hatch = tile;
}

function penOf(box) {
  const canvas = box.querySelector("canvas"),
    ratio = devicePixelRatio || 1,
    wide = box.clientWidth,
    tall = box.clientHeight;
  if (canvas.width !== Math.round(wide * ratio) || canvas.height !== Math.round(tall * ratio)) {
    canvas.width = Math.round(wide * ratio);
    canvas.height = Math.round(tall * ratio);
    canvas.style.width = wide + "px";
    canvas.style.height = tall + "px";
  }
  const pen = canvas.getContext("2d");
  pen.setTransform(ratio, 0, 0, ratio, 0, 0);
  pen.clearRect(0, 0, wide, tall);
  pen.font = '11px system-ui, "DejaVu Sans", sans-serif';
  pen.textBaseline = "middle";
  return [pen, wide, tall];
}

// The panels of the time axis, from left to right: one, or that before an edit and that after it.
const GAP = 10;

function panes() {
  const wide = bars.clientWidth,
    half = (wide - GAP) / 2;
  if (!beside) return [{
    telling: now,
    left: 0,
    wide
  }];
  const line = orders[shown.order].line;
  return [{
    telling: beside,
    left: 0,
    wide: half,
    caption: `before line ${line}`
  }, {
    telling: now,
    left: half + GAP,
    wide: half,
    caption: `after line ${line}`
  }];
}
const paneAt = x => panes().findLast(pane => x >= pane.left) || panes()[0];

function inPanes(pen, tall, paintPane) {
  for (const pane of panes()) {
    pen.save();
    pen.beginPath();
    pen.rect(pane.left, 0, pane.wide, tall);
    pen.clip();
    pen.translate(pane.left, 0);
    paintPane(pane);
    pen.restore();
  }
  for (const pane of panes().slice(1)) {
    pen.fillStyle = colours.line;
    pen.fillRect(pane.left - GAP, 0, GAP, tall);
  }
}
const xOf = (moment, wide) => (moment - shown.from) * wide / (shown.to - shown.from);
const STEPS = [1, 2, 5, 10, 20, 50, 100, 200, 500, 1000, 2000, 5000, 10000, 15000, 30000, 60000, 120000, 300000,
  600000, 900000, 1800000, 3600000,
  7200000, 14400000, 21600000, 43200000, 86400000, 172800000, 604800000, 1209600000, 2592000000, 7776000000,
  31536000000, 157680000000
];
const stepOf = wide => STEPS.find(step => step * wide / (shown.to - shown.from) >= 78) || STEPS[STEPS.length - 1];

function paintAxis() {
  const [pen, , tall] = penOf(axis);
  inPanes(pen, tall, pane => paintAxisPane(pen, pane));
}

function paintAxisPane(pen, {
  telling,
  wide,
  caption
}) {
  const step = stepOf(wide),
    same = shown.cursor === telling.now;
  const flags = [
    same ? null : flagOf(pen, wide, telling.now, colours.now, "now"),
    flagOf(pen, wide, shown.cursor, same ? colours.now : colours.accent, clock(shown.cursor))
  ].filter(Boolean);
  pen.textAlign = "center";
  for (let tick = Math.ceil(shown.from / step) * step; tick <= shown.to; tick += step) {
    const x = xOf(tick, wide);
    pen.fillStyle = colours.dim;
    const text = clock(tick, step),
      half = pen.measureText(text).width / 2 + 4;
    if (x > 14 && !flags.some(flag => x + half > flag.left && x - half < flag.left + flag.width)) pen.fillText(text,
      x, 13);
    pen.fillStyle = colours.line;
    pen.fillRect(Math.round(x), 23, 1, 6);
  }
  pen.fillStyle = colours.line;
  pen.fillRect(0, 28, wide, 1);
  if (caption) {
    pen.fillStyle = colours.edit;
    pen.textAlign = "left";
    pen.fillText(caption, 6, 41);
  } else paintMarks(pen, wide);
  for (const flag of flags) raise(pen, flag);
}

const MARKED = {
  event: "accent",
  key: "accent",
  media: "paused",
  seek: "deferred",
  set: "edit",
  unset: "edit",
  insert: "edit",
  remove: "edit"
};

function marksShown() {
  return now.marks.filter(mark => MARKED[mark.order.word] && !mark.order.refusal && mark.order.moment >= shown
    .from && mark.order.moment <= shown.to);
}

function paintMarks(pen, wide) {
  const marks = marksShown().sort((one, other) => one.order.moment - other.order.moment || one.order.line - other
    .order.line);
  pen.textAlign = "left";
  const groups = [];
  for (const mark of marks) {
    const x = xOf(mark.order.moment, wide),
      last = groups[groups.length - 1];
    if (last && x - last.x < 9) last.marks.push(mark);
    else groups.push({
      x,
      marks: [mark]
    });
  }
  groups.forEach((group, at) => {
    const {
      x,
      marks
    } = group, room = (at + 1 < groups.length ? groups[at + 1].x : wide) - x - 14;
    const {
      order
    } = marks[0], colour = colours[MARKED[order.word]];
    pen.globalAlpha = marks.every(mark => mark.dropped) ? .35 : 1;
    pen.fillStyle = colour;
    shapeOf(pen, order.word, x, 41, marks[0].forward);
    const rest = order.text.split(" ").slice(1).join(" ");
    const label = marks.length > 1 ? `${marks.length} orders` : `${order.line} ${rest}`;
    pen.fillStyle = colours.dim;
    if (room > 26) pen.fillText(shorten(pen, room > 70 ? label : String(order.line), room), x + 9, 41);
    pen.globalAlpha = 1;
  });
}

function shapeOf(pen, word, x, y, forward) {
  pen.beginPath();
  if (EDITS.has(word)) {
    pen.moveTo(x, y - 5);
    pen.lineTo(x + 5, y);
    pen.lineTo(x, y + 5);
    pen.lineTo(x - 5, y);
  } else if (word === "seek") {
    const far = forward ? 4 : -4;
    pen.moveTo(x - far, y - 5);
    pen.lineTo(x + far, y);
    pen.lineTo(x - far, y + 5);
  } else if (word === "media") pen.rect(x - 4, y - 4, 8, 8);
  else pen.arc(x, y, 4.5, 0, 7);
  pen.fill();
}

// The flag of a moment on the axis, null where the moment isn't shown.
function flagOf(pen, wide, moment, colour, text) {
  const x = xOf(moment, wide),
    width = pen.measureText(text).width + 10;
  if (x < -1 || x > wide + 1) return null;
  return {
    x,
    colour,
    text,
    width,
    left: Math.min(Math.max(x - width / 2, 0), wide - width)
  };
}

function raise(pen, flag) {
  pen.fillStyle = flag.colour;
  pen.fillRect(Math.round(flag.x) - 1, 0, 2, 54);
  pen.beginPath();
  pen.roundRect(flag.left, 4, flag.width, 17, 4);
  pen.fill();
  pen.fillStyle = colours.back;
  pen.textAlign = "center";
  pen.fillText(flag.text, flag.left + flag.width / 2, 13);
}

function shorten(pen, text, room) {
  if (pen.measureText(text).width <= room) return text;
  let long = Math.max(0, Math.floor(text.length * room / pen.measureText(text).width) - 1);
  while (long > 0 && pen.measureText(text.slice(0, long) + "…").width > room) long--;
  return long > 3 ? text.slice(0, long) + "…" : "";
}

function paintBars() {
  const [pen, , tall] = penOf(bars), pattern = pen.createPattern(hatch, "repeat");
  inPanes(pen, tall, pane => paintBarsPane(pen, pane, tall, pattern));
}

function paintBarsPane(pen, {
  telling,
  wide
}, tall, pattern) {
  const top = stage.scrollTop,
    step = stepOf(wide);
  const changed = before || beside || shown.changedOnly ? tellingOf(shown.order, true).changed : new Set();
  const from = rowAt(top);
  for (let at = from; at < rows.length && rows[at].y < top + tall; at++) {
    const row = rows[at],
      y = row.y - top;
    if (row.place === shown.node || changed.has(row.place)) {
      pen.fillStyle = row.place === shown.node ? colours.chosen : colours.changed;
      pen.fillRect(0, y, wide, row.h - 1);
    }
    pen.fillStyle = colours.soft;
    pen.fillRect(0, y + row.h - 1, wide, 1);
  }
  pen.fillStyle = colours.soft;
  for (let tick = Math.ceil(shown.from / step) * step; tick <= shown.to; tick += step) pen.fillRect(Math.round(xOf(
    tick, wide)), 0, 1, tall);
  const marks = marksShown().filter(mark => !mark.dropped);
  if (marks.length <= 60) {
    pen.setLineDash([2, 4]);
    for (const mark of marks) {
      const x = Math.round(xOf(mark.order.moment, wide)) + .5;
      pen.strokeStyle = colours[MARKED[mark.order.word]];
      pen.globalAlpha = .45;
      pen.beginPath();
      pen.moveTo(x, 0);
      pen.lineTo(x, tall);
      pen.stroke();
    }
    pen.setLineDash([]);
    pen.globalAlpha = 1;
  }
  for (let at = from; at < rows.length && rows[at].y < top + tall; at++) paintRow(pen, wide, pattern, telling, rows[
    at], rows[at].y - top);
  for (const [moment, colour] of [
      [telling.now, colours.now],
      [shown.cursor, colours.accent]
    ]) {
    if (colour !== colours.now && moment === telling.now) continue;
    pen.fillStyle = colour;
    pen.fillRect(Math.round(xOf(moment, wide)) - (colour === colours.now ? 1 : 0), 0, colour === colours.now ? 2 :
      1, tall);
  }
}

function paintRow(pen, wide, pattern, telling, row, y) {
  if (!row.packed) {
    if (before) {
      strip(pen, wide, pattern, before, row.place, y + 4, 10, "", .55);
      strip(pen, wide, pattern, now, row.place, y + 16, 13, "", 1);
    } else strip(pen, wide, pattern, telling, row.place, y + 5, row.h - 11, "", 1);
    return;
  }
  const {
    lane,
    children
  } = lanesOf(row.place), tall = before ? 26 : 19;
  for (const child of children) {
    const top = y + 3 + lane.get(child) * tall;
    if (before) strip(pen, wide, pattern, before, child, top, 8, "", .55);
    strip(pen, wide, pattern, telling, child, before ? top + 9 : top, 16, nodes[child].name, 1);
  }
}

// The bars of one node from y on. Many within a pixel are drawn as one, the paler the less of it they fill.
function strip(pen, wide, pattern, telling, place, y, tall, name, strength) {
  const list = telling.bars(place);
  let gathered = null;
  const flush = () => {
    if (!gathered) return;
    const most = Object.entries(gathered.fill).sort((one, other) => other[1] - one[1])[0][0];
    const filled = Object.values(gathered.fill).reduce((one, other) => one + other, 0);
    pen.globalAlpha = strength * Math.min(1, Math.max(.3, filled));
    pen.fillStyle = colours[most];
    pen.fillRect(gathered.x, y, 1, tall);
    gathered = null;
  };
  for (let at = Math.max(0, lastBefore(list, shown.from, "from")); at < list.length && list[at].from <= shown
    .to; at++) {
    const bar = list[at],
      x1 = xOf(bar.from, wide),
      x2 = Math.min(xOf(Math.min(bar.to, last * 2 + 1e15), wide), wide + 8);
    if (x2 < 0) continue;
    if (x2 - x1 < 1.5 && !bar.foreseen) {
      const x = Math.floor(x1);
      if (gathered && gathered.x !== x) flush();
      gathered = gathered || {
        x,
        fill: {}
      };
      gathered.fill[bar.state] = (gathered.fill[bar.state] || 0) + Math.max(x2 - x1, .02);
      continue;
    }
    flush();
    pen.globalAlpha = strength;
    oneBar(pen, pattern, bar, Math.max(x1, -8), Math.max(x2, Math.max(x1, -8) + 1.5), y, tall, name, strength);
  }
  flush();
  pen.globalAlpha = strength;
  for (const {
      at
    }
    of telling.instants[place]) {
    const x = xOf(at, wide),
      middle = y + tall / 2;
    if (x < -6 || x > wide + 6) continue;
    pen.fillStyle = colours.active;
    pen.beginPath();
    pen.moveTo(x, middle - 6);
    pen.lineTo(x + 5, middle);
    pen.lineTo(x, middle + 6);
    pen.lineTo(x - 5, middle);
    pen.fill();
    pen.strokeStyle = colours.back;
    pen.lineWidth = 1;
    pen.stroke();
  }
  pen.globalAlpha = 1;
}

function oneBar(pen, pattern, bar, x1, x2, y, tall, name, strength) {
  const open = bar.to === Infinity,
    gap = x2 - x1 > 4 ? 1 : 0,
    width = x2 - x1 - gap,
    round = Math.min(3, width / 2);
  pen.beginPath();
  pen.roundRect(x1, y, width, tall, open ? [round, 0, 0, round] : round);
  if (bar.foreseen) {
    const colour = colours[bar.state];
    pen.globalAlpha = strength * .14;
    pen.fillStyle = colour;
    pen.fill();
    pen.globalAlpha = strength * .85;
    pen.strokeStyle = colour;
    pen.lineWidth = 1;
    pen.setLineDash([4, 3]);
    pen.beginPath();
    pen.roundRect(x1 + .5, y + .5, Math.max(width - 1, .5), tall - 1, round);
    pen.stroke();
    pen.setLineDash([]);
  } else {
    pen.fillStyle = bar.state === "standing" ? pattern : colours[bar.state];
    pen.fill();
  }
  pen.globalAlpha = strength;
  const count = bar.of && bar.of.iteration > 0 && bar.state === "active" ? ` ×${bar.of.iteration + 1}` : "";
  const text = (name + (name ? "" : count)).trim(),
    left = Math.max(x1, 0);
  if (text && x2 - left > 22 && tall >= 12) {
    pen.fillStyle = bar.foreseen ? colours.dim : bar.state === "standing" ? colours.text : colours.bartext;
    pen.textAlign = "left";
    pen.fillText(shorten(pen, text, x2 - left - 9), left + 5, y + tall / 2 + .5);
  }
}

// Below: how much changes when, and which part of it is shown.
let density = null;

function paintWhole() {
  const [pen, wide, tall] = penOf(whole);
  if (!density || density.of !== now || density.wide !== wide) {
    const counts = new Float64Array(Math.max(1, wide));
    for (const change of now.all()) counts[Math.min(wide - 1, Math.max(0, Math.floor((change.at - first) * wide / (
      last - first))))]++;
    density = {
      of: now,
      wide,
      counts,
      most: Math.max(1, ...counts)
    };
  }
  pen.fillStyle = colours.frozen;
  pen.globalAlpha = .8;
  density.counts.forEach((count, x) => {
    if (count) {
      const h = 5 + (tall - 18) * Math.log1p(count) / Math.log1p(density.most);
      pen.fillRect(x, tall - 6 - h, 1.5, h);
    }
  });
  pen.globalAlpha = 1;
  for (const mark of now.marks)
    if (MARKED[mark.order.word] && !mark.dropped) {
      pen.fillStyle = colours[MARKED[mark.order.word]];
      pen.fillRect((mark.order.moment - first) * wide / (last - first) - 1, tall - 5, 2, 4);
    }
  const x1 = (shown.from - first) * wide / (last - first),
    x2 = (shown.to - first) * wide / (last - first);
  pen.fillStyle = colours.back;
  pen.globalAlpha = .72;
  pen.fillRect(0, 0, x1, tall);
  pen.fillRect(x2, 0, wide - x2, tall);
  pen.globalAlpha = 1;
  pen.strokeStyle = colours.accent;
  pen.lineWidth = 1.5;
  pen.beginPath();
  pen.roundRect(Math.max(x1, 1), 1.5, Math.max(3, Math.min(x2, wide - 1) - Math.max(x1, 1)), tall - 3, 4);
  pen.stroke();
  pen.fillStyle = colours.now;
  pen.fillRect((now.now - first) * wide / (last - first) - 1, 2, 2, tall - 4);
  pen.fillStyle = colours.accent;
  pen.fillRect((shown.cursor - first) * wide / (last - first), 2, 1, tall - 4);
}

function paint() {
  if (dirty) return;
  dirty = true;
  requestAnimationFrame(() => {
    if (dirty) paintNow();
  });
}

function paintNow() {
  dirty = false;
  paintTree();
  paintAxis();
  paintBars();
  paintWhole();
  paintAt();
  if (!$("session").hidden) paintOrders();
}
