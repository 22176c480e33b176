// The panels at the right and the legend.

function counts(moment) {
  const count = {};
  for (const node of nodes)
    if (node.kind !== "priorityClass" && isThere(node)) {
      const {
        state
      } = now.at(node.place, moment);
      count[state] = (count[state] || 0) + 1;
    }
  return count;
}

function paintAt() {
  const count = counts(shown.cursor),
    node = nodes[shown.node];
  const parts = [
    `<div class="moment"><b>${clock(shown.cursor)}</b><button data-step="-1" title="to the change before" aria-label="to the change before">◂</button><button data-step="1" title="to the next change" aria-label="to the next change">▸</button></div>`,
    `<div class="mono empty">${Math.round(shown.cursor)} ms</div>`,
    `<div class="counts">${Object.keys(MEANS).filter(state => count[state] && state !== "gone").map(state => `<span>${dot(state)}${count[state]} ${state}</span>`).join("")}</div>`
  ];
  if (node) parts.push(detail(node));
  parts.push("<h2>CHANGES NEAR IT</h2>", near());
  $("at").innerHTML = parts.join("");
}

function detail(node) {
  const found = now.at(node.place, shown.cursor),
    view = found.view;
  const lines = [
    ["kind", html(node.kind || "not known")],
    ["state",
      `${dot(found.state, found.foreseen)} ${found.foreseen ? "foreseen: " : ""}${found.state === "idle" && !found.view ? "not told" : found.state}`
    ]
  ];
  if (view) {
    lines.push(["interval", `${clock(view.begin)} to ${clock(view.end)}`]);
    if (view.iteration) lines.push(["iteration", view.iteration + 1]);
    if (view.finished) lines.push(["finished", view.finished]);
  }
  for (const [name, value] of Object.entries(attributesAt(node))) lines.push([name, value]);
  return `<h2>${html(node.name)}</h2><dl>${lines.map(([name, value]) => `<dt>${html(name)}</dt><dd>${value}</dd>`).join("")}</dl>`;
}

// The attributes after the order that is shown; what it changed stands behind what was there.
function attributesAt(node) {
  const values = {
      ...node.attributes
    },
    texts = {};
  for (const [order, name, old] of [...node.edits].reverse())
    if (order > shown.order || (order === shown.order && shown.mode === "before")) {
      if (old === null) delete values[name];
      else values[name] = old;
    }
  for (const name in values) texts[name] = html(values[name]);
  for (const [order, name, old] of node.edits)
    if (order === shown.order && shown.mode !== "before" && name !== "id")
      texts[name] = (old === null ? "" : `<span class="was">${html(old)}</span>`) + (texts[name] || "");
  return texts;
}

const endOf = change => change.state === "waiting" ? ` from ${clock(change.begin)}` : ["active", "paused"].includes(
  change.state) && typeof change.end === "number" ? ` to ${clock(change.end)}` : "";

function near() {
  const flow = now.all(),
    at = lastBefore(flow, shown.cursor, "at");
  const from = Math.max(0, at - 11),
    to = Math.min(flow.length, at + 13),
    items = [];
  for (let place = from; place < to; place++) {
    const change = flow[place];
    if (place === at + 1) items.push('<li class="mark" aria-hidden="true"></li>');
    items.push(
      `<li class="${place <= at ? "passed" : "ahead"}"><button data-moment="${change.at}" data-node="${change.node}"><span class="at">${clock(change.at)}</span>${dot(change.state)}<span>${html(nodes[change.node].name)} <span class="word">${change.state}${endOf(change)}</span></span></button></li>`
      );
  }
  if (!items.length) return '<p class="empty">Nothing was told.</p>';
  return `<ul class="list">${items.join("")}</ul>`;
}

function paintOrders() {
  const box = $("session"),
    list = $("orders"),
    top = box.scrollTop,
    texts = [];
  list.style.height = orders.length * 24 + "px";
  for (let at = Math.max(0, Math.floor(top / 24) - 4); at < orders.length && at * 24 < top + box.clientHeight +
    100; at++) {
    const order = orders[at],
      colour = MARKED[order.word];
    texts.push(
      `<button style="top:${at * 24}px" data-order="${at}" aria-current="${at === shown.order}"><span class="no">${order.line}</span>` +
      `<svg width="12" height="12" viewBox="-6 -6 12 12" aria-hidden="true"><path fill="var(--${colour || "line"})" d="${EDITS.has(order.word) ? "M0-5L5 0 0 5-5 0z" : order.word === "seek" ? "M4-5L-4 0 4 5z" : "M-3-3H3V3H-3z"}"/></svg>` +
      `<span class="what mono${order.refusal ? " refused" : ""}" title="${html(order.text)}">${html(order.text.split(" ").slice(order.word === "load" ? 0 : 1).join(" ") || order.word || "order")}${order.refusal ? " ! " + order.refusal : ""}</span><span class="at">${clock(order.moment)}</span></button>`
      );
  }
  list.innerHTML = texts.join("");
}

function paintLegend() {
  const found = new Set(),
    all = ["active", "standing", "paused", "deferred", "frozen"];
  for (const node of nodes)
    for (const bar of now.bars(node.place).slice(0, 400)) found.add(bar.foreseen ? "foreseen" : bar.state);
  const texts = all.filter(state => found.has(state)).map(state =>
    `<span title="${MEANS[state]}"><i style="--c:var(--${state})"></i>${state}</span>`);
  if (found.has("foreseen")) texts.push(
    '<span title="known to come, so far"><i class="hollow" style="--c:var(--active)"></i>foreseen</span>');
  if (now.instants.some(list => list.length)) texts.push(
    '<span title="begins and ends at one moment"><i class="instant" style="--c:var(--active)"></i>instant</span>');
  $("legend").innerHTML = texts.join("");
}

function say() {
  const node = nodes[shown.node],
    found = node && now.at(node.place, shown.cursor);
  bars.setAttribute("aria-valuemin", first);
  bars.setAttribute("aria-valuemax", last);
  bars.setAttribute("aria-valuenow", Math.round(shown.cursor));
  const count = counts(shown.cursor);
  const states = ["active", "paused", "standing", "deferred", "frozen"].filter(state => count[state]).map(state =>
    `${count[state]} ${state}`).join(", ");
  bars.setAttribute("aria-valuetext",
    `${clock(shown.cursor)}: ${states || "nothing plays"}${found ? `; ${node.name} ${MEANS[found.state]}` : ""}`);
}
