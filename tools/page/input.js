// Keys, wheel, drags and clicks, and what they do.

document.addEventListener("keydown", event => {
  const typing = event.target.matches("input[type=search]");
  if (event.key === "Escape" && typing) {
    event.target.value = "";
    shown.find = "";
    layRows();
    tree.focus();
    return;
  }
  if (typing || event.ctrlKey || event.metaKey || event.altKey || $("keys").open) return;
  const inTree = document.activeElement === tree,
    inBars = !inTree && !document.activeElement?.closest?.("aside, header, #notice");
  const keys = {
    "+": () => zoom(.6),
    "=": () => zoom(.6),
    "-": () => zoom(1 / .6),
    "0": fit,
    "[": () => chooseOrder(shown.order - 1),
    "]": () => chooseOrder(shown.order + 1),
    b: () => setMode(MODES[(MODES.indexOf(shown.mode) + 1) % MODES.length]),
    p: () => pack(shown.node),
    d: () => $("theme").click(),
    "/": () => $("find").focus(),
    "?": () => $("keys").showModal()
  };
  if (inTree) Object.assign(keys, {
    ArrowUp: () => stepRow(-1),
    ArrowDown: () => stepRow(1),
    PageUp: () => stepRow(-15),
    PageDown: () => stepRow(15),
    Home: () => stepRow(-1e9),
    End: () => stepRow(1e9),
    ArrowRight: () => {
      const open = !shown.folded.has(shown.node) && !shown.packed.has(shown.node);
      if (open) stepRow(1);
      else fold(shown.node, false);
    },
    ArrowLeft: () => {
      const node = nodes[shown.node];
      if (node.children.length && !shown.folded.has(shown.node)) fold(shown.node, true);
      else if (node.parent >= 0) choose(node.parent);
    },
    Enter: () => fold(shown.node),
    " ": () => fold(shown.node)
  });
  else if (inBars) Object.assign(keys, {
    ArrowLeft: () => event.shiftKey ? pan(-.15) : stepChange(-1),
    ArrowRight: () => event.shiftKey ? pan(.15) : stepChange(1),
    Home: () => moveTo(first),
    End: () => moveTo(now.now),
    ArrowUp: () => stepRow(-1),
    ArrowDown: () => stepRow(1),
    PageUp: () => pan(-.8),
    PageDown: () => pan(.8)
  });
  if (keys[event.key]) {
    keys[event.key]();
    event.preventDefault();
  }
});

const acrossOf = event => event.clientX - bars.getBoundingClientRect().left;

function momentAt(event) {
  const x = acrossOf(event),
    pane = paneAt(x);
  return shown.from + (x - pane.left) * (shown.to - shown.from) / pane.wide;
}
for (const box of [bars, axis]) box.addEventListener("wheel", event => {
  const across = Math.abs(event.deltaX) > Math.abs(event.deltaY);
  if (event.ctrlKey || event.metaKey || (box === axis && !across && !event.shiftKey)) zoom(Math.exp(Math.max(-1,
    Math.min(1, event.deltaY * .002))), momentAt(event));
  else if (event.shiftKey || across) pan((across ? event.deltaX : event.deltaY) / panes()[0].wide);
  else return;
  event.preventDefault();
}, {
  passive: false
});

function drag(box, start, move, end) {
  box.addEventListener("pointerdown", event => {
    if (event.button) return;
    const held = {
      x: event.clientX,
      y: event.clientY,
      from: shown.from,
      to: shown.to,
      top: stage.scrollTop,
      moved: false
    };
    box.setPointerCapture(event.pointerId);
    start(event, held);
    const onMove = event => {
      if (Math.abs(event.clientX - held.x) + Math.abs(event.clientY - held.y) > 3) held.moved = true;
      move(event, held);
    };
    const onUp = event => {
      box.removeEventListener("pointermove", onMove);
      box.removeEventListener("pointerup", onUp);
      box.removeEventListener("pointercancel", onUp);
      end(event, held);
    };
    box.addEventListener("pointermove", onMove);
    box.addEventListener("pointerup", onUp);
    box.addEventListener("pointercancel", onUp);
  });
}
drag(bars, () => bars.focus(), (event, held) => {
  if (!held.moved) return;
  bars.classList.add("moving");
  hideTip();
  const by = (held.x - event.clientX) * (held.to - held.from) / panes()[0].wide;
  stage.scrollTop = held.top + held.y - event.clientY;
  look(held.from + by, held.to + by);
}, (event, held) => {
  bars.classList.remove("moving");
  if (held.moved) return;
  const row = rows[rowAt(event.clientY - bars.getBoundingClientRect().top + stage.scrollTop)];
  if (row) choose(row.place, false);
  moveTo(momentAt(event), false);
});
drag(axis, event => {
  const mark = markAt(event);
  if (mark) chooseOrder(mark.order.place);
  else moveTo(momentAt(event), false);
}, (event, held) => {
  if (held.moved) moveTo(momentAt(event), false);
}, () => {});
const wholeAt = event => {
  const box = whole.getBoundingClientRect();
  return first + (event.clientX - box.left) * (last - first) / box.width;
};
drag(whole, (event, held) => {
  const at = wholeAt(event),
    half = (shown.to - shown.from) / 2;
  if (at < shown.from || at > shown.to) look(at - half, at + half);
  held.from = shown.from;
  held.to = shown.to;
}, (event, held) => {
  const by = (event.clientX - held.x) * (last - first) / whole.clientWidth;
  look(held.from + by, held.to + by);
}, () => {});
drag($("grip"), () => {}, event => {
  document.documentElement.style.setProperty("--tree", Math.min(Math.max(event.clientX, 140), innerWidth * .6) +
    "px");
  paint();
}, () => {});

function markAt(event) {
  const box = axis.getBoundingClientRect();
  if (beside || event.clientY - box.top < 30) return null;
  return marksShown().map(mark => ({
    mark,
    far: Math.abs(xOf(mark.order.moment, box.width) - (event.clientX - box.left))
  })).filter(found => found.far < 9).sort((one, other) => one.far - other.far)[0]?.mark;
}

function barAt(event) {
  const y = event.clientY - bars.getBoundingClientRect().top + stage.scrollTop,
    row = rows[rowAt(y)],
    moment = momentAt(event);
  if (!row) return null;
  let places = [row.place];
  if (row.packed) {
    const {
      lane,
      children
    } = lanesOf(row.place), wanted = Math.floor((y - row.y - 3) / (before ? 26 : 19));
    places = children.filter(child => lane.get(child) === wanted);
  }
  for (const place of places) {
    const list = paneAt(acrossOf(event)).telling.bars(place),
      bar = list[lastBefore(list, moment, "from")];
    if (bar && moment < bar.to) return {
      place,
      bar
    };
  }
  return {
    place: row.place,
    bar: null
  };
}

bars.addEventListener("pointermove", event => {
  $("hair").style.transform = `translateX(${event.clientX - bars.getBoundingClientRect().left}px)`;
  const found = barAt(event);
  if (!found?.bar || event.buttons) return hideTip();
  const {
    bar,
    place
  } = found, node = nodes[place], until = bar.foreseen ? (bar.to === Infinity ? ", no end known" :
    ` to ${clock(bar.to)}`) : ` to ${clock(bar.to)}`;
  showTip(event,
    `<b>${html(node.name)}</b> ${dot(bar.state, bar.foreseen)} ${bar.foreseen ? "foreseen, " : ""}${bar.state}<div>${clock(bar.from)}${until}</div>` +
    (bar.of ?
      `<div>interval ${clock(bar.of.begin)} to ${clock(bar.of.end)}${bar.of.iteration ? `, iteration ${bar.of.iteration + 1}` : ""}</div>` :
      "") + (subtitle(node) ? `<div>${html(subtitle(node))}</div>` : ""));
});
axis.addEventListener("pointermove", event => {
  const mark = markAt(event);
  if (!mark) return hideTip();
  const same = marksShown().filter(other => Math.abs(xOf(other.order.moment, axis.clientWidth) - xOf(mark.order
    .moment, axis.clientWidth)) < 9).slice(0, 12);
  showTip(event, same.map(({
      order,
      dropped
    }) =>
    `<div><b>${order.line}</b> <code>${html(order.text)}</code> ${clock(order.moment)}${dropped ? ", taken back by a seek" : ""}</div>`
    ).join(""));
});
for (const box of [bars, axis]) box.addEventListener("pointerleave", hideTip);

function showTip(event, text) {
  tip.innerHTML = text;
  tip.style.display = "block";
  tip.style.left = Math.min(event.clientX + 14, innerWidth - tip.offsetWidth - 8) + "px";
  tip.style.top = Math.min(event.clientY + 16, innerHeight - tip.offsetHeight - 8) + "px";
}

function hideTip() {
  tip.style.display = "none";
}
bars.addEventListener("dblclick", event => {
  const bar = barAt(event)?.bar;
  if (bar) {
    const to = Math.min(bar.to, last),
      span = Math.max(to - bar.from, 20);
    look(bar.from - span * .08, to + span * .08);
  }
});

tree.addEventListener("click", event => {
  const foldOf = event.target.closest("[data-fold]"),
    packOf = event.target.closest("[data-pack]"),
    row = event.target.closest(".row");
  if (packOf) pack(Number(packOf.dataset.pack));
  else if (foldOf && foldOf.textContent) fold(Number(foldOf.dataset.fold));
  else if (row) choose(Number(row.dataset.place), false);
  tree.focus();
});
tree.addEventListener("dblclick", event => {
  const row = event.target.closest(".row");
  if (row && !event.target.closest("button")) fold(Number(row.dataset.place));
});
stage.addEventListener("scroll", paint);
$("session").addEventListener("scroll", paint);
$("orders").addEventListener("click", event => {
  const button = event.target.closest("[data-order]");
  if (button) {
    chooseOrder(Number(button.dataset.order));
  }
});
$("at").addEventListener("click", event => {
  const step = event.target.closest("[data-step]"),
    item = event.target.closest("[data-moment]");
  if (step) stepChange(Number(step.dataset.step));
  if (item) {
    choose(Number(item.dataset.node));
    moveTo(Number(item.dataset.moment));
  }
});
$("find").addEventListener("input", event => {
  shown.find = event.target.value;
  layRows();
});
$("in").onclick = () => zoom(.6);
$("out").onclick = () => zoom(1 / .6);
$("fit").onclick = fit;
$("foldall").onclick = () => {
  for (const node of nodes)
    if (node.children.length && node.parent >= 0) shown.folded.add(node.place);
  layRows();
};
$("openall").onclick = () => {
  shown.folded.clear();
  shown.packed.clear();
  $("packall").setAttribute("aria-pressed", "false");
  layRows();
};
$("packall").onclick = () => {
  const seqs = nodes.filter(node => node.kind === "seq" && node.children.length),
    all = seqs.every(node => shown.packed.has(node.place));
  for (const node of seqs)
    if (all) shown.packed.delete(node.place);
    else shown.packed.add(node.place);
  $("packall").setAttribute("aria-pressed", String(!all));
  layRows();
};
$("theme").onclick = () => dark(document.documentElement.dataset.theme !== "dark");
$("help").onclick = () => $("keys").showModal();
for (const id of MODES) $(id).onclick = () => setMode(id);
$("only").onchange = event => {
  shown.changedOnly = event.target.checked;
  layRows();
};
$("latest").onclick = () => {
  shown.changedOnly = $("only").checked = false;
  shown.order = orders.length - 1;
  shown.mode = "after";
  shown.forced = false;
  restate();
};
$("tabAt").onclick = () => openTab(false);
$("tabSession").onclick = () => openTab(true);
for (const tab of ["tabAt", "tabSession"]) $(tab).addEventListener("keydown", event => {
  if (event.key.startsWith("Arrow")) {
    const other = tab === "tabAt" ? "tabSession" : "tabAt";
    $(other).click();
    $(other).focus();
    event.preventDefault();
  }
});
for (const box of [document.body, stage, axis]) new ResizeObserver(paintNow).observe(box);
