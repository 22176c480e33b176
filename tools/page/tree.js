// The tree of elements at the left; only the rows in sight are in the page.

function paintTree() {
  const top = stage.scrollTop,
    tall = stage.clientHeight,
    texts = [];
  const wide = tree.clientWidth;
  for (let at = rowAt(top); at < rows.length && rows[at].y < top + tall; at++) {
    const row = rows[at],
      node = nodes[row.place],
      found = now.at(row.place, shown.cursor);
    const holds = node.children.length > 0,
      open = holds && !row.packed && !shown.folded.has(row.place);
    const isChanged = (before || beside || shown.changedOnly) && tellingOf(shown.order, true).changed.has(row
    .place);
    const isGone = node.gone >= 0 && (node.gone < shown.order || (node.gone === shown.order && shown.mode !==
      "before"));
    const word = SHOWN.has(found.state) || found.state === "waiting" ? (found.foreseen && SHOWN.has(found.state) ?
      "foreseen" : found.state) : found.state === "idle" ? "" : found.state;
    const guides = '<span class="guide"></span>'.repeat(Math.min(node.depth, 12));
    const under = [subtitle(node), row.packed ? `${node.children.length} in one row` : !open && holds ?
      `${node.children.length} folded` : ""
    ].filter(Boolean).join(", ");
    const siblings = node.parent < 0 ? [row.place] : nodes[node.parent].children;
    texts.push(
      `<div class="row${row.place === shown.node ? " chosen" : ""}${isChanged ? " changed" : ""}${isGone ? " gone" : ""}" role="treeitem" id="n${row.place}"` +
      ` data-place="${row.place}" aria-level="${node.depth + 1}" aria-selected="${row.place === shown.node}"${holds ? ` aria-expanded="${open}"` : ""}` +
      ` aria-setsize="${siblings.length}" aria-posinset="${siblings.indexOf(row.place) + 1}" aria-label="${html(`${node.name}, ${node.kind}, ${MEANS[found.state]}${found.foreseen ? ", foreseen" : ""}`)}"` +
      ` style="top:${row.y - top}px;height:${row.h}px;padding-left:4px">${guides}` +
      `<button class="fold" tabindex="-1" aria-hidden="true" data-fold="${row.place}">${holds ? (open ? "▾" : "▸") : ""}</button>` +
      `<span style="color:var(${KINDCOLOUR[node.kind] || "--dim"});display:inline-flex" title="${node.kind}">${icon(node.kind).replace("<svg", '<svg style="color:inherit"')}</span>` +
      `<span class="name${holds ? " holds" : ""}">${html(node.id || (node.kind ? node.kind + " " : "") + "#" + node.serial)}</span><span class="src" title="${html(under)}">${html(under)}</span>` +
      (holds ?
        `<button class="pack" tabindex="-1" aria-pressed="${row.packed}" title="its children in one row (p)" data-pack="${row.place}">≡</button>` :
        "") +
      `<span class="at">${wide > 200 ? word : ""} ${dot(found.state, found.foreseen)}</span></div>`);
  }
  tree.innerHTML = texts.join("");
  tree.setAttribute("aria-activedescendant", "n" + shown.node);
}

function rowAt(y) {
  let low = 0,
    high = rows.length;
  while (low < high) {
    const middle = (low + high) >> 1;
    if (rows[middle].y + rows[middle].h <= y) low = middle + 1;
    else high = middle;
  }
  return low;
}
