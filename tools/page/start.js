// How the page begins: its words, and the place that its address names.

document.title = `${DATA.name}: timeline`;
$("name").textContent = DATA.name;
$("sum").textContent =
  `${nodes.filter(node => node.gone < 0).length} elements, ${orders.length} orders, ${changes.length.toLocaleString("en")} changes`;
$("hint").textContent = DATA.tree ? "Keys: ? shows them" : "Made without the session: no tree, no orders";
const asked = new URLSearchParams(location.hash.slice(1));
dark(asked.has("theme") ? asked.get("theme") === "dark" : matchMedia("(prefers-color-scheme: dark)").matches);
autoPack();
if (DATA.start.only.length) {
  shown.only = new Set();
  for (const node of nodes)
    if (DATA.start.only.includes(node.id) || DATA.start.only.includes("#" + node.serial) || shown.only.has(node
        .parent)) shown.only.add(node.place);
}
restate();
shown.cursor = now.now;
fit();
const line = Number(asked.get("line") || DATA.start.compare || 0);
if (line) {
  const place = orders.findIndex(order => order.line === line);
  if (place >= 0) chooseOrder(place, asked.get("mode"));
}
if (DATA.start.from !== null || DATA.start.to !== null) look(DATA.start.from ?? first, DATA.start.to ?? last);
if (asked.has("from")) look(Number(asked.get("from")), Number(asked.get("to") || last));
if (asked.has("t")) moveTo(Number(asked.get("t")));
if (asked.has("element")) choose(nodes.findIndex(node => node.name === asked.get("element")));
if (asked.get("tab") === "session") openTab(true);
say();
