// The page: its fields and buttons, and what it says of the presentation.

import { EXAMPLES } from "./examples.js";
import { Presentation } from "./presentation.js";
import { Stage } from "./stage.js";
import { Timeline } from "./timeline.js";
import { loadEngine } from "./tenphsar.js";

const field = (id) => document.getElementById(id);
const seconds = (moment) => `${(moment / 1000).toFixed(3)} s`;
const BETWEEN_DRAWINGS = 100; // milliseconds
const FIELDS = ["INPUT", "TEXTAREA", "SELECT"];

function timeInWords(time) {
  if (time === null) return "–";
  if (Number.isNaN(time)) return "stands";
  return Number.isFinite(time) ? seconds(time) : "open";
}

// Says an order's refusal, and goes to the line of the outline that it is about.
function sayRefusal({ refusal, lines, place }) {
  const isLoad = lines.length > 1;
  const where = [isLoad && place > 0 ? `line ${place}` : null, refusal.column ? `column ${refusal.column}` : null];
  field("refusal").textContent = [`Refused: ${refusal.word}`, ...where.filter(Boolean)].join(", ");
  if (!isLoad || place < 1) return;
  const before = lines.slice(1, place).join("\n").length + (place > 1 ? 1 : 0);
  field("outline").focus();
  field("outline").setSelectionRange(before, before + lines[place].length);
}

// What an answer changed, in words.
function sayChanges(changes) {
  if (changes.length) field("told").textContent = changes.map(({ element, state }) => `${element} ${state}`).join(", ");
}

function listElements(presentation) {
  const { history, moment } = presentation;
  const rows = presentation.nodes.filter((node) => node.kind !== "priorityClass").map((node) => {
    const row = document.createElement("tr");
    const now = history.at(node, moment);
    const name = document.createElement("th");
    name.scope = "row";
    name.textContent = node.name;
    row.append(name);
    for (const text of [now?.state ?? "idle", timeInWords(now?.begin ?? null), timeInWords(now?.end ?? null)]) {
      row.insertCell().textContent = text;
    }
    row.dataset.name = node.name;
    row.dataset.state = now?.state ?? "idle";
    return row;
  });
  field("elements").replaceChildren(...rows);
}

function listNames(presentation) {
  const chosen = field("element").value;
  field("element").replaceChildren(...presentation.nodes.map(({ name }) => new Option(name)));
  if (presentation.nodes.some(({ name }) => name === chosen)) field("element").value = chosen;
}

// Shows the moment by the clock.
function showMoment(presentation, timeline) {
  const { now } = presentation;
  field("clock").textContent = seconds(now);
  field("moment").max = timeline.span;
  if (!field("moment").matches(":active")) field("moment").value = now;
  field("moment").setAttribute("aria-valuetext", `${(now / 1000).toFixed(1)} seconds`);
}

function showAnswer(presentation, timeline) {
  const { isPlaying, next, orders } = presentation;
  field("play").textContent = isPlaying ? "Pause" : "Play";
  const coming = next === null ? "nothing comes" : `next at ${seconds(next)}`;
  field("engine").textContent = `${orders} orders given; ${coming}.`;
  listElements(presentation);
  timeline.draw();
  showMoment(presentation, timeline);
}

function loadOutline(presentation) {
  field("refusal").textContent = field("told").textContent = "";
  presentation.load(field("outline").value.split("\n"));
}

// Keys that no field takes are access keys.
function pressKey(presentation, event) {
  const isPlain = event.key.length === 1 && event.key > " " && event.key <= "~";
  if (!isPlain || event.ctrlKey || event.metaKey || event.altKey || FIELDS.includes(event.target.tagName)) return;
  presentation.key(event.key);
}

function giveEdit(presentation, value) {
  field("refusal").textContent = "";
  const node = presentation.nodes.find(({ name }) => name === field("element").value);
  const isEdited = node && presentation.edit(node, field("attribute").value.trim(), value);
  if (isEdited) field("outline").value = presentation.saved();
}

function listen(presentation) {
  field("load").addEventListener("click", () => loadOutline(presentation));
  field("example").addEventListener("change", () => {
    field("outline").value = EXAMPLES[field("example").value];
    loadOutline(presentation);
  });
  field("play").addEventListener("click", () => presentation.isPlaying ? presentation.pause() : presentation.play());
  field("start").addEventListener("click", () => presentation.seek(0));
  field("rate").addEventListener("change", () => presentation.rate = Number(field("rate").value));
  field("moment").addEventListener("input", () => presentation.seek(Number(field("moment").value)));
  field("edit").addEventListener("submit", (event) => {
    event.preventDefault();
    giveEdit(presentation, field("value").value);
  });
  field("unset").addEventListener("click", () => giveEdit(presentation, null));
  document.addEventListener("keydown", (event) => pressKey(presentation, event));
}

async function start() {
  const presentation = new Presentation(await loadEngine(fetch("tenphsar.wasm")));
  const stage = new Stage(field("stage"), presentation);
  const timeline = new Timeline(field("timeline"), presentation);
  presentation.addEventListener("refused", sayRefusal);
  presentation.addEventListener("edited", () => listNames(presentation));
  presentation.addEventListener("told", ({ changes }) => {
    sayChanges(changes);
    showAnswer(presentation, timeline);
  });
  listen(presentation);
  field("example").replaceChildren(...Object.keys(EXAMPLES).map((name) => new Option(name)));
  field("outline").value = EXAMPLES[field("example").value];
  loadOutline(presentation);
  window.addEventListener("resize", () => timeline.draw());
  let drawn = 0;
  const paint = (moment) => {
    if (presentation.isPlaying) {
      if (moment - drawn < BETWEEN_DRAWINGS) {
        timeline.move();
      } else {
        timeline.draw();
        drawn = moment;
      }
      showMoment(presentation, timeline);
      stage.update();
    }
    requestAnimationFrame(paint);
  };
  requestAnimationFrame(paint);
}

start().catch((fault) => field("engine").textContent = `The engine can't run here: ${fault.message}`);
