// Words, moments and signs as they are written.

const html = text => String(text).replace(/[&<>"]/g, sign => ({
  "&": "&amp;",
  "<": "&lt;",
  ">": "&gt;",
  '"': "&quot;"
})[sign]);

function clock(moment, step = 1) {
  if (typeof moment !== "number") return moment === null ? "–" : String(moment);
  if (!Number.isFinite(moment)) return "open";
  const sign = moment < 0 ? "−" : "",
    rest = Math.round(Math.abs(moment)),
    part = rest % 1000,
    seconds = Math.floor(rest / 1000);
  const fraction = step < 1000 && part ? "." + String(part).padStart(3, "0").replace(/0+$/, "") : "";
  const two = number => String(number).padStart(2, "0");
  if (seconds < 60) return `${sign}${seconds}${fraction} s`;
  if (seconds < 3600) return `${sign}${Math.floor(seconds / 60)}:${two(seconds % 60)}${fraction}`;
  const hours = Math.floor(seconds / 3600),
    days = Math.floor(hours / 24);
  const tail = seconds % 60 || fraction ? ":" + two(seconds % 60) + fraction : "";
  return `${sign}${days ? days + "d " : ""}${hours % 24}:${two(Math.floor(seconds / 60) % 60)}${tail}`;
}

const FORMS = {
  par: "M3 3v10M7 3v10M11 3v10",
  seq: "M2 8h9M8 5l3 3-3 3",
  excl: "M3 3l8 10M11 3l-8 10",
  priorityClass: "M2 4h10M4 8h6M6 12h2",
  img: "M2 3h10v10H2zM2 11l3-4 3 3 1.5-2L12 11",
  text: "M3 4h8M7 4v9M5.500 13h3",
  audio: "M3 6v4h2l3 3V3L5 6zM10 6q1.500 2 0 4",
  video: "M2 4h10v8H2zM6 6.500l3 1.500-3 1.500z",
  brush: "M3 12l1-3 6-6 2 2-6 6z",
  animation: "M7 3l4 5-4 5-4-5z",
  textstream: "M2 4h10M2 7h7M2 10h10M2 13h5",
  ref: "M5 3H3v10h8v-2M7 3h4v4M11 3L6 8",
  set: "M2 5h10M2 11h10M5 3v4M9 9v4",
  "": "M4 8h6"
};
const icon = kind =>
  `<svg width="14" height="16" viewBox="0 0 14 16" fill="none" stroke="currentColor" stroke-width="1.4" stroke-linecap="round" stroke-linejoin="round" aria-hidden="true"><path d="${FORMS[kind] || FORMS[""]}"/></svg>`;
const KINDCOLOUR = {
  par: "--accent",
  seq: "--accent",
  excl: "--accent",
  priorityClass: "--deferred",
  set: "--edit"
};
const subtitle = node => node.attributes.title || (node.kind === "set" ?
  `${node.attributes.targetElement || ""} ${node.attributes.attributeName || ""} ${node.attributes.to || ""}`
  .trim() : node.attributes.src) || "";
const dot = (state, foreseen) => SHOWN.has(state) ?
  `<span class="dot${foreseen ? " hollow" : ""}" style="--c:var(--${state})"></span>` :
  `<span class="dot none"></span>`;
