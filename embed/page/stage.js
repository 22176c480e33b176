// The stage: what is on it is shown and played as the engine says, and is clicked by mouse or keyboard.

const TAGS = { img: "img", video: "video", audio: "audio", text: "p", ref: "p", animation: "img" };
const DRIFT = 0.25; // seconds that media may be off before it is set right

export class Stage {
  #place;
  #presentation;
  #items = new Map(); // by serial
  #height = 0; // of what was shown last

  // Puts the presentation's media into an element of the page.
  constructor(place, presentation) {
    this.#place = place;
    this.#presentation = presentation;
    presentation.addEventListener("edited", () => this.#collect());
    presentation.addEventListener("told", () => this.update());
  }

  // Shows what is on, and keeps media in step with the clock.
  update() {
    for (const item of this.#items.values()) {
      const { showing } = this.#presentation.onScreen(item.node);
      this.#show(item, showing !== null);
      item.box.classList.toggle("stands", showing === "standing");
      this.#keepInStep(item);
    }
  }

  // Makes what the document has and the stage has not, and removes what it has no longer.
  #collect() {
    const wanted = this.#presentation.nodes.filter((node) => node.kind in TAGS);
    const kept = new Map();
    for (const node of wanted) {
      const old = this.#items.get(node.serial);
      const isSame = old && old.node.kind === node.kind && old.node.attributes.src === node.attributes.src;
      kept.set(node.serial, isSame ? Object.assign(old, { node }) : this.#made(node));
    }
    for (const [serial, item] of this.#items) if (kept.get(serial) !== item) item.box.remove();
    this.#items = kept;
    for (const item of kept.values()) this.#label(item);
  }

  #made(node) {
    const box = document.createElement("div");
    const media = document.createElement(TAGS[node.kind]);
    const item = { node, box, media };
    box.className = `item ${node.kind}`;
    box.tabIndex = 0;
    box.hidden = true;
    box.setAttribute("role", "button");
    box.addEventListener("click", () => this.#presentation.event(item.node, "click"));
    box.addEventListener("keydown", (event) => {
      if (event.key !== "Enter" && event.key !== " ") return;
      event.preventDefault();
      this.#presentation.event(item.node, "click");
    });
    box.append(media);
    this.#fill(item);
    this.#place.append(box);
    return item;
  }

  // Gives the media its source; what can't be had is shown by its text.
  #fill(item) {
    const { media, node } = item;
    const { src } = node.attributes;
    media.addEventListener("error", () => item.box.classList.add("missing"));
    if (media.tagName === "P") {
      if (src) this.#read(item);
    } else if (!src) {
      item.box.classList.add("missing");
    } else {
      if (media.tagName !== "IMG") this.#prepare(item);
      media.src = src;
    }
  }

  // Puts a text into its place; where it can't be had, that of its label stays.
  async #read(item) {
    const response = await fetch(item.node.attributes.src).catch(() => null);
    if (!response?.ok) return;
    item.media.textContent = (await response.text()).trim();
    item.isRead = true;
  }

  // Has the engine told how long sound or video is, as soon as that is known.
  #prepare(item) {
    const { media } = item;
    media.preload = "auto";
    media.playsInline = true;
    media.addEventListener("loadedmetadata", () => {
      this.#presentation.length(item.node, Math.round(media.duration * 1000));
    });
    media.addEventListener("loadeddata", () => this.#keepInStep(item));
  }

  // The name of an element for who doesn't see it, and for who sees it where its media is missing.
  #label({ node, box, media, isRead = false }) {
    const name = node.attributes.alt ?? node.attributes.title ?? node.name;
    box.dataset.name = node.name;
    box.dataset.text = node.kind === "audio" ? `♪ ${name}` : name;
    box.setAttribute("aria-label", `${name}: click`);
    if (media.tagName === "IMG") media.alt = "";
    if (media.tagName === "P" && !isRead) media.textContent = name;
  }

  #show(item, isShown) {
    if (item.box.hidden === !isShown) return;
    const hadFocus = item.box.contains(document.activeElement);
    item.box.hidden = !isShown;
    if (isShown) item.box.style.zIndex = ++this.#height;
    else if (hadFocus) this.#place.focus();
  }

  // Plays sound or video where the engine's clock has it, or stops it there.
  #keepInStep({ node, media }) {
    if (!("duration" in media) || Number.isNaN(media.duration)) return;
    const { isPlaying, rate } = this.#presentation;
    const { showing, position } = this.#presentation.onScreen(node);
    const length = media.duration;
    const at = Math.max(position, 0) / 1000;
    const isOn = isPlaying && at < length && showing === "playing";
    if (Math.abs(media.currentTime - at) > (isOn ? DRIFT * rate : 0.01)) media.currentTime = Math.min(at, length);
    media.playbackRate = rate;
    if (isOn && media.paused) media.play().catch(() => {}); // the browser may want a click first
    else if (!isOn && !media.paused) media.pause();
  }
}
