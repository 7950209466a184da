// The waveform, with a bar for each word. Bars can be dragged.
import { span, formatTime } from "./times.js";

// Seconds in view at the largest zoom, and the width in pixels of the edges by which a bar is resized.
const LEAST_SECONDS = 1, EDGE = 6;
const PEAKS_PER_SECOND = 100, LANES = 4;

export class Wave {
  start = 0;
  seconds = 12;
  #peaks = new Int8Array();

  /** `page` has the properties `lines`, `length` and `late`, and the functions `now`, `isChosen`, `choose`, `drag` and `seek`. */
  constructor(page) {
    this.page = page;
    this.box = document.getElementById("wave");
    this.canvas = document.getElementById("peaks");
    this.bars = document.getElementById("bars");
    this.cursor = document.getElementById("cursor");
    this.elements = new Map();
    new ResizeObserver(() => this.draw()).observe(this.box);
    this.box.addEventListener("pointerdown", (event) => this.#press(event));
    this.box.addEventListener("wheel", (event) => this.#wheel(event), { passive: false });
  }

  set peaks(bytes) {
    this.#peaks = new Int8Array(bytes);
    this.draw();
  }

  get width() {
    return this.box.clientWidth;
  }

  secondAt(x) {
    return this.start + (x - this.box.getBoundingClientRect().left) / this.width * this.seconds;
  }

  zoom(factor, around = this.page.now()) {
    const share = (around - this.start) / this.seconds;
    this.seconds = Math.max(LEAST_SECONDS, Math.min(Math.max(LEAST_SECONDS, this.page.length), this.seconds * factor));
    this.start = this.#limitStart(around - (share >= 0 && share <= 1 ? share : 0.3) * this.seconds);
    this.draw();
  }

  #limitStart(start) {
    return Math.max(0, Math.min(start, Math.max(0, this.page.length - this.seconds)));
  }

  /** Moves the cursor to a time. If the time is out of view, the view moves by about its own length. */
  show(second) {
    if (second < this.start || second > this.start + this.seconds * 0.95) {
      this.start = this.#limitStart(second - 0.1 * this.seconds);
      this.draw();
    }
    this.cursor.style.left = `${100 * (second - this.start) / this.seconds}%`;
  }

  draw() {
    this.#drawPeaks();
    this.placeBars();
    this.cursor.style.left = `${100 * (this.page.now() - this.start) / this.seconds}%`;
  }

  #drawPeaks() {
    const width = this.width, height = this.box.clientHeight, scale = window.devicePixelRatio || 1;
    if (!width) return;
    this.canvas.width = width * scale;
    this.canvas.height = height * scale;
    const pen = this.canvas.getContext("2d");
    pen.scale(scale, scale);
    pen.fillStyle = getComputedStyle(document.documentElement).getPropertyValue("--wave");
    for (let x = 0; x < width; x++) {
      const first = Math.floor((this.start + x / width * this.seconds) * PEAKS_PER_SECOND);
      const last = Math.max(first + 1, Math.floor((this.start + (x + 1) / width * this.seconds) * PEAKS_PER_SECOND));
      let low = 0, top = 0;
      for (let at = first; at < last && 2 * at + 1 < this.#peaks.length; at++) {
        low = Math.min(low, this.#peaks[2 * at]);
        top = Math.max(top, this.#peaks[2 * at + 1]);
      }
      pen.fillRect(x, height / 2 - top / 128 * height / 2, 1, Math.max(1, (top - low) / 256 * height));
    }
    pen.fillStyle = getComputedStyle(document.documentElement).getPropertyValue("--ink");
    pen.font = "11px system-ui, sans-serif";
    const step = [0.1, 0.5, 1, 2, 5, 10, 20, 60].find((one) => one / this.seconds * width > 70) ?? 120;
    for (let at = Math.ceil(this.start / step) * step; at < this.start + this.seconds; at += step) {
      const x = (at - this.start) / this.seconds * width;
      pen.fillRect(x, height - 5, 1, 5);
      pen.fillText(formatTime(at), x + 3, height - 4);
    }
  }

  /** Places a bar for each timed word in view. */
  placeBars() {
    const inView = new Map();
    this.page.lines.forEach((line, number) => {
      const whole = span(line);
      if (!whole || whole.end < this.start || whole.start > this.start + this.seconds) return;
      line.words.forEach((word, place) => {
        if (word.start !== null) inView.set(`${line.key}.${place}`, { line, number, word, place });
      });
    });
    for (const [name, bar] of this.elements) {
      if (!inView.has(name)) {
        bar.remove();
        this.elements.delete(name);
      }
    }
    for (const [name, one] of inView) this.#placeBar(name, one);
  }

  /** Moves the focus to the bar of the chosen word. */
  focus() {
    const bar = this.bars.querySelector("button.chosen");
    bar?.focus({ preventScroll: true });
  }

  #placeBar(name, { line, number, word, place }) {
    let bar = this.elements.get(name);
    if (!bar) {
      bar = document.createElement("button");
      bar.type = "button";
      this.elements.set(name, bar);
      // The pointerdown event has already handled a click of the mouse (its `detail` is not 0).
      bar.addEventListener("click", (event) => {
        if (!event.detail) this.page.choose(Number(bar.dataset.key), Number(bar.dataset.place), event.shiftKey);
      });
      this.bars.append(bar);
    }
    bar.dataset.key = line.key;
    bar.dataset.place = place;
    if (bar.textContent !== word.text) bar.textContent = word.text;
    bar.setAttribute("aria-label", `${word.text.trim()}, line ${number + 1}, ${formatTime(word.start)} to ${formatTime(word.end)}`);
    const isChosen = this.page.isChosen(line.key, place);
    bar.className = `v${word.voice}`;
    bar.classList.toggle("chosen", isChosen);
    bar.classList.toggle("late", this.page.late.has(number + 1));
    bar.setAttribute("aria-pressed", String(isChosen));
    bar.tabIndex = isChosen ? 0 : -1;
    bar.style.left = `${100 * (word.start - this.start) / this.seconds}%`;
    bar.style.width = `max(3px, ${100 * (word.end - word.start) / this.seconds}%)`;
    bar.style.top = `${0.3 + 1.75 * (number % LANES)}rem`;
  }

  #press(event) {
    const bar = event.target.closest("#bars button");
    if (event.button !== 0) return;
    if (!bar) {
      this.#dragTime(event);
      return;
    }
    const key = Number(bar.dataset.key), place = Number(bar.dataset.place), box = bar.getBoundingClientRect();
    this.page.choose(key, place, event.shiftKey || event.ctrlKey || event.metaKey);
    const isWide = box.width > 3 * EDGE;
    const edge = isWide && event.clientX > box.right - EDGE ? "end" : isWide && event.clientX < box.left + EDGE ? "start" : "all";
    bar.setPointerCapture(event.pointerId);
    const from = event.clientX;
    let by = 0;
    const moved = (next) => {
      by = (next.clientX - from) / this.width * this.seconds;
      bar.style.translate = edge === "end" ? "" : `${next.clientX - from}px`;
      if (edge === "end") bar.style.width = `${Math.max(3, box.width + next.clientX - from)}px`;
    };
    const finish = () => {
      bar.removeEventListener("pointermove", moved);
      bar.removeEventListener("pointerup", finish);
      bar.removeEventListener("pointercancel", finish);
      bar.style.translate = "";
      if (Math.abs(by) * this.width / this.seconds > 2) this.page.drag(key, place, edge, Math.round(by * 100) / 100);
      this.placeBars();
    };
    bar.addEventListener("pointermove", moved);
    bar.addEventListener("pointerup", finish);
    bar.addEventListener("pointercancel", finish);
  }

  #dragTime(event) {
    this.box.setPointerCapture(event.pointerId);
    this.page.seek(this.secondAt(event.clientX));
    const moved = (next) => this.page.seek(this.secondAt(next.clientX));
    this.box.addEventListener("pointermove", moved);
    this.box.addEventListener("pointerup", () => this.box.removeEventListener("pointermove", moved), { once: true });
  }

  #wheel(event) {
    event.preventDefault();
    if (event.ctrlKey) {
      this.zoom(event.deltaY > 0 ? 1.25 : 0.8, this.secondAt(event.clientX));
    } else {
      this.start = this.#limitStart(this.start + (event.deltaY + event.deltaX) / 800 * this.seconds);
      this.draw();
    }
  }
}
