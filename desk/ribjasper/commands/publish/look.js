"use strict";

// The first functions edit the lines of a song. They do not use the page.

const STEP = 0.05;

/** A time in the format of LRC, as 01:02.50. */
function formatTime(seconds) {
  const hundredths = Math.max(0, Math.round(seconds * 100));
  const pad = (number) => String(number).padStart(2, "0");
  return `${pad(Math.floor(hundredths / 6000))}:${pad(Math.floor(hundredths / 100) % 60)}.${pad(hundredths % 100)}`;
}

/** Moves the start of a syllable. Where necessary, it also moves other syllables of the line, so that times never decrease. */
function setStart(line, place, time) {
  const syllables = line.syllables;
  time = Math.max(0, time);
  syllables[place].start = time;
  for (let at = place - 1; at >= 0; at--) {
    syllables[at].start = Math.min(syllables[at].start, time);
    syllables[at].end = Math.min(syllables[at].end, time);
  }
  if (place > 0) syllables[place - 1].end = time;
  for (let at = place; at < syllables.length; at++) {
    syllables[at].start = Math.max(syllables[at].start, time);
    syllables[at].end = Math.max(syllables[at].end, syllables[at].start);
  }
}

/** Moves all syllables of a line by the same time. */
function shiftLine(line, by) {
  by = Math.max(by, -line.syllables[0].start);
  for (const syllable of line.syllables) {
    syllable.start += by;
    syllable.end += by;
  }
}

/** The syllable after a syllable, on its line or the next. After the last syllable, it is this syllable again. */
function following(lines, line, place) {
  if (place + 1 < lines[line].syllables.length) return [line, place + 1];
  return line + 1 < lines.length ? [line + 1, 0] : [line, place];
}

/** The lyrics as an LRC file: lines in the order of their times, with the ends of words and lines, rests, singers and tags. */
function asLrc(song) {
  const isWritable = (text) => !/[\]\r\n]/.test(text) && text.trim() === text;
  const head = [];
  if (song.title && isWritable(song.title)) head.push(`[ti:${song.title}]`);
  if (song.performer && isWritable(song.performer)) head.push(`[ar:${song.performer}]`);
  for (const [name, value] of song.tags || []) if (/^[a-z#]+$/.test(name) && isWritable(value)) head.push(`[${name}:${value}]`);
  head.push(...(song.others || []));
  // All names come first, so that each singer keeps the same voice, whoever sings first.
  const names = song.singers || [];
  head.push(...names.map((name) => `[singer:${name}]`));
  let voice = names.length ? Math.min(names.length, 4) - 1 : (song.others || []).length ? -1 : 0;
  // The times of the file have no intro in front.
  const time = (seconds) => formatTime(Math.max(0, seconds - (song.intro || 0)));
  const marks = ["M: ", "F: ", "v3: ", "v4: ", "D: "], isMark = /^([MFD]|v[1-4]|[vV]oice ?[1-4]):/;
  const items = song.lines.map((line) => ({ at: line.syllables[0].start, order: 1, rows: () => rowsOf(line) }));
  const ends = song.lines.filter((line) => line.whole && !line.open).map((line) => line.syllables[line.syllables.length - 1].end);
  // A rest at the time of a line is written before this line, and ends the line before it.
  const stops = new Map([...(song.rests || []), ...ends].map((at) => [time(at), at]));
  for (const [written, at] of stops) items.push({ at, order: 0, rows: () => [`[${written}]`] });
  for (const { what, start, after } of song.inserts || []) {
    const stamp = start === null ? "" : `[${time(start)}]`;
    const row = `${stamp}[${what.startsWith("#") ? "colour" : "image"}:${what}]`;
    items.push({ at: start === null ? after : start, order: 2, rows: () => [row] });
  }

  function rowsOf(line) {
    const rows = [], text = line.syllables.map((one) => one.text).join("").trim();
    let mark = "";
    if (line.voice !== voice || isMark.test(text)) {
      const isNamed = names.length > 0 && (line.voice < names.length || line.voice === 4);
      if (line.voice !== voice && isNamed) rows.push(`[singer:${line.voice === 4 ? "both" : names[line.voice]}]`);
      if (!isNamed || isMark.test(text)) mark = marks[line.voice];
      voice = line.voice;
    }
    const begin = `[${time(line.syllables[0].start)}]${mark}`;
    if (line.whole) return [...rows, begin + text];
    let words = "", until = 0;
    for (const one of line.syllables) {
      // If a word ends before the next one begins, a time without text follows it.
      if (words && time(until) !== time(one.start) && until < one.start) words += `<${time(until)}>`;
      words += `<${time(one.start)}>${one.text}`;
      until = one.end;
    }
    return [...rows, `${begin}${words}<${time(until)}>`];
  }

  items.sort((one, other) => one.at - other.at || one.order - other.order);
  return [...head, ...items.flatMap((item) => item.rows())].join("\n") + "\n";
}

/** The number of the line that began last before a time, or 0. */
function lineAt(lines, now) {
  let last = 0;
  lines.forEach((line, number) => {
    const start = line.syllables[0].start;
    if (start <= now && start >= lines[last].syllables[0].start) last = number;
  });
  return last;
}

/** The list of changes of the picture. Each change has a block number, optional colours, and a rectangle of colour numbers. */
class Changes {
  constructor(bytes) {
    this.view = new DataView(bytes.buffer, bytes.byteOffset, bytes.byteLength);
    this.bytes = bytes;
    this.starts = [];
    for (let at = 0; at < bytes.length; ) {
      this.starts.push(at);
      const colours = this.view.getUint8(at + 4) ? 32 : 0;
      at += 11 + colours + this.view.getUint16(at + 7) * this.view.getUint16(at + 9);
    }
  }

  block(number) {
    return this.view.getUint32(this.starts[number]);
  }
}

/** The picture at a block, from the list of changes. */
class Screen {
  constructor(changes, width, height) {
    Object.assign(this, { changes, width, height });
    this.clear();
  }

  clear() {
    this.pixels = new Uint8Array(this.width * this.height);
    this.colours = new Uint16Array(16);
    this.next = 0;
  }

  show(block) {
    if (this.next && this.changes.block(this.next - 1) > block) this.clear();
    const before = this.next;
    while (this.next < this.changes.starts.length && this.changes.block(this.next) <= block) this.apply(this.next++);
    return this.next !== before;
  }

  apply(number) {
    const { view, bytes } = this.changes;
    let at = this.changes.starts[number];
    const hasColours = view.getUint8(at + 4), place = view.getUint16(at + 5);
    const wide = view.getUint16(at + 7), high = view.getUint16(at + 9);
    at += 11;
    if (hasColours) {
      for (let colour = 0; colour < 16; colour++, at += 2) this.colours[colour] = view.getUint16(at);
    }
    for (let row = 0; row < high; row++, at += wide) {
      this.pixels.set(bytes.subarray(at, at + wide), place + row * this.width);
    }
  }

  /** Red, green, blue and opacity of all pixels. */
  image() {
    const shown = new Uint8ClampedArray(4 * this.pixels.length);
    this.pixels.forEach((colour, at) => {
      const parts = this.colours[colour];
      shown.set([17 * (parts >> 8 & 15), 17 * (parts >> 4 & 15), 17 * (parts & 15), 255], 4 * at);
    });
    return shown;
  }
}

/** The picture at a block, drawn by the proved library from the packs of a .cdg file. */
class LibraryScreen {
  constructor(player, packs) {
    Object.assign(this, { player, packs });
    this.clear();
  }

  clear() {
    this.player.begin({ form: "packs" });
    this.next = 0;
  }

  show(block) {
    const until = Math.min(4 * block, Math.floor(this.packs.length / 24));
    if (until < this.next) this.clear();
    const part = this.packs.subarray(24 * this.next, 24 * until);
    this.next = until;
    if (!part.some((byte) => byte)) return false;
    this.player.drawAll(part);
    return true;
  }

  get pixels() {
    return this.player.screen();
  }

  image() {
    return new Uint8ClampedArray(this.player.picture());
  }
}

/** Decompresses the data in an element of the page. */
async function inflate(name) {
  const text = document.getElementById(name).textContent.trim();
  const packed = Uint8Array.from(atob(text), (letter) => letter.charCodeAt(0));
  const stream = new Blob([packed]).stream().pipeThrough(new DecompressionStream("deflate"));
  return new Uint8Array(await new Response(stream).arrayBuffer());
}

/** Returns the screen of the library, if the page has the library and the browser can load it; otherwise the screen of changes. */
async function loadScreen() {
  if (document.getElementById("module").textContent.trim()) {
    try {
      const script = URL.createObjectURL(new Blob([await inflate("module")], { type: "text/javascript" }));
      const library = await (await import(script)).load(await inflate("wasm"));
      document.body.dataset.drawn = "library";
      return new LibraryScreen(library.player({ form: "packs" }), await inflate("packs"));
    } catch (error) {
      console.log(`the library cannot be loaded: ${error}`);
    }
  }
  document.body.dataset.drawn = "changes";
  return new Screen(new Changes(await inflate("changes")), 300, 216);
}

/** Whether the focused element uses a key itself: Space and Enter activate a button, and arrow keys move the sound or the slider. */
function isOwnKey(event) {
  const target = event.target;
  if (!target || !target.closest) return false;
  if (event.key === " " || event.key === "Enter") return target.closest("button, a, input, audio, summary") !== null;
  return event.key.startsWith("Arrow") && target.closest("audio, input, [role=slider]") !== null;
}

/** The time to which a key moves the time slider, or null for other keys. */
function sliderTarget(key, now, most) {
  const steps = { ArrowLeft: -1, ArrowDown: -1, ArrowRight: 1, ArrowUp: 1, PageDown: -10, PageUp: 10, Home: -Infinity, End: Infinity };
  return key in steps ? Math.min(most, Math.max(0, now + steps[key])) : null;
}

/** Builds the page: the picture, the time slider, the lines, and the keys. */
async function start() {
  const song = JSON.parse(document.getElementById("song").textContent);
  const screen = await loadScreen();
  const pen = document.getElementById("screen").getContext("2d");
  const sound = document.getElementById("sound"), message = document.getElementById("message");
  const list = document.getElementById("lines"), time = document.getElementById("time");
  const cursor = time.querySelector("i");
  const kinds = ["first", "second", "third", "fourth", "both"];
  let line = 0, place = 0, isChanged = false, sungLine = -1, isSetting = false;

  const items = song.lines.map((one, number) => {
    const row = document.createElement("li"), item = document.createElement("button"), bar = document.createElement("span");
    item.type = "button";
    row.append(item);
    item.append(document.createElement("time"));
    for (const syllable of one.syllables) {
      const word = document.createElement("b");
      word.textContent = syllable.text;
      item.append(word);
    }
    if (one.late) {
      const why = document.createElement("small");
      why.textContent = one.late;
      item.append(why);
      item.classList.add("late");
      bar.classList.add("late");
      bar.title = one.late;
    }
    bar.classList.add(kinds[one.voice]);
    item.addEventListener("click", () => jump(number));
    time.append(bar);
    list.append(row);
    return { item, bar };
  });

  function update() {
    song.lines.forEach((one, number) => {
      const { item, bar } = items[number];
      const from = one.syllables[0].start, to = one.syllables[one.syllables.length - 1].end;
      item.querySelector("time").textContent = formatTime(from);
      bar.style.left = `${100 * from / song.seconds}%`;
      bar.style.width = `${Math.max(0.3, 100 * (to - from) / song.seconds)}%`;
      for (const element of [item, bar]) element.classList.toggle("chosen", number === line);
      if (number === line) item.setAttribute("aria-current", "true");
      else item.removeAttribute("aria-current");
      item.querySelectorAll("b").forEach((word, at) => word.classList.toggle("chosen", at === place));
    });
    items[line].item.scrollIntoView({ block: "nearest" });
  }

  function draw() {
    const now = sound.currentTime;
    if (screen.show(Math.floor(now * 75)) || !draw.hasDrawn) {
      pen.putImageData(new ImageData(screen.image(), 300, 216), 0, 0);
      draw.hasDrawn = true;
      document.body.dataset.shown = checksum(screen.pixels);
    }
    cursor.style.left = `${100 * now / song.seconds}%`;
    if (Math.floor(now) !== draw.second) {
      draw.second = Math.floor(now);
      time.setAttribute("aria-valuenow", draw.second);
      time.setAttribute("aria-valuetext", `${formatTime(now)} of ${formatTime(song.seconds)}`);
    }
    follow(now);
    song.lines.forEach((one, number) => {
      const words = items[number].item.querySelectorAll("b");
      one.syllables.forEach((syllable, at) => words[at].classList.toggle("sung", syllable.start <= now && now < syllable.end));
    });
  }

  /** Chooses the sung line while the song plays. While the user sets times, the choice stays. */
  function follow(now) {
    const number = lineAt(song.lines, now);
    if (number === sungLine) return;
    sungLine = number;
    if (sound.paused || isSetting) return;
    [line, place] = [number, 0];
    update();
  }

  function jump(number) {
    [line, place, isSetting] = [number, 0, false];
    sound.currentTime = Math.max(0, song.lines[number].syllables[0].start - 0.5);
    update();
  }

  function save() {
    const link = document.createElement("a");
    link.href = URL.createObjectURL(new Blob([asLrc(song)], { type: "text/plain" }));
    link.download = song.name;
    link.click();
    isChanged = false;
    message.textContent = `saved as ${song.name}`;
  }

  function showChange(text) {
    isChanged = true;
    message.textContent = text;
    update();
  }

  const keys = {
    p: () => (sound.paused ? sound.play() : sound.pause()),
    s: save,
    ArrowUp: () => { [line, place] = [Math.max(0, line - 1), 0]; update(); },
    ArrowDown: () => { [line, place] = [Math.min(song.lines.length - 1, line + 1), 0]; update(); },
    ArrowLeft: () => { place = Math.max(0, place - 1); update(); },
    ArrowRight: () => { place = Math.min(song.lines[line].syllables.length - 1, place + 1); update(); },
    ",": () => shift(-STEP), ".": () => shift(STEP),
    "<": () => { shiftLine(song.lines[line], -STEP); showChange("the line is earlier"); },
    ">": () => { shiftLine(song.lines[line], STEP); showChange("the line is later"); },
    " ": () => {
      if (sound.paused) { sound.play(); return; }
      isSetting = true;
      setStart(song.lines[line], place, sound.currentTime);
      [line, place] = following(song.lines, line, place);
      showChange("set");
    },
  };

  function shift(by) {
    const syllable = song.lines[line].syllables[place];
    setStart(song.lines[line], place, syllable.start + by);
    showChange(`${syllable.text.trim()} is at ${formatTime(syllable.start)}`);
  }

  document.addEventListener("keydown", (event) => {
    const act = !event.ctrlKey && !event.metaKey && !event.altKey && keys[event.key];
    if (act && !isOwnKey(event)) { event.preventDefault(); act(); }
  });
  // Keys of the time slider: arrows move by one second, Page Up and Page Down by ten, Home and End to either end.
  time.setAttribute("aria-valuemax", Math.floor(song.seconds));
  time.addEventListener("keydown", (event) => {
    const to = sliderTarget(event.key, sound.currentTime, song.seconds);
    if (to === null || event.ctrlKey || event.metaKey || event.altKey) return;
    event.preventDefault();
    sound.currentTime = to;
  });
  sound.addEventListener("pause", () => { isSetting = false; });
  document.getElementById("save").addEventListener("click", save);
  const seekTo = (event) => {
    const box = time.getBoundingClientRect();
    sound.currentTime = song.seconds * Math.min(1, Math.max(0, (event.clientX - box.left) / box.width));
    isSetting = false;
  };
  time.addEventListener("pointerdown", (event) => { time.setPointerCapture(event.pointerId); seekTo(event); });
  time.addEventListener("pointermove", (event) => { if (time.hasPointerCapture(event.pointerId)) seekTo(event); });
  window.addEventListener("beforeunload", (event) => { if (isChanged) event.preventDefault(); });
  sound.addEventListener("seeked", draw);

  // The address PAGE#12.5 starts at this second.
  const first = parseFloat(location.hash.slice(1));
  if (first > 0) sound.currentTime = first;
  update();
  (function loop() { draw(); requestAnimationFrame(loop); })();
  document.body.dataset.ready = "yes";
}

/** A checksum by which a test recognizes a picture. */
function checksum(pixels) {
  return pixels.reduce((sum, pixel) => (sum * 31 + pixel) >>> 0, 7) >>> 0;
}

if (typeof document === "undefined") {
  module.exports = { formatTime, setStart, shiftLine, following, lineAt, isOwnKey, sliderTarget, asLrc, Changes, Screen, checksum };
} else {
  start();
}
