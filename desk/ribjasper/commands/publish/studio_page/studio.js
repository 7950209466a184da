// The page of the studio. It sends each edit to the desk, and shows the state that the desk returns.
import { Screen } from "./screen.js";
import {
  STEP, SoundClock, firstTarget, isOwnKey, lateText, lineAt, joinSyllables, nextTarget, parseTime, span, formatTime, tappedAt, tapCount,
  splitSyllables,
} from "./times.js";
import { Wave } from "./wave.js";

const $ = (id) => document.getElementById(id);
const sound = $("sound");
const VOICES = ["first voice", "second voice", "third voice", "fourth voice", "all"];
const EXPORTS = { ".srt": "SubRip (.srt)", ".ass": "ASS with \\k (.ass)", ".txt": "UltraStar (.txt)" };
// The key for going back plays the song from this many seconds before the line.
const SECONDS_BEFORE = 2;

/** The state of the page. `line` is the place of the chosen line, `word` the place of the chosen word in it. */
const app = {
  state: null, choices: null, line: 0, word: 0, more: new Set(), late: new Map(), sent: Promise.resolve(), loop: null, until: null,
  tapped: null, shownLine: -1, times: [],
};

// Requests to the desk

async function request(path, table) {
  const options = table === undefined ? {} : { method: "POST", headers: { "Content-Type": "application/json" }, body: JSON.stringify(table) };
  const response = await fetch(path, options);
  const result = await response.json().catch(() => ({ error: `the desk answered with status ${response.status}` }));
  if (result.error) throw new Error(result.error);
  return result;
}

/** Sends a request after the ones before it have ended, and shows the state that it returns. */
function send(path, table) {
  const started = performance.now();
  const task = app.sent.then(() => request(path, table)).then((result) => {
    const state = result.state ?? result;
    if (state.lines) showState(state, started);
    return result;
  });
  app.sent = task.catch((error) => showMessage(String(error.message), true));
  return task;
}

const edit = (table) => send("edit", { edit: table }).catch(() => null);

function showMessage(text, isWrong = false) {
  $("message").textContent = text;
  $("message").classList.toggle("wrong", isWrong);
}

/** Shows a state, and fetches its packs if the revision is new. */
function showState(state, started = performance.now()) {
  const isNew = !app.state || state.revision !== app.state.revision;
  app.state = state;
  app.line = Math.min(app.line, state.lines.length - 1);
  app.word = Math.min(app.word, Math.max(0, tapCount(state.lines[app.line]) - 1));
  render();
  if (isNew) fetchPacks(state.revision, started);
}

/** Fetches the packs of a revision, and the list of its late lines. */
async function fetchPacks(revision, started) {
  let response = await fetch(`packs?revision=${revision}`);
  while (response.status === 503) response = await fetch(`packs?revision=${revision}`);
  if (!response.ok || app.screen === undefined) return;
  const bytes = await response.arrayBuffer(), headLength = new DataView(bytes).getUint32(0);
  const plan = JSON.parse(new TextDecoder().decode(new Uint8Array(bytes, 4, headLength)));
  if (plan.revision < (app.planned ?? -1)) return;
  app.planned = plan.revision;
  app.late = new Map();
  for (const one of plan.late) if (!app.late.has(one.line)) app.late.set(one.line, lateText(one));
  $("plan").textContent = [plan.error || plan.summary, ...plan.notes].filter(Boolean).join("; ");
  $("plan").classList.toggle("wrong", Boolean(plan.error));
  if (!plan.error) app.screen.packs = new Uint8Array(bytes.slice(4 + headLength));
  drawScreen(true);
  app.times.push(performance.now() - started);
  document.body.dataset.planned = plan.revision;
  renderLines();
  app.wave.placeBars();
}

// Display

const lineNow = () => app.state.lines[app.line];
const wordNow = () => lineNow().words[Math.min(app.word, lineNow().words.length - 1)];

function render() {
  const state = app.state;
  document.title = `${state.title || state.name} – Studio`;
  $("name").textContent = `${state.name}${state.saved ? "" : " – not saved"}`;
  $("undo").disabled = !state.undo;
  $("redo").disabled = !state.redo;
  renderLines();
  renderLine();
  renderSong();
  app.wave.placeBars();
  document.body.dataset.revision = state.revision;
}

/** Unchanged lines keep their elements, so that they keep the focus. */
function renderLines() {
  const list = $("lines"), old = new Map([...list.children].map((row) => [Number(row.dataset.key), row]));
  let before = null;
  app.state.lines.forEach((line, number) => {
    const row = old.get(line.key) ?? document.createElement("li");
    old.delete(line.key);
    if (before ? before.nextSibling !== row : list.firstChild !== row) list.insertBefore(row, before ? before.nextSibling : list.firstChild);
    before = row;
    const rendered = JSON.stringify([line, number, app.late.get(number + 1), number === app.line && [app.word, ...app.more]]);
    if (row.dataset.rendered !== rendered) renderRow(row, line, number);
    row.dataset.rendered = rendered;
  });
  for (const row of old.values()) row.remove();
}

function renderRow(row, line, number) {
  row.dataset.key = line.key;
  row.className = `v${line.voice}`;
  row.classList.toggle("page", line.page);
  row.classList.toggle("chosen", number === app.line);
  let button = row.firstElementChild;
  if (!button) {
    button = document.createElement("button");
    button.type = "button";
    button.addEventListener("click", (event) => chooseRow(Number(row.dataset.key), event));
    row.append(button);
  }
  const time = document.createElement("time");
  time.textContent = line.words[0].start === null ? "--:--.--" : formatTime(line.words[0].start);
  const words = line.words.map((word, place) => {
    const item = document.createElement("i");
    item.textContent = word.text;
    item.dataset.place = place;
    item.classList.toggle("untimed", word.start === null);
    item.classList.toggle("chosen", isChosen(line.key, place));
    return item;
  });
  button.replaceChildren(time, ...words);
  button.setAttribute("aria-current", String(number === app.line));
  const why = app.late.get(number + 1);
  if (why) {
    const note = document.createElement("small");
    note.textContent = why;
    button.append(note);
  }
}

function renderLine() {
  const line = lineNow(), word = wordNow();
  $("which").textContent = `Line ${app.line + 1}: ${word.text.trim()}`;
  fill($("words"), joinSyllables(line.words));
  $("voice").value = line.voice;
  $("page").checked = line.page;
  fill($("from"), word.start === null ? "" : formatTime(word.start));
  fill($("to"), word.end === null ? "" : formatTime(word.end));
  $("glue").disabled = app.line + 1 >= app.state.lines.length;
  $("cut").disabled = app.word === 0;
  renderTarget();
}

function renderTarget() {
  const isOn = $("taps").checked, isAll = app.line >= app.state.lines.length;
  const line = app.state.lines[Math.min(app.line, app.state.lines.length - 1)];
  const texts = line.whole ? splitSyllables(line.words[0].text) : line.words.map((one) => one.text);
  const text = unit() === "line" ? texts.join("") : texts[Math.min(app.word, texts.length - 1)];
  $("target").textContent = isOn ? (isAll || app.isDone ? "Done: everything has its time" : `Tap: ${text.trim()}`) : "Tap (off)";
  $("tap").classList.toggle("on", isOn && !sound.paused);
  $("tap").disabled = !isOn;
}

function renderSong() {
  const { state, choices } = app;
  fill($("title"), state.title);
  fill($("performer"), state.performer);
  fill($("singers"), state.singers.join(", "));
  const names = VOICES.map((name, at) => state.singers[at] && at < 4 ? state.singers[at] : name);
  options($("voice"), names.map((name, at) => [String(at), name]), String(lineNow().voice));
  if (!choices) return;
  const look = state.look, images = choices.images.map((name) => [name, name]);
  options($("style"), choices.styles.map((name) => [name, name]), look.style ?? "night");
  $("rows").value = look.rows ?? "";
  options($("image"), [["", "the title as text"], ...images], look.title ?? "");
  options($("between"), [["", "nothing"], ...images], look.between?.[0] ?? "");
  options($("picture"), [["", "choose …"], ...images], $("picture").value);
  for (const id of ["size", "lead"]) fill($(id), look[id] ?? "");
  fill($("intro"), look.intro ?? 0);
  $("sweep").checked = look.sweep ?? false;
  $("legend").checked = look.legend ?? false;
  $("rests").checked = look.rests ?? true;
  $("pictures").replaceChildren(...state.pictures.map(({ what, start, after }, place) => {
    const item = document.createElement("li"), button = document.createElement("button");
    button.type = "button";
    button.textContent = `${what} at ${formatTime(start ?? after)} ✕`;
    button.setAttribute("aria-label", `Remove ${what} at ${formatTime(start ?? after)}`);
    button.addEventListener("click", () => edit({ do: "unpicture", place }));
    item.append(button);
    return item;
  }));
}

/** Sets the value of a field, except while the user edits it. */
function fill(field, value) {
  if (document.activeElement !== field || field.dataset.filled === field.value) field.value = value;
  field.dataset.filled = String(value);
}

function options(list, pairs, value) {
  const rendered = JSON.stringify(pairs);
  if (list.dataset.rendered !== rendered) {
    list.replaceChildren(...pairs.map(([name, text]) => new Option(text, name)));
    list.dataset.rendered = rendered;
  }
  list.value = value;
}

function drawScreen(always = false) {
  const now = sound.currentTime + (app.state?.look.intro ?? 0);
  if (!app.screen || !app.screen.show(now) && !always) return;
  $("screen").getContext("2d").putImageData(app.screen.image(), 0, 0);
}

// Choice of lines and words

const isChosen = (key, place) => app.state.lines[app.line]?.key === key && place === app.word || app.more.has(`${key}.${place}`);

function choose(line, word = 0, isMore = false) {
  const focused = document.activeElement, isOnBars = $("bars").contains(focused), isOnLines = $("lines").contains(focused);
  if (isMore) app.more.add(`${lineNow().key}.${app.word}`);
  else app.more.clear();
  app.line = Math.max(0, Math.min(app.state.lines.length - 1, line));
  app.word = Math.max(0, Math.min(Math.max(lineNow().words.length, tapCount(lineNow())) - 1, word));
  app.isDone = false;
  renderLines();
  renderLine();
  app.wave.placeBars();
  $("lines").children[app.line].scrollIntoView({ block: "nearest" });
  // The focus follows the choice.
  if (isOnBars) app.wave.focus();
  if (isOnLines) $("lines").children[app.line].firstElementChild.focus();
}

const placeOf = (key) => app.state.lines.findIndex((line) => line.key === key);

function chooseRow(key, event) {
  const place = event.target.closest("i")?.dataset.place ?? 0;
  choose(placeOf(key), Number(place), event.shiftKey || event.ctrlKey);
  const start = wordNow().start ?? lineNow().words[0].start;
  if (start !== null && !event.shiftKey && !event.ctrlKey && sound.paused) seek(start);
}

// Moving words

const chosenWords = () => [[lineNow().key, Math.min(app.word, lineNow().words.length - 1)], ...[...app.more].map((name) => name.split(".").map(Number))];

function move(by, key = lineNow().key, place = app.word) {
  const how = $("moves").value, line = app.state.lines[placeOf(key)];
  const start = line.words[Math.min(place, line.words.length - 1)].start;
  if (start === null) return;
  if (how === "rest") edit({ do: "move", from: start, by });
  else if (how === "line") edit({ do: "move", lines: [key], by });
  else edit({ do: "move", words: unique([[key, Math.min(place, line.words.length - 1)], ...chosenWords()]), by });
}

const unique = (pairs) => [...new Map(pairs.map((pair) => [pair.join("."), pair])).values()];

function drag(key, place, edge, by) {
  const word = app.state.lines[placeOf(key)].words[place];
  if (edge === "start") edit({ do: "start", line: key, word: place, at: Math.max(0, word.start + by) });
  else if (edge === "end") edit({ do: "end", line: key, word: place, at: Math.max(0, word.end + by) });
  else move(by, key, place);
}

// Playing

function seek(second) {
  sound.currentTime = Math.max(0, Math.min(app.state.seconds, second));
}

function play() {
  if (sound.paused) sound.play().catch((error) => showMessage(`the sound cannot be played: ${error.message}`, true));
  else sound.pause();
}

function playWord() {
  const word = wordNow();
  if (word.start === null) return;
  [app.until, app.loop] = [Math.max(word.start + 0.15, word.end), null];
  seek(word.start);
  sound.play();
}

function loop() {
  const whole = span(lineNow());
  app.loop = app.loop || !whole ? null : { start: Math.max(0, whole.start - 0.3), end: whole.end + 0.3 };
  $("loop").setAttribute("aria-pressed", String(app.loop !== null));
  if (app.loop) {
    seek(app.loop.start);
    sound.play();
  }
}

// Timing

const clock = new SoundClock();

/** The position of the sound when a key was pressed. */
function pressedAt(stamp) {
  clock.add(performance.now(), sound.currentTime, sound.playbackRate);
  return tappedAt(clock, stamp, Number($("late").value) || 0);
}

const unit = () => document.querySelector("input[name=unit]:checked").value;

/** Sets the time of the chosen line or word to the position when the key was pressed, and chooses the next one. */
function tap(stamp) {
  if (!$("taps").checked) return;
  if (sound.paused) {
    play();
    return;
  }
  if (app.isDone) return;
  const at = pressedAt(stamp);
  const line = lineNow();
  edit(unit() === "line" ? { do: "tap", line: line.key, at } : { do: "tap", line: line.key, word: app.word, at });
  app.tapped = { key: line.key, word: unit() === "line" ? 0 : app.word };
  const next = nextTarget(app.state.lines, app.line, app.word, unit());
  app.isDone = next.line >= app.state.lines.length;
  if (!app.isDone) [app.line, app.word] = [next.line, next.word];
  app.more.clear();
  renderLines();
  renderLine();
  $("lines").children[app.line].scrollIntoView({ block: "nearest" });
}

/** Goes back to the beginning of this line, or to the line before if none of its words is tapped, and plays from shortly before it. */
function back() {
  const isBegun = app.word > 0 || app.isDone;
  choose(isBegun ? app.line : app.line - 1, 0);
  const before = app.state.lines.slice(0, app.line).map(span).filter(Boolean).pop();
  const start = span(lineNow())?.start ?? before?.end ?? 0;
  seek(start - SECONDS_BEFORE * sound.playbackRate);
}

/** Ends the line that was tapped last at the position when the key was pressed. */
function stopLine(stamp) {
  if (!app.tapped || sound.paused) return;
  const at = pressedAt(stamp);
  const line = app.state.lines[placeOf(app.tapped.key)];
  app.sent.then(() => edit({ do: "end", line: line.key, word: Math.min(app.tapped.word, line.words.length - 1), at }));
}

// Saving and finishing

async function save() {
  const result = await send("save", {}).catch(() => null);
  if (result) showMessage(`saved: ${result.written.join(", ")}`);
}

async function exportAs(ending) {
  const result = await send("export", { ending }).catch(() => null);
  if (result) showMessage(`written: ${result.written.join("; ")}`);
}

async function finish(what) {
  const bar = $("progress"), output = $("finished");
  const started = await send("finish", { what }).catch(() => null);
  if (!started) return;
  bar.hidden = false;
  output.textContent = `${what} …`;
  let job = started;
  while (!job.over) {
    bar.value = job.done;
    await new Promise((done) => { setTimeout(done, 200); });
    job = await request("job");
  }
  bar.value = 1;
  output.textContent = job.error || `written: ${job.message}`;
  if (what === "album" && !job.error) showState(await request("song"));
}

// Keys and fields

const keys = {
  p: play,
  h: playWord,
  l: loop,
  "+": () => app.wave.zoom(0.5),
  "-": () => app.wave.zoom(2),
  ",": () => move(-STEP),
  ".": () => move(STEP),
  ArrowUp: () => choose(app.line - 1),
  ArrowDown: () => choose(app.line + 1),
  ArrowLeft: () => (app.word ? choose(app.line, app.word - 1) : app.line && choose(app.line - 1, 1e3)),
  ArrowRight: () => (app.word + 1 < tapCount(lineNow()) ? choose(app.line, app.word + 1) : choose(app.line + 1)),
  Backspace: back,
  Enter: (event) => stopLine(event.timeStamp),
  " ": (event) => ($("taps").checked ? tap(event.timeStamp) : play()),
};
const controlKeys = { z: () => send("undo", {}).catch(() => null), y: () => send("redo", {}).catch(() => null), s: save };

function handleKey(event) {
  const isControl = event.ctrlKey || event.metaKey;
  if (isControl && !event.altKey) {
    const name = event.shiftKey && event.key.toLowerCase() === "z" ? "y" : event.key.toLowerCase();
    const isTyping = event.target.closest?.("input[type=text]") && name !== "s";
    if (controlKeys[name] && !isTyping) {
      event.preventDefault();
      controlKeys[name]();
    }
    return;
  }
  const isTap = event.key === " " && event.target === $("tap");
  if (event.altKey || !keys[event.key] || isOwnKey(event) && !isTap) return;
  event.preventDefault();
  if (!event.repeat || event.key !== " ") keys[event.key](event);
}

/** Calls `change` with the field when its value changes. */
function onChange(id, change) {
  $(id).addEventListener("change", () => change($(id)));
}

const editLook = (table) => edit({ do: "look", look: table });

/** Divides words into syllables, in one line or, with null, in all lines without times. */
const divide = (line) => send("divide", { line, language: $("language").value }).catch(() => null);

function wireLine() {
  onChange("words", (field) => edit({ do: "text", line: lineNow().key, texts: splitSyllables(field.value) }));
  onChange("voice", (field) => edit({ do: "voice", lines: unique([lineNow().key, ...chosenWords().map(([key]) => key)].map((key) => [key])).flat(), voice: Number(field.value) }));
  onChange("page", (field) => edit({ do: "page", line: lineNow().key, page: field.checked }));
  for (const [id, kind] of [["from", "start"], ["to", "end"]]) {
    onChange(id, (field) => {
      const at = parseTime(field.value);
      if (at === null) showMessage(`${field.value} is not a time like 01:02.50`, true);
      else edit({ do: kind, line: lineNow().key, word: Math.min(app.word, lineNow().words.length - 1), at });
    });
  }
  const acts = {
    divide: () => divide(lineNow().key),
    "divide-all": () => divide(null),
    cut: () => edit({ do: "cut", line: lineNow().key, word: app.word }),
    glue: () => edit({ do: "glue", line: lineNow().key }),
    add: () => edit({ do: "add", after: lineNow().key, text: "new line" }).then(() => { choose(app.line + 1); $("words").focus(); $("words").select(); }),
    clear: () => edit({ do: "clear", lines: [lineNow().key] }),
    remove: () => edit({ do: "remove", lines: [lineNow().key] }),
  };
  for (const [id, act] of Object.entries(acts)) $(id).addEventListener("click", act);
}

function wireSong() {
  onChange("title", (field) => edit({ do: "head", title: field.value }));
  onChange("performer", (field) => edit({ do: "head", performer: field.value }));
  onChange("singers", (field) => edit({ do: "head", singers: field.value.split(",").map((name) => name.trim()).filter(Boolean) }));
  onChange("style", (field) => editLook({ style: field.value }));
  onChange("rows", (field) => editLook({ rows: field.value ? Number(field.value) : null }));
  onChange("image", (field) => editLook({ title: field.value }));
  onChange("between", (field) => editLook({ between: field.value ? [field.value] : [] }));
  for (const id of ["size", "lead", "intro"]) onChange(id, (field) => editLook({ [id]: field.value === "" ? null : Number(field.value) }));
  for (const id of ["sweep", "legend", "rests"]) onChange(id, (field) => editLook({ [id]: field.checked }));
  $("place").addEventListener("click", () => {
    if ($("picture").value) edit({ do: "picture", what: $("picture").value, at: Math.round(100 * sound.currentTime) / 100 });
    else showMessage("choose a picture first", true);
  });
  for (const button of document.querySelectorAll("[data-finish]")) button.addEventListener("click", () => finish(button.dataset.finish));
}

/** Moves the focus to the tap button after a click, so that the space bar sets times and does not press the clicked button. */
function focusTap(event) {
  if (event.detail && $("taps").checked) $("tap").focus();
}

function wire() {
  document.addEventListener("keydown", handleKey);
  for (const name of ["undo", "redo"]) $(name).addEventListener("click", () => send(name, {}).catch(() => null));
  $("save").addEventListener("click", save);
  onChange("export", (field) => {
    const ending = field.value;
    field.value = "";
    if (ending) exportAs(ending);
  });
  $("play").addEventListener("click", (event) => { play(); focusTap(event); });
  $("back").addEventListener("click", (event) => { back(); focusTap(event); });
  $("stop").addEventListener("click", (event) => { stopLine(event.timeStamp); focusTap(event); });
  $("hear").addEventListener("click", playWord);
  $("loop").addEventListener("click", loop);
  $("in").addEventListener("click", () => keys["+"]());
  $("out").addEventListener("click", () => keys["-"]());
  $("tap").addEventListener("pointerdown", (event) => tap(event.timeStamp));
  // A click without a pointer, as from a screen reader.
  $("tap").addEventListener("click", (event) => { if (!event.detail && !event.pointerType) tap(event.timeStamp); });
  $("tap").addEventListener("keyup", (event) => { if (event.key === " ") event.preventDefault(); });
  $("seek").addEventListener("input", () => seek(Number($("seek").value)));
  for (const button of document.getElementsByName("speed")) button.addEventListener("change", () => { sound.playbackRate = Number(button.value); });
  for (const button of document.getElementsByName("unit")) button.addEventListener("change", renderTarget);
  $("taps").addEventListener("change", renderTarget);
  for (const name of ["play", "pause"]) sound.addEventListener(name, () => { $("play").textContent = sound.paused ? "Play" : "Pause"; renderTarget(); });
  for (const name of ["seeking", "playing", "pause", "waiting"]) sound.addEventListener(name, () => clock.clear());
  sound.addEventListener("seeked", () => { drawScreen(true); app.wave.show(sound.currentTime); });
  $("close").addEventListener("click", () => request("close", {}).then(() => { showMessage("The studio is closed. Its journal keeps every edit."); sound.pause(); }));
  wireLine();
  wireSong();
}

/** Updates the page for each frame. */
function tick() {
  const now = sound.currentTime;
  if (!sound.paused) clock.add(performance.now(), now, sound.playbackRate);
  if (app.until !== null && now >= app.until) {
    sound.pause();
    app.until = null;
  }
  if (app.loop && now >= app.loop.end) seek(app.loop.start);
  drawScreen();
  $("clock").textContent = formatTime(now);
  if (document.activeElement !== $("seek") || !sound.paused) $("seek").value = now;
  if (!sound.paused) app.wave.show(now);
  showSung(now);
  requestAnimationFrame(tick);
}

function showSung(now) {
  const number = lineAt(app.state.lines, now), rows = $("lines").children;
  if (number !== app.shownLine) {
    rows[app.shownLine]?.classList.remove("sung");
    for (const item of rows[app.shownLine]?.querySelectorAll("i.sung") ?? []) item.classList.remove("sung");
    app.shownLine = number;
    if (!sound.paused && !$("taps").checked) rows[number]?.scrollIntoView({ block: "nearest" });
  }
  if (number < 0) return;
  rows[number].classList.add("sung");
  const items = rows[number].querySelectorAll("i");
  app.state.lines[number].words.forEach((word, at) => items[at]?.classList.toggle("sung", word.start !== null && word.start <= now && now < word.end));
}

async function start() {
  app.wave = new Wave({
    get lines() { return app.state?.lines ?? []; },
    get length() { return app.state?.seconds ?? 1; },
    get late() { return app.late; },
    now: () => sound.currentTime,
    isChosen, drag, seek,
    choose: (key, place, isMore) => choose(placeOf(key), place, isMore),
  });
  const state = await request("song");
  app.choices = state.choices;
  app.screen = await Screen.load();
  options($("export"), [["", "choose …"], ...state.choices.exports.map((ending) => [ending, EXPORTS[ending]])], "");
  const languages = state.choices.languages, wanted = navigator.language.replace("-", "_");
  $("syllables").hidden = !languages.length;
  options($("language"), languages.map((name) => [name, name]), languages.includes(wanted) ? wanted : "en_US");
  $("seek").max = state.seconds;
  sound.preservesPitch = true;
  $("taps").checked = state.untimed.length > 0;
  app.state = state;
  Object.assign(app, firstTarget(state.lines));
  showState({ ...state, revision: state.revision });
  fetchPacks(state.revision, performance.now());
  wire();
  tick();
  $("lines").children[app.line].scrollIntoView({ block: "nearest" });
  app.wave.peaks = await (await fetch("peaks")).arrayBuffer();
  showMessage(state.undo ? `${state.undo} edits are restored from the journal` : "");
  document.body.dataset.ready = "yes";
}

globalThis.studio = app;
start().catch((error) => showMessage(String(error.message), true));
