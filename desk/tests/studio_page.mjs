// Operates the page of the studio in a headless Chromium: it times a text by taps, edits it, undoes edits, saves the song and makes
// its files. It writes its results to FOLDER/found.json, which the Python tests check.
//
//     node --experimental-websocket desk/tests/studio_page.mjs CHROMIUM ADDRESS FOLDER [times | look]
//
// With `times`, it edits a long song, and measures the time from each edit to its picture. With `look`, ADDRESS is a page of `look`:
// the script checks its names and colours, and operates it by keys.
import { join } from "node:path";
import { writeFileSync } from "node:fs";
import { Browser, wait } from "../../tests/peers/browser.mjs";

const [chromium, address, folder, mode] = process.argv.slice(2);
const FIRST = 1.2, STEP = 0.9, LINES = 12;
const browser = await Browser.start(chromium, folder);
const results = { targets: Array.from({ length: LINES }, (_, number) => FIRST + STEP * number) };

const key = (key, more = {}) => Promise.all(["rawKeyDown", "keyUp"].map((type) => browser.send("Input.dispatchKeyEvent",
    { type, key, code: key === " " ? "Space" : `Key${key.toUpperCase()}`, windowsVirtualKeyCode: key.toUpperCase().charCodeAt(0), ...more })));
const control = (name) => key(name, { modifiers: 2 });
const state = () => browser.value("studio.state");
const revision = () => browser.value("studio.state.revision");
/** Waits until no request of the page is running. */
const settled = () => browser.value("studio.sent.then(() => true)");
const planned = async () => { await settled(); await browser.until("document.body.dataset.planned === String(studio.state.revision)"); };
const set = (id, value) => browser.value(`(() => { const field = document.getElementById(${JSON.stringify(id)}); field.focus();
    field.value = ${JSON.stringify(value)}; field.dispatchEvent(new Event("change", { bubbles: true })); field.blur(); })()`);

async function visit(url) {
    await browser.send("Page.navigate", { url });
    await browser.until("document.body && document.body.dataset.ready === 'yes'");
}

const position = () => browser.value("document.getElementById('sound').currentTime");
/** Starts to record the positions of the sound, and the times at which the space bar is pressed. */
const startRecording = () => browser.value(`(() => { globalThis.positions = []; const sound = document.getElementById("sound");
    setInterval(() => { if (!sound.paused) positions.push([performance.now(), sound.currentTime]); }, 15);
    globalThis.presses = [];
    document.addEventListener("keydown", (event) => { if (event.key === " ") presses.push(event.timeStamp); }, true); })()`);
const now = () => performance.timeOrigin + performance.now();

/** Taps near some times of the song, in seconds. Returns the position of the sound when the browser received each key, estimated by
 * the median of the positions recorded around it. */
async function tapAt(targets, rate) {
    const [started, at] = await browser.value("[performance.timeOrigin + performance.now(), document.getElementById('sound').currentTime]");
    await browser.value("presses.length = 0");
    for (const target of targets) {
        await wait(started + 1000 * (target - at) / rate - now());
        await key(" ");
    }
    await wait(500);
    await settled();
    await key("p");
    const [positions, presses] = await browser.value("[positions, presses]");
    return presses.map((when) => {
        const offsets = positions.filter(([time]) => Math.abs(time - when) < 700).map(([time, second]) => second - rate * time / 1000);
        return offsets.sort((one, other) => one - other)[offsets.length >> 1] + rate * when / 1000;
    });
}

async function tapLines() {
    await browser.value("document.querySelector('input[name=unit][value=line]').click()");
    await browser.value("document.activeElement.blur()");
    await key(" ");
    while (await position() < 0.3) {
        await wait(20);
    }
    results.expected = await tapAt(results.targets, 1);
    return (await state()).lines.map((line) => line.words[0].start);
}

/** Jumps back to a line, taps its words again at half speed, and then undoes these taps. */
async function tapAgain() {
    const before = JSON.stringify((await state()).lines), count = (await state()).undo;
    await browser.value("document.querySelector('input[name=speed][value=\"0.5\"]').click()");
    await browser.value("document.querySelector('input[name=unit][value=word]').click()");
    await browser.value("document.querySelectorAll('#lines button')[8].click()");
    await browser.value("document.activeElement.blur()");
    await key("Backspace", { code: "Backspace", windowsVirtualKeyCode: 8 });
    results.back = await browser.value("[studio.line, document.getElementById('sound').currentTime]");
    await key(" ");
    await browser.until("!document.getElementById('sound').paused && document.getElementById('sound').currentTime > studio.state.lines[7].words[0].start - 0.8");
    const first = results.targets[7];
    results.words = await tapAt([first, first + 0.2, first + 0.4, first + 0.6, first + 0.8], 0.5);
    results.tapped = (await state()).lines[7].words.map((word) => word.start);
    await browser.photograph("studio-2-words");
    for (let undone = (await state()).undo; undone > count; undone -= 1) {
        await control("z");
    }
    await planned();
    results.again = JSON.stringify((await state()).lines) === before;
    await browser.value("document.querySelector('input[name=speed][value=\"1\"]').click()");
    await browser.value("document.querySelector('input[name=unit][value=line]').click()");
}

/** Measures the milliseconds until an edit of a song is visible: it moves a word, or replaces the words of a line. */
async function measureEdits() {
    await visit(address);
    await browser.until("document.body.dataset.planned === '0'");
    await browser.value("document.getElementById('sound').currentTime = 120; studio.times.length = 0");
    for (let round = 0; round < 6; round += 1) {
        await browser.value(`document.querySelectorAll('#lines button')[${20 + round}].click(); document.activeElement.blur()`);
        await key(".", { code: "Period", windowsVirtualKeyCode: 190 });
        await planned();
        await set("words", `The other words of round ${round}`);
        await planned();
    }
    results.times = await browser.value("studio.times");
    results.lines = (await state()).lines.length;
}

/** The roles of the controls without a name. */
async function nameless() {
    const { nodes } = await browser.send("Accessibility.getFullAXTree");
    const roles = new Set(["button", "textbox", "combobox", "checkbox", "radio", "slider", "spinbutton", "image", "progressbar", "img"]);
    return nodes.filter((node) => !node.ignored && roles.has(node.role?.value) && !node.name?.value).map((node) => node.role.value);
}

/** The texts whose contrast with their background is below 4.5, by the formula of WCAG 2. */
const faint = () => browser.value(`(() => {
    const parts = (colour) => colour.match(/[\\d.]+/g).map(Number);
    const light = (rgb) => { const [r, g, b] = rgb.map((one) => one / 255).map((one) => (one <= 0.04045 ? one / 12.92 : ((one + 0.055) / 1.055) ** 2.4));
        return 0.2126 * r + 0.7152 * g + 0.0722 * b; };
    const ground = (item) => { for (let at = item; at; at = at.parentElement) { const colour = parts(getComputedStyle(at).backgroundColor);
        if (colour.length < 4 || colour[3] === 1) return colour.slice(0, 3); } return [255, 255, 255]; };
    return [...document.querySelectorAll("body *")].filter((item) => item.offsetParent && !item.disabled && !item.closest("select, audio")
        && [...item.childNodes].some((node) => node.nodeType === 3 && node.data.trim())).map((item) => {
        const [low, high] = [light(parts(getComputedStyle(item).color).slice(0, 3)), light(ground(item))].sort((one, other) => one - other);
        return [(high + 0.05) / (low + 0.05), item.id || item.className || item.tagName, item.textContent.slice(0, 20)];
    }).filter(([ratio]) => ratio < 4.5);
})()`);

async function testStudio() {
    await visit(address);
    await browser.look(1280, 1000, "light");
    await browser.photograph("studio-1-text");
    results.begun = (await state()).untimed.length;
    await startRecording();
    results.starts = await tapLines();
    await planned();
    await browser.photograph("studio-2-tapped");

    await tapAgain();

    // Edits a line, moves a word, and undoes and redoes both.
    const lines = JSON.stringify((await state()).lines);
    await browser.value("document.querySelectorAll('#lines button')[2].click()");
    await set("words", "An|other third line");
    await planned();
    results.edited = (await state()).lines[2].words.map((word) => word.text);
    await browser.value("document.activeElement.blur()");
    await key(".", { code: "Period", windowsVirtualKeyCode: 190 });
    await planned();
    results.moved = (await state()).lines[2].words[0].start - results.starts[2];
    await browser.photograph("studio-3-edited");
    await control("z");
    await planned();
    await control("z");
    await planned();
    results.undone = JSON.stringify((await state()).lines) === lines;
    await control("y");
    await planned();

    // The space bar activates the focused button, and sets no time.
    await browser.value("document.getElementById('undo').focus()");
    const before = await revision();
    await browser.press(" ", "Space", " ");
    await settled();
    results.spaced = [(await revision()) - before, JSON.stringify((await state()).lines) === lines];
    await browser.value("document.activeElement.blur()");
    await control("y");
    await planned();

    // Drags a word on the waveform.
    await browser.value("document.querySelectorAll('#lines button')[5].click()");
    const start = (await state()).lines[5].words[0].start;
    const box = await browser.value(`(() => { const box = document.querySelector("#bars button.chosen").getBoundingClientRect();
        return [box.x + 12, box.y + box.height / 2, document.getElementById("wave").clientWidth / studio.wave.seconds]; })()`);
    const mouse = (type, x) => browser.send("Input.dispatchMouseEvent", { type, x, y: box[1], button: "left", clickCount: 1 });
    await mouse("mousePressed", box[0]);
    await mouse("mouseMoved", box[0] + 0.2 * box[2]);
    await mouse("mouseReleased", box[0] + 0.2 * box[2]);
    await planned();
    results.dragged = (await state()).lines[5].words[0].start - start;
    await control("z");
    await planned();

    results.shown = await browser.value(`(() => { studio.screen.show(8); let sum = 7; for (const one of studio.screen.pixels()) sum = (31 * sum + one) >>> 0; return sum; })()`);
    results.late = await browser.value("[...studio.late]");
    results.times = await browser.value("studio.times");
    await control("s");
    await browser.until("document.getElementById('message').textContent.startsWith('saved')");
    await browser.value("document.querySelector('[data-finish=pair]').click()");
    await browser.until("document.getElementById('finished').textContent.startsWith('written') || document.getElementById('finished').textContent.includes('refus')");
    results.finished = await browser.value("document.getElementById('finished').textContent");
    results.nameless = await nameless();
    results.faint = await faint();
    await browser.photograph("studio-4-saved");
    await browser.look(1280, 1000, "dark");
    await wait(200);
    results.faint.push(...await faint());
    await browser.photograph("studio-5-dark");
    await browser.look(420, 900, "light");
    await wait(200);
    results.wide = await browser.value("document.documentElement.scrollWidth - document.documentElement.clientWidth");
    await browser.photograph("studio-6-narrow");

    // Opens the page again.
    const kept = JSON.stringify((await state()).lines);
    await visit(address);
    results.kept = JSON.stringify((await state()).lines) === kept;
    results.wrong = browser.events.filter(({ method }) => method === "Runtime.exceptionThrown").map(({ params }) => params.exceptionDetails);
}

/** Tests a page of `look`: its names, its colours, its keys, and the chosen line, which follows the song. */
async function testLook() {
    await visit(address);
    results.nameless = await nameless();
    results.faint = await faint();
    await browser.look(1280, 1000, "dark");
    await wait(200);
    results.faint.push(...await faint());
    const chosen = () => browser.value("[...document.querySelectorAll('#lines button')].findIndex((it) => it.getAttribute('aria-current') === 'true')");
    await browser.value("document.getElementById('sound').currentTime = 7.5");
    await key("p");
    await browser.until("document.getElementById('sound').currentTime > 8.3");
    results.followed = await chosen();
    await key("p");
    // The space bar on a focused line jumps to this line, and sets no time.
    await browser.value("document.querySelectorAll('#lines button')[0].focus()");
    await browser.press(" ", "Space", " ");
    results.jumped = [await chosen(), await position(), await browser.value("document.getElementById('message').textContent")];
    await browser.value("document.getElementById('time').focus()");
    await browser.press("ArrowRight", "ArrowRight");
    results.slid = await position();
    await browser.value("document.activeElement.blur()");
    await browser.press("ArrowDown", "ArrowDown");
    results.chosen = await chosen();
}

try {
    await ({ times: measureEdits, look: testLook }[mode] ?? testStudio)();
} catch (error) {
    results.failed = String(error?.stack ?? error);
    results.text = await browser.value("document.body.innerText").catch(() => "");
}
writeFileSync(join(folder, "found.json"), JSON.stringify(results));
browser.stop();
