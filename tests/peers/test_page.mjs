// Tests the page of examples/web in a headless Chromium. It opens files, plays them and seeks in them, and compares the picture of
// the page with the program's screens. It also tests each control, the keyboard, touch and the texts for screen readers.
//
//     node --experimental-websocket tests/peers/test_page.mjs CHROMIUM PROGRAM PAGE FOLDER
//
// CHROMIUM and PROGRAM are programs, PAGE is lib/web/index.html. FOLDER is an empty folder, which receives screenshots. The optional
// environment variable ONLY has the names of some tests with commas between them; only these are run.
import assert from "node:assert/strict";
import { spawnSync } from "node:child_process";
import { existsSync, mkdirSync, readFileSync, statSync, writeFileSync } from "node:fs";
import { dirname, join } from "node:path";
import { fileURLToPath } from "node:url";
import { deflateRawSync } from "node:zlib";

import { Browser, wait } from "./browser.mjs";
import { zipOf } from "./zips.mjs";

const TOP = join(dirname(fileURLToPath(import.meta.url)), "..", "..");
const [CHROMIUM, PROGRAM, PAGE, FOLDER] = process.argv.slice(2);
const SECTOR = 2448;
const AUDIO = 2352;
const BLOCK = 96;
const PACK = 24;
const LEAST_CONTRAST = 4.5;
const LEAST_GRAPHICS_CONTRAST = 3;

/** The output of the program. Its exit status must be 0, or 1, which reports damage. */
function run(input, ...words) {
    const { status, stdout, stderr } = spawnSync(PROGRAM, words, { input, cwd: FOLDER, maxBuffer: 1 << 30 });
    assert.ok(status === 0 || status === 1, `${words.join(" ")}: ${stderr}`);
    return stdout;
}

const byId = (id) => `document.getElementById("${id}")`;

/** Red, green and blue of the canvas. */
async function canvas(browser) {
    const encoded = await browser.value(`(() => {
        const { data } = ${byId("screen")}.getContext("2d").getImageData(0, 0, 300, 216);
        let text = "";
        for (let at = 0; at < data.length; at += 4) {
            text += String.fromCharCode(data[at], data[at + 1], data[at + 2]);
        }
        return btoa(text);
    })()`);
    return Buffer.from(encoded, "base64");
}

function moment(seconds) {
    const at = Math.floor(seconds * 75 + 1e-6);
    const two = (n) => String(n).padStart(2, "0");
    return `${two(Math.floor(at / 4500))}:${two(Math.floor(at / 75) % 60)}:${two(at % 75)}`;
}

const screenOf = (stream, seconds, leadIn = 0) => run(stream, "screen", "--lead-in", `${leadIn}`, "--at", moment(seconds)).subarray(15);

/** Checks the picture of the page at a time. */
async function expectScreen(browser, stream, seconds, what, leadIn = 0) {
    await browser.value(`page.jump(${seconds})`);
    assert.equal(Buffer.compare(await canvas(browser), screenOf(stream, seconds, leadIn)), 0, `${what} at ${seconds} seconds`);
}

/** A tone as a .wav file with 8,000 samples per second. */
function tone(seconds) {
    const samples = Buffer.from(Array.from({ length: 8000 * seconds }, (_, i) => 128 + 40 * Math.sin(i / 6)));
    const header = Buffer.from("RIFF....WAVEfmt ....................data....");
    header.writeUInt32LE(36 + samples.length, 4);
    header.writeUInt32LE(16, 16);
    header.writeUInt16LE(1, 20);
    header.writeUInt16LE(1, 22);
    header.writeUInt32LE(8000, 24);
    header.writeUInt32LE(8000, 28);
    header.writeUInt16LE(1, 32);
    header.writeUInt16LE(8, 34);
    header.writeUInt32LE(samples.length, 40);
    return Buffer.concat([header.subarray(0, 44), samples]);
}

/** An image with the subcode of each block behind its audio. */
function imageOf(subcode) {
    const sectors = Buffer.alloc((subcode.length / BLOCK) * SECTOR, 0x5a);
    for (let b = 0; b < subcode.length / BLOCK; b += 1) {
        subcode.copy(sectors, SECTOR * (b + 1) - BLOCK, BLOCK * b, BLOCK * (b + 1));
    }
    return sectors;
}

function writeFiles(contents) {
    for (const [name, bytes] of Object.entries(contents)) {
        writeFileSync(join(FOLDER, name), bytes);
    }
}

function writeSongs() {
    for (const name of ["hello.cue", "hello.script"]) {
        writeFileSync(join(FOLDER, name), readFileSync(join(TOP, "examples", name)));
    }
    const disc = (leadIn) => run("", "author", "--lead-in", `${leadIn}`, "--length", "00:22:00", "--", "hello.cue", "hello.script");
    const whole = disc(0);
    const scratched = Buffer.from(run(whole, "scratch", "--lead-in", "0", "--seed", "3"));
    // A scratch that is too long for any correction.
    scratched.fill(0x2a, BLOCK * 900, BLOCK * 960);
    const packs = run(whole, "convert", "--lead-in", "0");
    writeFiles({
        "song.raw": scratched,
        "song.sub": run(whole, "planar"),
        "song.img": imageOf(whole),
        "song.cdg": packs,
        "broken.raw": whole.subarray(0, whole.length - 5),
        "first.cdg": packs.subarray(0, PACK * 900),
        "second.cdg": packs.subarray(PACK * 1200, PACK * 6000),
    });
    return { whole, scratched, packs, disc };
}

// ---- the picture

async function tryStreams(browser, { whole, scratched, packs }) {
    const message = await browser.open("song.raw");
    const numbers = new Map(run(scratched, "check", "--lead-in", "0").toString().trim().split("\n").map((line) => line.split(" ")));
    for (const word of ["clean", "one", "two", "bad"]) {
        assert.ok(message.includes(`${numbers.get(word)} `), `${word} ${numbers.get(word)}: ${message}`);
    }
    for (const seconds of [3, 7, 7.14, 14.5, 21.9, 6, 0.5, 18, 7.14]) {
        await expectScreen(browser, scratched, seconds, "a scratched stream");
    }
    for (const [name, form] of [["song.sub", "planar"], ["song.img", "2,448"]]) {
        assert.ok((await browser.open(name)).includes(form), name);
        for (const seconds of [7.14, 20, 2]) {
            await expectScreen(browser, whole, seconds, name);
        }
    }
    writeFiles({ "planar.img": imageOf(run(whole, "planar")) });
    assert.match(await browser.open("planar.img"), /2,448 bytes, their subcode planar/);
    await expectScreen(browser, whole, 7.14, "an image with planar subcode");
    // A stream shows each pack seven packs later: block 751 shows the first 2,997 packs.
    await browser.open("song.cdg");
    await browser.value("page.jump(2997.5 / 300)");
    assert.equal(Buffer.compare(await canvas(browser), screenOf(whole, 751 / 75)), 0, "a .cdg file");
    // The page plays a torn stream and reports that it is torn.
    assert.match(await browser.open("broken.raw"), /torn: 91 bytes/);
    await expectScreen(browser, whole, 7.14, "a torn stream");
    writeFiles({ "torn.cdg": packs.subarray(0, packs.length - 1),
        "noise.bin": Buffer.from(Array.from({ length: 9600 }, (_, k) => (k * k * 31) % 251)),
        "zeros.raw": Buffer.alloc(9600), "empty.cdg": Buffer.alloc(0) });
    assert.match(await browser.open("torn.cdg"), /torn: 23 bytes/);
    assert.match(await browser.open("noise.bin"), /noise\.bin cannot be played: no known form/);
    assert.match(await browser.open("zeros.raw"), /all its bytes are zeros/);
    assert.match(await browser.open("empty.cdg"), /no graphics/);
    return "the page shows streams, images and packs as the program does";
}

async function tryLeadIns(browser, { disc }) {
    for (const leadIn of [30, 300]) {
        const stream = disc(leadIn);
        writeFiles({ "hello.raw": stream, "hello.sub": run(stream, "planar"), "hello.img": imageOf(stream) });
        for (const name of ["hello.raw", "hello.sub", "hello.img"]) {
            const message = await browser.open(name);
            assert.match(message, new RegExp(`lead-in: ${leadIn} blocks, by Q`), name);
            assert.match(message, /, 0 bad; Q frames/, name);
            for (const seconds of [0, 7.14, 20]) {
                await expectScreen(browser, stream, seconds, `${name} behind ${leadIn} blocks`, leadIn);
            }
        }
    }
    // The user can set the lead-in. The page then reads the stream as the program does.
    await browser.open("hello.raw");
    assert.equal(await browser.value(`${byId("lead-in")}.value`), "300");
    const set = async (leadIn) => {
        await browser.value(`${byId("message")}.textContent = ""; ${byId("lead-in")}.value = "${leadIn}";
            ${byId("lead-in")}.dispatchEvent(new Event("change"))`);
        await browser.until(`${byId("message")}.textContent !== ""`);
        return browser.value(`${byId("message")}.textContent`);
    };
    const stream = readFileSync(join(FOLDER, "hello.raw"));
    const bad = /^bad (\d+)$/m.exec(run(stream, "check", "--lead-in", "0").toString())[1];
    assert.ok(Number(bad) > 0);
    assert.match(await set(0), new RegExp(`, ${bad} bad; .*lead-in: 0 blocks, as you set it`));
    await expectScreen(browser, stream, 5, "a stream whose lead-in is played", 0);
    assert.match(await set(-1), /whole number/);
    assert.match(await set(1.5), /whole number/);
    assert.match(await set(300), /, 0 bad; /);
    await expectScreen(browser, stream, 5, "a stream whose lead-in is restored", 300);
    return "lead-ins are detected from Q, and can be set";
}

async function tryStreamsWithoutQ(browser, { whole }) {
    const silent = whole.map((byte) => byte & 0x3f);
    writeFiles({ "silent.sub": run(silent, "planar"), "silent.raw": silent });
    for (const [name, form] of [["silent.sub", "planar"], ["silent.raw", "raw subcode"]]) {
        const message = await browser.open(name);
        assert.ok(message.includes(form), message);
        assert.match(message, /lead-in: unknown/);
        await expectScreen(browser, whole, 7.14, name);
    }
    return "a stream without Q is detected from its words, planar or raw";
}

// ---- sound and time

async function trySound(browser, { packs }) {
    writeFiles({ "short.cdg": packs.subarray(0, PACK * 900), "short.wav": tone(20),
        "long.cdg": packs.subarray(0, PACK * 6000), "long.wav": tone(2) });
    const state = (expression) => browser.value(expression);
    // Sound of twenty seconds with graphics of three: the last picture remains until the sound ends.
    await browser.open("short.cdg", "short.wav");
    await browser.until("page.seconds === 20");
    assert.equal(await state(`${byId("time")}.textContent`), "00:00 / 00:20");
    await browser.value("page.jump(2.8)");
    await browser.click("play");
    await browser.until("page.now > 3.6");
    assert.deepEqual(await state(`[page.isPlaying, ${byId("play")}.textContent]`), [true, "Pause"]);
    const last = await canvas(browser);
    await browser.value("page.jump(19)");
    await browser.until("!page.isPlaying");
    assert.equal(await state(`${byId("play")}.textContent`), "Play");
    assert.ok(Math.abs(await state("page.now") - 20) < 0.2);
    assert.equal(Buffer.compare(await canvas(browser), last), 0, "the last picture stays on the screen");
    // At the end, playing starts from the beginning.
    await browser.click("play");
    await browser.until("page.isPlaying && page.now > 0.1 && page.now < 15");
    await browser.click("play");
    // Sound of two seconds with graphics of twenty: the graphics continue by the clock.
    await browser.open("long.cdg", "long.wav");
    await browser.until("page.seconds === 20 && document.querySelector('audio').duration === 2");
    await browser.value("page.jump(1.2)");
    await browser.click("play");
    await browser.until("page.now > 2.5");
    const both = "[page.now, performance.now() / 1000]";
    const before = await state(both);
    await wait(1000);
    const passed = (await state(both)).map((it, k) => it - before[k]);
    assert.ok(Math.abs(passed[0] - passed[1]) < 0.1, `${passed[0]} seconds pass in ${passed[1]}`);
    await browser.value("page.jump(19)");
    await browser.until("!page.isPlaying");
    assert.deepEqual(await state(`[${byId("play")}.textContent, page.now]`), ["Play", 20]);
    // Jumps back into the sound, and beyond its end.
    await browser.value("page.jump(1)");
    await browser.click("play");
    await browser.until("page.now > 1.2");
    await browser.value("page.jump(0.5)");
    assert.equal(await browser.value("document.querySelector('audio').paused"), false);
    await browser.value("page.jump(8)");
    await browser.until("page.now > 8.1 && document.querySelector('audio').paused");
    await browser.click("play");
    // A sound that cannot be played is reported, and the graphics play without it.
    writeFiles({ "long.wav": Buffer.alloc(5000, 7) });
    await browser.open("long.cdg", "long.wav");
    await browser.until(`${byId("message")}.textContent.includes("cannot play the sound")`);
    await browser.click("play");
    await browser.until("page.now > 0.2");
    await browser.click("play");
    return "sound may be longer than the graphics, shorter, or broken";
}

async function tryControls(browser) {
    writeFiles({ "song.wav": tone(22) });
    await browser.open("song.cdg", "song.wav");
    await browser.until("document.querySelector('audio').duration === 22");
    const choose = (id, value, event) => browser.value(`${byId(id)}.value = "${value}"; ${byId(id)}.dispatchEvent(new Event("${event}"))`);
    await choose("volume", 35, "input");
    assert.equal(await browser.value("document.querySelector('audio').volume"), 0.35);
    assert.equal(await browser.value(`${byId("volume")}.getAttribute("aria-valuetext")`), "35 percent");
    await choose("speed", "2", "change");
    assert.equal(await browser.value("document.querySelector('audio').playbackRate"), 2);
    await browser.click("play");
    await browser.until("page.now > 0.3");
    const rate = async () => {
        const [before, from] = await browser.value("[page.now, performance.now()]");
        await wait(1500);
        const [after, to] = await browser.value("[page.now, performance.now()]");
        return (1000 * (after - before)) / (to - from);
    };
    // The limits are wide, since sound stops from time to time on a busy machine.
    const measured = await rate();
    assert.ok(measured > 1.4 && measured < 2.4, `at speed 2 the sound plays at ${measured}`);
    // The next file keeps speed and volume, even without sound.
    await browser.open("song.cdg");
    await browser.until("page.isPlaying && page.now > 0.1");
    assert.ok(Math.abs(await rate() - 2) < 0.2);
    await choose("speed", "1", "change");
    await choose("volume", 100, "input");
    await browser.click("play");
    // A click on the button turns on full screen.
    await browser.click("full");
    await browser.until("document.fullscreenElement?.id === 'player'");
    await browser.until(`${byId("full")}.textContent === "Leave full screen"`);
    await browser.photograph("full");
    // While the page plays, the controls are hidden. Any movement or key shows them again.
    const isVisible = (id) => browser.value(`${byId(id)}.checkVisibility()`);
    await browser.click("play");
    await browser.until(`!${byId("play")}.checkVisibility()`);
    assert.deepEqual([await isVisible("screen"), await isVisible("line")], [true, false]);
    await browser.photograph("idle");
    await browser.send("Input.dispatchMouseEvent", { type: "mouseMoved", x: 300, y: 300 });
    await browser.until(`${byId("play")}.checkVisibility()`);
    await browser.until(`!${byId("play")}.checkVisibility()`);
    await browser.press("Tab");
    assert.ok(await browser.value(`${byId("play")}.checkVisibility() && ${byId("player")}.contains(document.activeElement)`),
        "a key shows the controls");
    await browser.click("play");
    await browser.click("full");
    await browser.until("document.fullscreenElement === null");
    await browser.until(`${byId("full")}.textContent === "Full screen"`);
    return "volume, speed and full screen work";
}

async function tryTransparency(browser, { whole }) {
    await browser.open("song.raw");
    await browser.value("page.jump(7.14)");
    const opacity = () => browser.value(`(() => {
        const { data } = ${byId("screen")}.getContext("2d").getImageData(0, 0, 300, 216);
        return Array.from(data).filter((_, k) => k % 4 === 3);
    })()`);
    assert.ok((await opacity()).every((it) => it === 255));
    await browser.value(`${byId("background")}.value = "border"; ${byId("background")}.dispatchEvent(new Event("change"))`);
    // The border is the frame of 6 columns and 12 rows; pixels of its colour are transparent, and no others.
    const scratched = readFileSync(join(FOLDER, "song.raw"));
    const picture = screenOf(scratched, 7.14);
    const colour = (k) => picture.readUIntBE(3 * k, 3);
    const opacities = await opacity();
    assert.ok(opacities.filter((it) => it === 255).length > 1000);
    opacities.forEach((it, k) => {
        assert.ok(it === 255 || it === 0);
        assert.ok(it === 0 ? colour(k) === colour(0) : true, `pixel ${k}`);
    });
    assert.equal(opacities[0], 0);
    await browser.photograph("clear");
    await browser.value(`${byId("background")}.value = "levels"; ${byId("background")}.dispatchEvent(new Event("change"))`);
    // This pack sets the level of colour k to 4 k.
    const levels = Buffer.alloc(PACK);
    levels.set([9, 28]);
    levels.set(Array.from({ length: 16 }, (_, k) => 4 * k), 4);
    writeFiles({ "levels.cdg": Buffer.concat([readFileSync(join(FOLDER, "song.cdg")).subarray(0, PACK * 2100), levels]) });
    await browser.open("levels.cdg");
    await browser.value("page.jump(8)");
    const seen = new Set(await opacity());
    const allowed = new Set(Array.from({ length: 16 }, (_, k) => 255 - (16 * k + Math.floor((4 * k) / 16))));
    assert.ok(seen.size > 1 && [...seen].every((it) => allowed.has(it)), [...seen].join(" "));
    await browser.value(`${byId("background")}.value = "opaque"; ${byId("background")}.dispatchEvent(new Event("change"))`);
    assert.ok((await opacity()).every((it) => it === 255));
    await expectScreen(browser, whole, 0, "an empty screen");
    return "the background is transparent by the border's colour or by the levels of the disc";
}

// ---- keys, touch and texts for screen readers

async function tryKeys(browser) {
    await browser.open("song.cdg");
    await browser.send("Page.setInterceptFileChooserDialog", { enabled: true });
    await browser.value("document.activeElement.blur(); scrollTo(0, 0)");
    // The Tab key reaches each control, and Enter on the button opens the file dialog.
    const reached = [];
    for (let k = 0; k < 40 && !(reached.length > 15 && reached.at(-1) === "open"); k += 1) {
        await browser.press("Tab");
        reached.push(await browser.value("document.activeElement.id"));
    }
    assert.deepEqual(["line", "play", "speed", "background", "full", "open"].filter((it) => !reached.includes(it)), []);
    assert.equal(reached.at(-1), "open");
    await browser.press("Enter", "Enter", "\r");
    const { mode } = await browser.event("Page.fileChooserOpened");
    assert.equal(mode, "selectMultiple");
    await browser.send("Page.setInterceptFileChooserDialog", { enabled: false });
    await browser.open("song.cdg");
    await browser.value(`${byId("line")}.focus()`);
    const expectPosition = async (key, seconds, text) => {
        await browser.press(key);
        assert.equal(Math.floor(await browser.value("page.now") + 1e-6), seconds, key);
        assert.equal(await browser.value(`${byId("line")}.getAttribute("aria-valuetext")`), `${text} of 23 seconds`);
        assert.equal(await browser.value(`${byId("line")}.getAttribute("aria-valuenow")`), String(seconds));
    };
    await expectPosition("ArrowRight", 5, "5 seconds");
    await expectPosition("ArrowRight", 10, "10 seconds");
    await expectPosition("ArrowLeft", 5, "5 seconds");
    await expectPosition("PageUp", 23, "23 seconds");
    await expectPosition("End", 23, "23 seconds");
    await expectPosition("Home", 0, "0 seconds");
    await browser.value("document.activeElement.blur()");
    await browser.press(" ", "Space", " ");
    await browser.until("page.isPlaying");
    await browser.press(" ", "Space", " ");
    await browser.until("!page.isPlaying");
    // The page ignores a key that the focused control uses itself.
    await browser.value(`${byId("speed")}.focus(); page.jump(0)`);
    await browser.press("ArrowRight");
    assert.equal(await browser.value("page.now"), 0);
    await browser.value(`${byId("speed")}.value = "1"; ${byId("speed")}.dispatchEvent(new Event("change")); document.activeElement.blur()`);
    return "the keyboard opens files, moves the position and plays";
}

async function tryPointers(browser) {
    await browser.open("song.cdg");
    const length = await browser.value("page.seconds");
    await browser.click("line", 0.5);
    assert.ok(Math.abs(await browser.value("page.now") - length / 2) < 0.2);
    await browser.send("Emulation.setTouchEmulationEnabled", { enabled: true });
    const touch = async (type, share) => {
        const { x, y } = await browser.place("line", share);
        await browser.send("Input.dispatchTouchEvent", { type, touchPoints: type === "touchEnd" ? [] : [{ x, y }] });
    };
    await touch("touchStart", 0.1);
    for (let step = 1; step <= 8; step += 1) {
        await touch("touchMove", 0.1 + step / 10);
        await wait(30);
    }
    await browser.until(`Math.abs(page.now - ${0.9 * length}) < 0.3`);
    await touch("touchMove", 0.25);
    await wait(30);
    await touch("touchEnd", 0.25);
    await browser.until(`Math.abs(page.now - ${0.25 * length}) < 0.3`);
    await browser.send("Emulation.setTouchEmulationEnabled", { enabled: false });
    return "mouse and touch drag the position";
}

/** Checks names and roles in the accessibility tree, which screen readers use. */
async function tryNames(browser) {
    await browser.open("song.raw");
    await browser.value("page.jump(7)");
    const { nodes } = await browser.send("Accessibility.getFullAXTree");
    const elements = nodes.filter((it) => !it.ignored).map((it) => ({
        role: it.role?.value, name: it.name?.value ?? "", value: it.value?.value,
    }));
    const named = (role, name) => elements.find((it) => it.role === role && it.name === name);
    assert.equal(named("slider", "Position")?.value, 7);
    assert.equal(await browser.value(`${byId("line")}.getAttribute("aria-valuetext")`), "7 seconds of 24 seconds");
    assert.ok(named("slider", "Volume") && named("combobox", "Speed") && named("combobox", "Background"));
    assert.ok(named("spinbutton", "Lead-in blocks"));
    assert.ok(elements.some((it) => ["image", "img"].includes(it.role) && it.name === "CD+G screen of song.raw"));
    for (const name of ["Play", "Open files", "Save as .cdg", "Full screen"]) {
        assert.ok(named("button", name), name);
    }
    assert.ok(elements.some((it) => it.role === "status"));
    const roles = ["button", "slider", "combobox", "spinbutton", "image", "img", "link"];
    const nameless = elements.filter((it) => roles.includes(it.role) && it.name === "");
    assert.deepEqual(nameless, []);
    return "each control, the position and the screen have a role, a name and a value";
}

// Evaluated in the page: each visible text and each edge of a control, with its colour and the colour behind it.
const COLOURS_OF_PAGE = `(() => {
    const number = (text) => {
        const parts = text.match(/[\\d.]+/g).map(Number);
        return { rgb: parts.slice(0, 3), alpha: parts[3] ?? 1 };
    };
    const behind = (element) => {
        for (let it = element; it !== null; it = it.parentElement) {
            const { rgb, alpha } = number(getComputedStyle(it).backgroundColor);
            if (alpha === 1) {
                return rgb;
            }
        }
        return [255, 255, 255];
    };
    const isVisible = (it) => it.checkVisibility() && it.getBoundingClientRect().width > 0;
    const texts = [...document.querySelectorAll("body *")].filter((it) => isVisible(it) && !it.matches(":disabled, :disabled *, option") &&
        ([...it.childNodes].some((one) => one.nodeType === 3 && one.data.trim() !== "") || it.matches("input, select")));
    return [
        ...texts.map((it) => ({ what: it.id || it.tagName + " " + it.textContent.trim().slice(0, 30), least: ${LEAST_CONTRAST},
            one: number(getComputedStyle(it).color).rgb, other: it.closest("#hint") ? [0, 0, 0] : behind(it) })),
        ...[...document.querySelectorAll("button, select, input[type=number], #line, #stage")]
            .filter((it) => isVisible(it) && !it.closest("#list")).map((it) => ({ what: "the edge of " + it.id, least: ${LEAST_GRAPHICS_CONTRAST}, one: number(getComputedStyle(it).borderTopColor).rgb,
                other: behind(it.parentElement) })),
        ...["drawn", "corrected", "bad", "now"].map((name) => {
            const swatch = document.createElement("p");
            document.body.append(swatch);
            swatch.style.color = "var(--" + name + ")";
            swatch.style.backgroundColor = "var(--line)";
            const { color, backgroundColor } = getComputedStyle(swatch);
            swatch.remove();
            return { what: "the colour of " + name, least: ${LEAST_GRAPHICS_CONTRAST}, one: number(color).rgb, other: number(backgroundColor).rgb };
        }),
        ...["focus"].map((name) => {
            const swatch = document.createElement("p");
            document.body.append(swatch);
            swatch.style.color = "var(--" + name + ")";
            const { color } = getComputedStyle(swatch);
            swatch.remove();
            return { what: "the outline of the focus", least: ${LEAST_GRAPHICS_CONTRAST}, one: number(color).rgb,
                other: behind(document.body) };
        }),
    ];
})()`;

/** The contrast of two colours, by the definition of WCAG 2. */
function contrast(one, other) {
    const light = (rgb) => {
        const [red, green, blue] = rgb.map((it) => it / 255).map((it) => (it <= 0.04045 ? it / 12.92 : ((it + 0.055) / 1.055) ** 2.4));
        return 0.2126 * red + 0.7152 * green + 0.0722 * blue;
    };
    const [high, low] = [light(one), light(other)].sort((a, b) => b - a);
    return (high + 0.05) / (low + 0.05);
}

async function tryLooks(browser) {
    const least = { text: 21, edges: 21 };
    for (const [width, height] of [[1280, 1000], [400, 860], [320, 700]]) {
        for (const scheme of ["dark", "light"]) {
            await browser.look(width, height, scheme);
            await browser.visit(PAGE);
            await browser.photograph(`empty-${width}-${scheme}`);
            await checkLook(browser, least, width, scheme);
            await browser.open("song.raw", "second.cdg", "first.cdg");
            await browser.value("page.jump(7.14)");
            await wait(100);
            await browser.photograph(`page-${width}-${scheme}`);
            await checkLook(browser, least, width, scheme);
            await browser.open("noise.bin");
            await checkLook(browser, least, width, scheme);
        }
    }
    await browser.look(1000, 880, "dark");
    await browser.visit(PAGE);
    await browser.open("song.raw");
    await browser.value("page.jump(7.14)");
    await wait(100);
    await browser.photograph("page");
    await browser.look(1280, 1000, "dark");
    await browser.visit(PAGE);
    return `contrast is at least ${least.text.toFixed(1)} for texts and ${least.edges.toFixed(1)} for edges, light and dark, at 320 to 1280 pixels`;
}

/** Checks contrasts, the width of the page and the sizes of controls; lowers `least` to the least contrasts of texts and edges. */
async function checkLook(browser, least, width, scheme) {
    for (const { what, one, other, least: required } of await browser.value(COLOURS_OF_PAGE)) {
        const ratio = contrast(one, other);
        assert.ok(ratio >= required, `${what}, ${scheme}: contrast ${ratio.toFixed(2)} of ${one} on ${other}`);
        const kind = required === LEAST_CONTRAST ? "text" : "edges";
        least[kind] = Math.min(least[kind], ratio);
    }
    const [pageWidth, windowWidth] = await browser.value("[document.documentElement.scrollWidth, innerWidth]");
    assert.ok(pageWidth <= windowWidth, `in a window of ${width} pixels the page is ${pageWidth} wide`);
    // WCAG 2.2 asks for targets of at least 24 by 24 pixels.
    const small = await browser.value(`[...document.querySelectorAll("button, select, input:not([type=file]), #line")]
        .filter((it) => it.checkVisibility()).map((it) => [it.id, it.getBoundingClientRect()])
        .filter(([, box]) => box.width < 24 || box.height < 24).map(([id]) => id)`);
    assert.deepEqual(small, []);
}

// ---- zips, sounds and images

async function tryZips(browser, { packs }) {
    const [one, other] = [packs.subarray(0, PACK * 600), packs.subarray(0, PACK * 1200)];
    const open = async (name, entries, options) => {
        writeFiles({ [name]: zipOf(entries, options) });
        return browser.open(name);
    };
    const song = { name: "song.cdg", bytes: packs };
    assert.match(await open("plain.zip", [song, { name: "song.wav", bytes: tone(22), stored: true }]), /^song\.cdg: .*sound: song\.wav/);
    await browser.until("page.seconds > 22");
    await browser.value("page.jump(3)");
    await browser.click("play");
    await browser.until("page.now > 4.5");
    await browser.click("play");
    for (const [name, options] of [["wide", { wide: true }], ["front", { front: Buffer.from("MZ and more") }], ["both", { wide: true, front: Buffer.alloc(99) }]]) {
        assert.match(await open(`${name}.zip`, [song], options), /^song\.cdg: a \.cdg file/, name);
    }
    // Files with the same name are a pair, even with other files between them.
    const pairs = [{ name: "B.wav", bytes: tone(7) }, { name: "A.cdg", bytes: one },
        { name: "A.wav", bytes: tone(5) }, { name: "B.cdg", bytes: other }];
    assert.match(await open("pairs.zip", pairs), /^A\.cdg: .*sound: A\.wav/);
    await browser.until("page.seconds === 5");
    await browser.value("document.querySelectorAll('#list button')[1].click()");
    await browser.until("page.seconds === 7");
    assert.match(await browser.value(`${byId("message")}.textContent`), /^B\.cdg: .*sound: B\.wav/);
    assert.equal(await browser.value("document.querySelector('#list [aria-current]').textContent"), "pairs.zip/B.cdg with B.wav");
    // The page ignores files that macOS adds.
    const mac = [{ name: "__MACOSX/._x.cdg", bytes: Buffer.alloc(300, 5) }, { name: "x.cdg", bytes: one }];
    assert.match(await open("mac.zip", mac), /^x\.cdg: /);
    assert.equal(await browser.value(`${byId("files")}.hidden`), true);
    // One unreadable file leaves the others playable.
    const mixed = [{ name: "a.cdg", bytes: one, method: 14 }, { name: "b.cdg", bytes: one, flags: 1 }, { name: "c.cdg", bytes: other }];
    assert.match(await open("mixed.zip", mixed), /^c\.cdg: /);
    assert.deepEqual(await browser.value("[...document.querySelectorAll('#list li')].map((it) => it.textContent)"),
        ["mixed.zip/a.cdg: is compressed by LZMA, which this page cannot read", "mixed.zip/b.cdg: is encrypted", "mixed.zip/c.cdg"]);
    for (const [why, entry] of [[/checksum \(CRC\) is wrong/, { crc: 1 }], [/is encrypted/, { flags: 1 }], [/compressed by method 50/, { method: 50 }],
        [/damaged: it cannot be unpacked/, { packed: Buffer.alloc(500, 0xff) }], [/longer than the directory/, { size: 5 }]]) {
        assert.match(await open("wrong.zip", [{ ...song, ...entry }]), why);
    }
    writeFiles({ "cut.zip": zipOf([song]).subarray(0, 400) });
    assert.match(await browser.open("cut.zip"), /no directory/);
    // The graphics play without a damaged sound.
    assert.match(await open("sound.zip", [song, { name: "song.mp3", bytes: tone(1), crc: 3 }]),
        /^song\.cdg: .*no sound: song\.mp3 is damaged/);
    return "zips are read, files are paired by their names, and errors are reported";
}

async function tryBombs(browser) {
    const packed = deflateRawSync(Buffer.alloc(2 ** 28));
    const heap = async () => (await browser.send("Runtime.getHeapUsage"));
    const before = await heap();
    const from = Date.now();
    writeFiles({ "bomb.zip": zipOf([{ name: "x.cdg", bytes: Buffer.alloc(0), packed, size: 2 ** 30 }]),
        "lying.zip": zipOf([{ name: "x.cdg", bytes: Buffer.alloc(0), packed, size: 24_000 }]) });
    assert.match(await browser.open("bomb.zip"), /x\.cdg would unpack to 1024 MB, more than 512/);
    assert.match(await browser.open("lying.zip"), /x\.cdg is longer than the directory of the zip says/);
    const grown = (await heap()).backingStorageSize - before.backingStorageSize;
    assert.ok(!(grown > 2 ** 26), `${grown} bytes more`);
    assert.ok(Date.now() - from < 120_000);
    return "bombs are refused";
}

async function tryOpus(browser) {
    if (spawnSync("ffmpeg", ["-version"]).status !== 0) {
        return "opus is skipped: ffmpeg is not installed";
    }
    for (const [ending, codec] of [["opus", "libopus"], ["mp3", "libmp3lame"], ["flac", "flac"]]) {
        const result = spawnSync("ffmpeg", ["-v", "error", "-y", "-f", "lavfi", "-i", "sine=frequency=440:duration=30", "-c:a", codec,
            join(FOLDER, `song.${ending}`)]);
        assert.equal(result.status, 0, String(result.stderr));
        const bytes = readFileSync(join(FOLDER, `song.${ending}`));
        writeFiles({ "sounds.zip": zipOf([{ name: `song.${ending}`, bytes },
            { name: "song.cdg", bytes: readFileSync(join(FOLDER, "song.cdg")) }]) });
        assert.match(await browser.open("sounds.zip"), new RegExp(`sound: song\\.${ending}`));
        await browser.until("Math.abs(page.seconds - 30) < 0.2");
        await browser.click("play");
        await browser.until("page.now > 0.3");
        await browser.click("play");
    }
    return "zips with opus, mp3 and flac are played";
}

/** Opens images with sound: CloneCD's three files, and a .bin with sectors of 2,448 bytes and its sheet. */
async function tryImages(browser, { disc, whole }) {
    const stream = disc(75);
    const blocks = stream.length / BLOCK;
        const audio = Buffer.alloc(AUDIO * blocks);
    for (let at = 0; at < audio.length; at += 4) {
        audio.writeInt16LE(Math.round(8000 * Math.sin(at / 100)), at);
    }
    writeFiles({ "disc.sub": run(stream, "planar"), "disc.img": audio,
        "disc.ccd": "[CloneCD]\r\nVersion=3\r\n[Entry 0]\r\nPoint=0x01\r\nControl=0x00\r\n" });
    for (const order of [["disc.ccd", "disc.img", "disc.sub"], ["disc.sub", "disc.ccd", "disc.img"]]) {
        const message = await browser.open(...order);
        assert.match(message, /^disc\.sub: subcode in the planar form.*lead-in: 75 blocks, by Q; sound: that of disc\.img/);
        await browser.until(`Math.abs(document.querySelector("audio").duration - ${blocks / 75}) < 0.01`);
        await expectScreen(browser, stream, 7.14, "CloneCD's files", 75);
        // The sound begins with the lead-in, one second before the picture.
        assert.ok(Math.abs(await browser.value("document.querySelector('audio').currentTime - page.now") - 1) < 0.05);
    }
    writeFiles({ "data.sub": run(stream, "planar"), "data.img": audio, "data.ccd": "[Entry 0]\r\nPoint=0x01\r\nControl=0x04\r\n" });
    assert.match(await browser.open("data.sub", "data.img", "data.ccd"), /data\.img has data tracks, and its sound is not played/);
    writeFiles({ "image.bin": imageOf(whole), "image.cue": 'FILE "image.bin" BINARY\n  TRACK 01 CDG\n    INDEX 01 00:00:00\n' });
    assert.match(await browser.open("image.cue", "image.bin"), /^image\.bin: an image with sectors of 2,448 bytes.*sound: that of image\.bin/);
    await browser.until(`Math.abs(document.querySelector("audio").duration - ${whole.length / BLOCK / 75}) < 0.01`);
    await expectScreen(browser, whole, 7.14, "a .bin with its sheet");
    writeFiles({ "plain.bin": audio, "plain.cue": 'FILE "plain.bin" BINARY\n  TRACK 01 AUDIO\n    INDEX 01 00:00:00\n' });
    assert.match(await browser.open("plain.cue", "plain.bin"), /plain\.bin cannot be played/);
    return "images play with their own sound";
}

// ---- opening again and again

async function tryOpening(browser, { packs }) {
    // A file that is opened during playback plays from its beginning.
    await browser.open("song.raw");
    await browser.value("page.jump(3)");
    await browser.click("play");
    await browser.until("page.now > 3.2");
    await browser.open("second.cdg");
    assert.ok(await browser.value("page.isPlaying && page.now < 14"));
    await browser.until("page.now > 0.5");
    assert.equal(await browser.value(`${byId("play")}.textContent`), "Pause");
    await browser.click("play");
    await browser.value("page.jump(1)");
    const shown = await canvas(browser);
    const drawn = screenOfPacks(packs.subarray(PACK * 1200, PACK * 1500));
    assert.equal(Buffer.compare(shown, drawn), 0, "a file that was opened during playback");
    // The same file can be chosen twice.
    for (let k = 0; k < 2; k += 1) {
        assert.match(await browser.open("second.cdg"), /^second\.cdg/);
        assert.equal(await browser.value(`${byId("file")}.value`), "");
    }
    // If two files are opened at once, the page shows the later one.
    await browser.value(`(() => {
        const file = (name, size) => ({ path: name, file: new File([new Uint8Array(size)], name) });
        page.open([file("one.cdg", 24000000)]);
        page.open([file("two.cdg", 2400)]);
    })()`);
    await browser.until(`${byId("message")}.textContent.startsWith("two.cdg")`);
    await wait(500);
    assert.ok(await browser.value(`${byId("message")}.textContent.startsWith("two.cdg")`));
    // Dropped files are listed, without those that are not playable.
    await browser.value(`(() => {
        const transfer = new DataTransfer();
        for (const name of ["x.cdg", "y.cdg", "z.txt"]) {
            transfer.items.add(new File([new Uint8Array(2400)], name));
        }
        dispatchEvent(new DragEvent("drop", { dataTransfer: transfer, cancelable: true }));
    })()`);
    await browser.until(`${byId("message")}.textContent.startsWith("x.cdg")`);
    assert.deepEqual(await browser.value("[...document.querySelectorAll('#list button')].map((it) => it.textContent)"), ["x.cdg", "y.cdg"]);
    return "files can be opened during playback, twice, at once and together";
}

/** The program's screen after packs, given to it as a stream with four packs per block. */
function screenOfPacks(packs) {
    return run(packs, "screen", "--lead-in", "0", "--form", "cooked", "--at", moment(packs.length / BLOCK / 75)).subarray(15);
}

/** Dumps of 40 MB: memory does not grow, and the page stays responsive while it saves one. */
async function tryBigDumps(browser, { whole }) {
    const big = Buffer.concat(Array.from({ length: Math.ceil(41_000_000 / whole.length) }, () => whole));
    writeFiles({ "big.raw": big });
    const sizes = [];
    const started = Date.now();
    await watch(browser);
    await browser.open("big.raw");
    const openingFreeze = await browser.value("stopWatching()");
    assert.ok(openingFreeze < Math.max(400, (Date.now() - started) / 2), `the page freezes for ${openingFreeze} ms while it opens a file`);
    for (let k = 0; k < 5; k += 1) {
        assert.match(await browser.open("big.raw"), /^big\.raw: raw subcode/);
        await browser.value("page.jump(5000)");
        sizes.push(await browser.value("page.ribjasper.memoryBytes"));
    }
    // Memory may grow a little at first, while free memory is split and joined.
    assert.ok(sizes.at(-1) === sizes.at(-2) && sizes.at(-1) - sizes[0] < 1_000_000, `the memory of the module: ${sizes}`);
    mkdirSync(join(FOLDER, "saved"));
    await browser.send("Browser.setDownloadBehavior", { behavior: "allow", downloadPath: join(FOLDER, "saved"), eventsEnabled: true });
    await watch(browser);
    await browser.value(`${byId("save")}.click()`);
    const from = Date.now();
    await browser.until(`${byId("message")}.textContent.includes("is saved")`, 120);
    const seconds = (Date.now() - from) / 1000;
    const shares = await browser.value("shares.size");
    const savingFreeze = await browser.value("stopWatching()");
    assert.ok(shares > 5, `the page shows only ${shares} steps of progress`);
    assert.ok(savingFreeze < Math.max(400, 1000 * seconds / 2), `the page freezes for ${savingFreeze} ms while it saves a file`);
    const saved = join(FOLDER, "saved", "big.cdg");
    const expected = run(big, "convert", "--lead-in", "0");
    for (let tries = 0; tries < 200 && !(existsSync(saved) && statSync(saved).size === expected.length); tries += 1) {
        await wait(50);
    }
    assert.equal(Buffer.compare(readFileSync(saved), expected), 0, "the saved file");
    // Saving can be cancelled.
    await browser.value(`${byId("save")}.click()`);
    assert.equal(await browser.value(`${byId("save")}.textContent`), "Cancel saving");
    await browser.value(`${byId("save")}.click()`);
    await browser.until(`${byId("message")}.textContent.includes("big.cdg is not saved")`);
    assert.equal(await browser.value(`${byId("save")}.textContent`), "Save as .cdg");
    await browser.open("first.cdg");
    return `dumps of ${Math.round(big.length / 1e6)} MB need ${(sizes.at(-1) / 1e6).toFixed(1)} MB of memory; ` +
        `one is saved in ${seconds.toFixed(1)} s; the page freezes for at most ${Math.round(openingFreeze)} ms while it opens one ` +
        `and ${Math.round(savingFreeze)} ms while it saves it`;
}

/** Starts to record the longest time between two frames of the page, and the values of its progress bar. */
function watch(browser) {
    return browser.value(`(() => {
        globalThis.shares = new Set();
        let [last, longest, isRunning] = [performance.now(), 0, true];
        const record = () => {
            const now = performance.now();
            longest = Math.max(longest, now - last);
            last = now;
            shares.add(${byId("share")}.value);
            if (isRunning) {
                requestAnimationFrame(record);
            }
        };
        globalThis.stopWatching = () => {
            isRunning = false;
            return longest;
        };
        requestAnimationFrame(record);
    })()`);
}

/** The page requests only its own files and objects. */
function expectNoRequests(browser) {
    const urls = browser.events.filter((it) => it.method === "Network.requestWillBeSent").map((it) => it.params.request.url);
    assert.deepEqual(urls.filter((it) => !/^(file|blob|data):/.test(it)), []);
    const exceptions = browser.events.filter((it) => it.method === "Runtime.exceptionThrown").map((it) => it.params.exceptionDetails);
    assert.deepEqual(exceptions, []);
    return "the page fetches nothing else, and throws no error";
}

async function tryPage(browser) {
    const songs = writeSongs();
    const version = (await browser.send("Browser.getVersion")).product;
    await browser.visit(PAGE);
    const tests = [tryStreams, tryLeadIns, tryStreamsWithoutQ, trySound, tryControls, tryTransparency, tryKeys, tryPointers, tryNames,
        tryLooks, tryZips, tryBombs, tryOpus, tryImages, tryOpening, tryBigDumps, expectNoRequests];
    const only = process.env.ONLY?.split(",");
    for (const test of tests.filter((it) => only === undefined || only.includes(it.name))) {
        console.log(`test_page: ${version}: ${await test(browser, songs)}`);
    }
}

const browser = await Browser.start(CHROMIUM, FOLDER);
try {
    await tryPage(browser);
} finally {
    browser.stop();
}
