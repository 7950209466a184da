// Makes two screenshots for docs: web.png shows the player of lib/web with a damaged stream, and look.png shows the page of
// `ribjasper-desk look` with the duet of examples.
//
//     node --experimental-websocket tests/peers/page_pictures.mjs CHROMIUM FOLDER
//
// CHROMIUM is the browser's program. FOLDER is an empty folder, which receives web.png and look.png. The script needs bin/, lib/
// and lib/web (`make`, `make library`, `make web`) and the requirements of `ribjasper-desk look`.
import assert from "node:assert/strict";
import { spawnSync } from "node:child_process";
import { writeFileSync } from "node:fs";
import { dirname, join } from "node:path";
import { fileURLToPath, pathToFileURL } from "node:url";

import { Browser, wait } from "./browser.mjs";

const TOP = join(dirname(fileURLToPath(import.meta.url)), "..", "..");
const [CHROMIUM, FOLDER] = process.argv.slice(2);
const BLOCK = 96, LEAD_IN = 30, RATE = 44_100;

function run(program, ...words) {
    const { status, stdout, stderr } = spawnSync(program, words, { maxBuffer: 1 << 28 });
    assert.equal(status, 0, `${words.join(" ")}: ${stderr}`);
    return stdout;
}

// A fixed seed makes the same screenshot each time.
let state = 1;
function randomBelow(bound) {
    state = (Math.imul(state, 1_103_515_245) + 12_345) >>> 0;
    return (state >>> 8) % bound;
}

/** The stream of the examples with single wrong symbols and one scratch that destroys every word in it. */
function damagedStream() {
    const examples = ["hello.cue", "hello.script"].map((name) => join(TOP, "examples", name));
    const words = ["author", "--lead-in", `${LEAD_IN}`, "--length", "00:22:00", "--", ...examples];
    const stream = run(join(TOP, "bin", "ribjasper"), ...words).subarray(BLOCK * LEAD_IN);
    for (let at = 0; at < stream.length; at += 1) {
        const isScratch = at >= BLOCK * 900 && at < BLOCK * 960;
        if (isScratch || randomBelow(150) === 0) {
            stream[at] ^= 1 + randomBelow(63);
        }
    }
    return stream;
}

/** A WAV file with silence. */
function silence(seconds) {
    const samples = 4 * RATE * seconds, head = Buffer.alloc(44);
    head.write("RIFF", 0);
    head.writeUInt32LE(36 + samples, 4);
    head.write("WAVEfmt ", 8);
    [16, 0].forEach((value, place) => head.writeUInt16LE(value, 16 + 2 * place));
    head.writeUInt16LE(1, 20);
    head.writeUInt16LE(2, 22);
    head.writeUInt32LE(RATE, 24);
    head.writeUInt32LE(4 * RATE, 28);
    head.writeUInt16LE(4, 32);
    head.writeUInt16LE(16, 34);
    head.write("data", 36);
    head.writeUInt32LE(samples, 40);
    return Buffer.concat([head, Buffer.alloc(samples)]);
}

async function photographPlayer(browser) {
    writeFileSync(join(FOLDER, "song.raw"), damagedStream());
    await browser.look(1000, 880, "dark");
    await browser.visit(join(TOP, "lib", "web", "index.html"));
    await browser.open("song.raw");
    await browser.value("page.jump(7)");
    await wait(500);
    await browser.photograph("web");
}

async function photographSong(browser) {
    const [sound, page] = ["song.wav", "look.html"].map((name) => join(FOLDER, name));
    writeFileSync(sound, silence(54));
    const lyrics = join(TOP, "examples", "album", "duet.lrc");
    run(join(TOP, "desk", "ribjasper-desk"), "look", lyrics, "--audio", sound, "-o", page);
    await browser.look(930, 690, "light");
    await browser.send("Page.navigate", { url: pathToFileURL(page).href });
    await browser.until("document.querySelector('audio')?.readyState > 0");
    await browser.value("document.querySelector('audio').currentTime = 15.2");
    await wait(1500);
    await browser.photograph("look");
}

const browser = await Browser.start(CHROMIUM, FOLDER);
try {
    await photographPlayer(browser);
    await photographSong(browser);
} finally {
    browser.stop();
}
