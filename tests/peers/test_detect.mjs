// Tests two modules of the page in Node: detect.mjs of examples/web, which detects the form of a file, and items.mjs, which chooses
// the files to play together. The dumps and the expected results come from the tests of the desk (desk/tests/known_dumps.py),
// which share no code with the library, the desk or the page.
//
//     node [--experimental-wasm-memory64] tests/peers/test_detect.mjs MODULE FOLDER
//
// MODULE is lib/web/ribjasper.wasm; ribjasper.mjs is in the same folder. FOLDER is an empty folder to work in.
import assert from "node:assert/strict";
import { spawnSync } from "node:child_process";
import { readFileSync } from "node:fs";
import { dirname, join } from "node:path";
import { fileURLToPath } from "node:url";

import { formOf, leadInOfSurvey, subcodeOf } from "../../examples/web/detect.mjs";
import { entriesOf, itemsOf, soundOfImage, tracksOf } from "../../examples/web/items.mjs";
import { load } from "../../lib/web/ribjasper.mjs";
import { zipOf } from "./zips.mjs";

const TOP = join(dirname(fileURLToPath(import.meta.url)), "..", "..");
const [MODULE, FOLDER] = process.argv.slice(2);

/** Writes the known dumps, except those with another bit order and those with a header that the file length does not reveal. */
const WRITE = `
import json, sys
sys.path.insert(0, sys.argv[1] + "/desk/tests")
sys.path.insert(0, sys.argv[1] + "/desk")
from test_known_dumps import FORMS
made = []
for number, (name, truth) in enumerate(FORMS.items()):
    if "-reversed" in truth.form or "-swapped" in truth.form or ("header" in name and ("torn" in name or "128" in name)) or truth.state == "foreign":
        continue
    content = truth.make()
    with open(f"{number}.dump", "wb") as file:
        file.write(content)
    made.append([f"{number}.dump", name, truth.form, truth.lead_in, truth.name])
json.dump(made, open("dumps.json", "w"))
`;

async function compareDumps(ribjasper) {
    const result = spawnSync("python3", ["-c", WRITE, TOP], { cwd: FOLDER, encoding: "utf8" });
    assert.equal(result.status, 0, result.stderr);
    const dumps = JSON.parse(readFileSync(join(FOLDER, "dumps.json"), "utf8"));
    const wrong = [];
    for (const [file, name, form, leadIn, fileName] of dumps) {
        const blob = new Blob([readFileSync(join(FOLDER, file))]);
        const { found } = await formOf(ribjasper, blob);
        const detected = fileName.toLowerCase().endsWith(".cdg") && found?.form.name === "cooked" ? "cdg" : found?.form.name;
        // A file of packs with parity fits both forms; the page decides by its name.
        if (detected !== form && !(form === "cdg" && detected === "cooked")) {
            wrong.push(`${name}: ${detected} instead of ${form}`);
            continue;
        }
        if (!["raw", "planar"].includes(found.form.coding)) {
            continue;
        }
        const units = new Uint8Array(await blob.slice(found.skip).arrayBuffer());
        const whole = units.subarray(0, units.length - (units.length % found.form.unit));
        const detectedLeadIn = (await leadInOfSurvey(ribjasper.survey(subcodeOf(ribjasper, whole, found.form)))) ?? 0;
        if (detectedLeadIn !== leadIn) {
            wrong.push(`${name}: a lead-in of ${detectedLeadIn} instead of ${leadIn}`);
        }
    }
    assert.deepEqual(wrong, []);
    assert.ok(dumps.length > 40);
    console.log(`test_detect: the form and the lead-in of ${dumps.length} known dumps are detected`);
}

const entry = (path, size = 100) => ({ path, file: new File([new Uint8Array(size)], path.split("/").at(-1)) });

/** The items that the page makes of files with these names, as "graphics + sound". */
async function itemsFor(...paths) {
    const { entries } = await entriesOf(paths.map((it) => entry(it)));
    return itemsOf(entries).map(({ graphics, sound, image }) => [graphics.name, (sound ?? image)?.name].filter((it) => it !== undefined).join(" + "));
}

async function comparePairs() {
    for (const [files, expected] of [
        [["A.cdg", "A.mp3"], ["A.cdg + A.mp3"]],
        [["B.mp3", "A.cdg", "A.mp3", "B.cdg"], ["A.cdg + A.mp3", "B.cdg + B.mp3"]],
        [["song.CDG", "Song.MP3"], ["song.CDG + Song.MP3"]],
        [["e\u0301.cdg", "\u00e9.opus"], ["e\u0301.cdg + \u00e9.opus"]],
        [["one.cdg", "other.mp3"], ["one.cdg + other.mp3"]],
        [["one.cdg", "x.mp3", "y.mp3"], ["one.cdg"]],
        [["one.cdg", "two.cdg", "x.mp3"], ["one.cdg", "two.cdg"]],
        [["a/x.cdg", "b/x.mp3", "a/x.mp3"], ["x.cdg + x.mp3"]],
        [["graphics/x.cdg", "sound/x.mp3", "graphics/y.cdg", "sound/y.mp3"], ["x.cdg + x.mp3", "y.cdg + y.mp3"]],
        [["disc.ccd", "disc.img", "disc.sub"], ["disc.sub + disc.img"]],
        [["disc.cue", "disc.bin"], ["disc.bin"]],
        [["disc.bin", "disc.sub", "disc.cue"], ["disc.sub + disc.bin"]],
        [["disc.bin", "other.cdg"], ["disc.bin", "other.cdg"]],
        [["x.cdg", "x.txt", "x.jpg", "cover.png"], ["x.cdg"]],
        [["dump"], ["dump"]],
        [["cover.png", "song.mp3"], []],
        [["x.cdg", "x.wav", "x.mp3"], ["x.cdg + x.wav"]],
        [["..cdg", ".mp3"], ["..cdg"]],
    ]) {
        assert.deepEqual(await itemsFor(...files), expected, files.join(" "));
    }
    // The files of a zip are in their own folder.
    const zip = zipOf([{ name: "B.mp3", bytes: Buffer.alloc(9) }, { name: "A.cdg", bytes: Buffer.alloc(24) }, { name: "A.mp3", bytes: Buffer.alloc(9) },
        { name: "B.cdg", bytes: Buffer.alloc(24) }, { name: "__MACOSX/._x.cdg", bytes: Buffer.alloc(24) }]);
    const { entries } = await entriesOf([{ path: "pairs.zip", file: new File([zip], "pairs.zip") }]);
    assert.deepEqual(itemsOf(entries).map(({ graphics, sound }) => [graphics.folder, graphics.name, sound.name]),
        [["pairs.zip/", "A.cdg", "A.mp3"], ["pairs.zip/", "B.cdg", "B.mp3"]]);
    console.log("test_detect: files are paired by their names");
}

/** The .wav file of an image has the unchanged audio of its sectors behind its header. */
async function compareSounds() {
    const [sectors, audio] = [9000, 2352];
    const samples = Buffer.from(Array.from({ length: audio * 50 }, (_, k) => (k * 7 + (k >> 8)) & 0xff));
    const all = Buffer.concat(Array.from({ length: sectors / 50 }, () => samples));
    const swapped = Buffer.from(all).swap16();
    const image = Buffer.concat(Array.from({ length: sectors }, (_, k) => [all.subarray(audio * k, audio * (k + 1)), Buffer.alloc(96, 0x33)]).flat());
    for (const [content, unit, skip, isSwapped] of [[all, audio, 0, false], [swapped, audio, 0, true], [image, 2448, 0, false],
        [Buffer.concat([Buffer.alloc(44), image, Buffer.alloc(100)]), 2448, 44, false]]) {
        const wave = Buffer.from(await (await soundOfImage(new Blob([content]), unit, skip, isSwapped)).arrayBuffer());
        assert.equal(wave.toString("latin1", 0, 4) + wave.toString("latin1", 8, 16) + wave.toString("latin1", 36, 40), "RIFFWAVEfmt data");
        assert.deepEqual([wave.readUInt32LE(4), wave.readUInt16LE(20), wave.readUInt16LE(22), wave.readUInt32LE(24), wave.readUInt32LE(28),
            wave.readUInt16LE(32), wave.readUInt16LE(34), wave.readUInt32LE(40)], [wave.length - 8, 1, 2, 44_100, 176_400, 4, 16, wave.length - 44]);
        assert.equal(Buffer.compare(wave.subarray(44), all), 0);
    }
    const sheet = (name, text) => ({ ending: name, size: text.length, blob: async () => new Blob([text]) });
    for (const [name, text, isAudio, isSwapped] of [
        ["cue", 'FILE "a.bin" BINARY\n  TRACK 01 AUDIO\n', true, false],
        ["cue", 'FILE "a.bin" MOTOROLA\r\n  TRACK 01 CDG\r\n', true, true],
        ["cue", 'FILE "a.bin" BINARY\n  TRACK 01 MODE1/2352\n  TRACK 02 AUDIO\n', false, false],
        ["ccd", "[Entry 0]\nPoint=0xa0\nControl=0x04\n[Entry 1]\nPoint=0x01\nControl=0x00\n", true, false],
        ["ccd", "[Entry 0]\nPoint=0x02\nControl=0x04\n[TRACK 1]\nMODE=0\n", false, false],
    ]) {
        assert.deepEqual(await tracksOf(sheet(name, text)), { isAudio, isSwapped }, text);
    }
    assert.deepEqual(await tracksOf(undefined), { isAudio: true, isSwapped: false });
    console.log("test_detect: the sound of images equals the audio of their sectors");
}

/** Noise of any length is not detected as a dump, and a sheet of noise swaps no bytes. */
async function compareNoise(ribjasper) {
    let seed = 3;
    const noise = (size, mask = 255) => Uint8Array.from({ length: size }, () => {
        seed = (Math.imul(seed, 1664525) + 1013904223) >>> 0;
        return (seed >>> 24) & mask;
    });
    for (let round = 0; round < 60; round += 1) {
        const size = [1, 15, 16, 23, 24, 95, 96, 97, 2367, 2368, 2448, 2449, 5000, 9600, 48_960, 150_001][round % 16] + (round >> 4);
        const { found, why } = await formOf(ribjasper, new Blob([noise(size, round % 3 === 0 ? 63 : 255)]));
        assert.equal(found, null, `${size} bytes of noise are ${found?.form.name}`);
        assert.equal(why, "no known form of subcode fits");
        for (const ending of ["cue", "ccd"]) {
            const bytes = noise(500);
            const { isAudio, isSwapped } = await tracksOf({ ending, size: bytes.length, blob: async () => new Blob([bytes]) });
            assert.deepEqual([typeof isAudio, isSwapped], ["boolean", false]);
        }
    }
    assert.equal((await formOf(ribjasper, new Blob([]))).why, "it is empty");
    assert.equal((await formOf(ribjasper, new Blob([new Uint8Array(3_000_000)]))).why, "all its bytes are zeros");
    console.log("test_detect: noise is not detected as a dump");
}

const ribjasper = await load(readFileSync(MODULE));
await compareNoise(ribjasper);
await comparePairs();
await compareSounds();
await compareDumps(ribjasper);
