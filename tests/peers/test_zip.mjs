// Tests the zip reader of the page (examples/web/zip.mjs) in Node. It reads zips of Python's zipfile, valid zips with each feature
// of the format, and invalid ones. An invalid zip may cause only an error that states the reason.
//
//     node tests/peers/test_zip.mjs FOLDER
import assert from "node:assert/strict";
import { spawnSync } from "node:child_process";
import { readFileSync } from "node:fs";
import { join } from "node:path";
import { performance } from "node:perf_hooks";
import { deflateRawSync } from "node:zlib";

import { MOST_UNPACKED, ZipError, isZip, zipFiles } from "../../examples/web/zip.mjs";
import { zipOf } from "./zips.mjs";

const [FOLDER] = process.argv.slice(2);

let seed = 5;
/** A pseudo-random number below a bound, from the example generator of the C standard. */
function randomBelow(bound) {
    seed = (Math.imul(seed, 1103515245) + 12345) >>> 0;
    return (seed >>> 8) % bound;
}

const random = (size) => Buffer.from(Array.from({ length: size }, () => randomBelow(256)));
const song = { name: "a song.cdg", bytes: Buffer.concat([random(3000), Buffer.alloc(90_000, 9)]) };
const sound = { name: "a song.mp3", bytes: random(20_000), stored: true };

async function unpack(bytes) {
    const files = new Map();
    for (const file of await zipFiles(new Blob([bytes]))) {
        files.set(file.name, Buffer.from(await (await file.blob()).arrayBuffer()));
    }
    return files;
}

async function expectSame(bytes, entries, what) {
    const files = await unpack(bytes);
    assert.deepEqual([...files.keys()], entries.map((it) => it.name), what);
    entries.forEach((it) => assert.equal(Buffer.compare(files.get(it.name), it.bytes), 0, `${what}: ${it.name}`));
}

async function validZips() {
    const both = [song, sound];
    await expectSame(zipOf(both), both, "a plain zip");
    await expectSame(zipOf(both, { wide: true }), both, "a zip64");
    await expectSame(zipOf(both, { comment: "made by hand" }), both, "a comment");
    await expectSame(zipOf(both, { comment: "PK\u0005\u0006 is no end".padEnd(40) }), both,
        "a comment with the signature of the end record");
    await expectSame(zipOf(both, { back: Buffer.from("rubbish") }), both, "bytes behind the zip");
    for (const wide of [false, true]) {
        for (const absolute of [false, true]) {
            const front = Buffer.from("#!/bin/sh\nexit 0\n");
            await expectSame(zipOf(both, { front, wide, absolute }), both, `bytes in front, zip64 ${wide}, moved ${absolute}`);
        }
    }
    const empty = { name: "empty.txt", bytes: Buffer.alloc(0) };
    await expectSame(zipOf([empty, song]), [empty, song], "an empty file");
    assert.equal((await unpack(zipOf([]))).size, 0);
    const mac = [{ name: "__MACOSX/._x.cdg", bytes: random(100) }, { name: "x/", bytes: Buffer.alloc(0) },
        { name: "x/._x.cdg", bytes: random(9) }, { name: "x/.DS_Store", bytes: random(9) }, { name: "x/x.cdg", bytes: song.bytes }];
    await expectSame(zipOf(mac), mac.slice(4), "the files that macOS adds");
    assert.deepEqual(await Promise.all([zipOf(both), random(5000), Buffer.alloc(0)].map((it) => isZip(new Blob([it])))), [true, false, false]);
}

/** The reader reads Python's zips: those written to a file, and those written as a stream, with sizes behind the data. */
async function zipsOfPython() {
    const script = `
import sys, zipfile
class Stream:
    def __init__(self, file): self.file = file
    def write(self, data): return self.file.write(data)
    def flush(self): pass
for name, wide, streams in (("plain", 0, 0), ("wide", 1, 0), ("streamed", 0, 1)):
    with open(f"{name}.zip", "wb") as out:
        with zipfile.ZipFile(Stream(out) if streams else out, "w", zipfile.ZIP_DEFLATED) as made:
            for k in range(3):
                with made.open(f"folder/t\u00e9st {k}.cdg", "w", force_zip64=bool(wide)) as file:
                    file.write(bytes((7 * i * i + k) % 251 for i in range(60000)))
`;
    const result = spawnSync("python3", ["-c", script], { cwd: FOLDER, encoding: "utf8" });
    assert.equal(result.status, 0, result.stderr);
    const expected = [0, 1, 2].map((k) => ({
        name: `folder/tést ${k}.cdg`, bytes: Buffer.from(Array.from({ length: 60_000 }, (_, i) => (7 * i * i + k) % 251)),
    }));
    for (const name of ["plain", "wide", "streamed"]) {
        await expectSame(readFileSync(join(FOLDER, `${name}.zip`)), expected, `Python's ${name}.zip`);
    }
}

async function expectRefused(bytes, reason, what) {
    await assert.rejects(async () => unpack(bytes), (error) => error instanceof ZipError && reason.test(error.message), what);
}

async function invalidZips() {
    await expectRefused(zipOf([{ ...song, crc: 7 }]), /a song\.cdg is damaged: its checksum/, "a wrong CRC");
    await expectRefused(zipOf([{ ...sound, crc: 7 }]), /a song\.mp3 is damaged: its checksum/, "a wrong CRC of a stored file");
    const packed = deflateRawSync(song.bytes);
    await expectRefused(zipOf([{ ...song, packed: packed.subarray(0, 900) }]), /a song\.cdg is (damaged|shorter)/, "truncated data");
    await expectRefused(zipOf([{ ...song, packed: random(4000) }]), /a song\.cdg is /, "data that are not DEFLATE");
    await expectRefused(zipOf([{ ...song, flags: 1 }]), /a song\.cdg is encrypted/, "an encrypted file");
    await expectRefused(zipOf([{ ...song, method: 12 }]), /a song\.cdg is compressed by bzip2/, "bzip2");
    await expectRefused(zipOf([{ ...song, method: 77 }]), /a song\.cdg is compressed by method 77/, "an unknown method");
    await expectRefused(zipOf([{ ...song, size: song.bytes.length - 1 }]), /longer than the directory/, "a size that is too small");
    await expectRefused(zipOf([{ ...song, size: song.bytes.length + 1 }]), /shorter than the directory/, "a size that is too large");
    await expectRefused(zipOf([{ ...song, header: 0 }]), /not where the directory/, "no file header at the offset of the directory");
    await expectRefused(zipOf([song, sound]).subarray(0, 2000), /no directory/, "a truncated zip");
    await expectRefused(zipOf([song, sound]).subarray(500), /cut off|not where/, "a zip without its beginning");
    // One unreadable file leaves the other files readable.
    const files = await zipFiles(new Blob([zipOf([{ ...sound, name: "x.txt", method: 98 }, song])]));
    assert.match(files[0].why, /PPMd/);
    assert.equal(files[1].why, "");
    assert.equal((await files[1].blob()).size, song.bytes.length);
}

/** Files that unpack to a thousand times their packed size. If the directory states the size, they are refused at once; if it states
 * a smaller size, they are refused when they exceed it. */
async function bombs() {
    const packed = deflateRawSync(Buffer.alloc(2 ** 28));
    const name = "bomb.cdg";
    const before = performance.now();
    await expectRefused(zipOf([{ name, bytes: Buffer.alloc(0), packed, size: 2 ** 30 }]), /would unpack to 1024 MB/, "a bomb");
    assert.ok(MOST_UNPACKED < 2 ** 30);
    await expectRefused(zipOf([{ name, bytes: Buffer.alloc(0), packed, size: 2400 }]), /longer than the directory/,
        "a bomb with a false size");
    await expectRefused(zipOf([{ name, bytes: Buffer.alloc(0), packed, size: 2 ** 52 }], { wide: true }), /would unpack/, "a huge bomb");
    assert.ok(performance.now() - before < 60_000, "bombs are refused within a minute");
    assert.ok(process.memoryUsage().rss < 2 ** 30);
    // Any number of files may share their bytes. So the size of the directory is limited, and only files that are played are unpacked.
    const many = Array.from({ length: 66_000 }, (_, k) => ({ name: `${k}`, bytes: Buffer.alloc(0), stored: true }));
    await expectRefused(zipOf(many.slice(0, 65_535), { wide: true }).subarray(0, 5000), /no directory/, "many files, truncated");
    await assert.rejects(zipFiles(new Blob([zipOf(many, { wide: true })])), /too long: 66000 files/);
}

/** After random changes of a zip, its files are read unchanged, or refused. */
async function damagedZips() {
    const whole = { plain: zipOf([song, sound]), wide: zipOf([song, sound], { wide: true }) };
    let [same, refused] = [0, 0];
    for (let round = 0; round < 600; round += 1) {
        const bytes = Buffer.from(round % 2 ? whole.plain : whole.wide);
        // Most changes hit the directory and the headers.
        const places = [() => bytes.length - 1 - randomBelow(400), () => randomBelow(60), () => randomBelow(bytes.length)];
        for (let k = 0; k <= randomBelow(3); k += 1) {
            bytes[places[randomBelow(3)]()] = randomBelow(256);
        }
        try {
            const files = await unpack(round % 5 ? bytes : bytes.subarray(0, randomBelow(bytes.length)));
            for (const file of files.values()) {
                assert.ok([song, sound].some((it) => it.bytes.equals(file)) || file.length === 0, `round ${round}`);
            }
            same += 1;
        } catch (error) {
            assert.ok(error instanceof ZipError, `round ${round}: ${error.stack}`);
            refused += 1;
        }
    }
    assert.ok(same > 20 && refused > 100);
    return { same, refused };
}

await validZips();
await zipsOfPython();
await invalidZips();
await bombs();
const { same, refused } = await damagedZips();
console.log("test_zip: valid zips are read, invalid ones and bombs are refused; " +
    `of 600 damaged zips, ${same} are read unchanged and ${refused} are refused`);
