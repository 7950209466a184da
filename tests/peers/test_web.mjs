// Compares the module for web pages with the program: screens, packs, surveys and checkpoints must have the same bytes.
//
//     node [--experimental-wasm-memory64] tests/peers/test_web.mjs PROGRAM MODULE FOLDER [measure]
//
// PROGRAM is bin/ribjasper, MODULE lib/web/ribjasper.wasm, FOLDER an empty folder to work in. With `measure`, the test also decodes
// an hour of stream, and prints its times beside those of tests/peers/plain_player.mjs.
import assert from "node:assert/strict";
import { execFileSync } from "node:child_process";
import { readFileSync, writeFileSync } from "node:fs";
import { dirname, join } from "node:path";
import { performance } from "node:perf_hooks";
import { fileURLToPath } from "node:url";

import * as library from "../../web/ribjasper.mjs";
import { BLOCK_BYTES, FILE_BYTES, PACK_BYTES, Player, SECTOR_BYTES, Seeker, Survey, load } from "../../web/ribjasper.mjs";
import { PlainPlayer } from "./plain_player.mjs";

const TOP = join(dirname(fileURLToPath(import.meta.url)), "..", "..");
const [PROGRAM, MODULE, FOLDER, MEASURE] = process.argv.slice(2);
const LEAD_IN = 300;

function run(input, ...words) {
    return execFileSync(PROGRAM, words, { input, cwd: FOLDER, maxBuffer: 1 << 30 });
}

function time(blocks) {
    const two = (n) => String(n).padStart(2, "0");
    return `${two(Math.floor(blocks / 4500))}:${two(Math.floor(blocks / 75) % 60)}:${two(blocks % 75)}`;
}

/** The bytes of the picture from the program, without its header. */
function screenOf(stream, at, ...options) {
    const pixmap = run(stream, "screen", ...options, "--at", time(at));
    return pixmap.subarray("P6\n300 216\n255\n".length);
}

/** Red, green and blue of a picture with four bytes per pixel. The fourth byte, opacity, must be 255. */
function withoutAlpha(picture) {
    const bytes = Buffer.alloc((picture.length / 4) * 3);
    for (let pixel = 0; pixel < picture.length / 4; pixel += 1) {
        bytes.set(picture.subarray(4 * pixel, 4 * pixel + 3), 3 * pixel);
        assert.equal(picture[4 * pixel + 3], 255);
    }
    return bytes;
}

function same(one, other, what) {
    assert.equal(Buffer.compare(Buffer.from(one), Buffer.from(other)), 0, what);
}

/** The stream of the tour's disc, and the same stream scratched. */
function makeStreams() {
    for (const name of ["hello.cue", "hello.script"]) {
        writeFileSync(join(FOLDER, name), readFileSync(join(TOP, "examples", name)));
    }
    const disc = ["--lead-in", `${LEAD_IN}`, "--length", "00:22:00"];
    const whole = run("", "author", ...disc, "--", "hello.cue", "hello.script");
    const scratched = run(whole, "scratch", "--lead-in", `${LEAD_IN}`, "--seed", "3");
    return { whole, scratched };
}

function compareScreens(ribjasper, stream, name, count) {
    const player = ribjasper.player({ leadIn: LEAD_IN });
    const program = stream.length / BLOCK_BYTES - LEAD_IN;
    let fed = 0;
    for (let k = 1; k <= count; k += 1) {
        const at = Math.min(program, Math.floor((k * program) / count) - (k % 7));
        const upTo = BLOCK_BYTES * (LEAD_IN + at);
        player.feedAll(stream.subarray(fed, upTo));
        fed = upTo;
        const expected = screenOf(stream, at, "--lead-in", `${LEAD_IN}`);
        same(withoutAlpha(player.picture()), expected, `the screen of ${name} at block ${at}`);
    }
    player.close();
    console.log(`test_web: ${count} screens of ${name} equal the program's`);
}

function comparePacks(ribjasper, stream) {
    const expected = run(stream, "convert", "--lead-in", `${LEAD_IN}`);
    const { packs, bad } = ribjasper.convert(stream, { leadIn: LEAD_IN });
    same(packs, expected, "the packs of convert");
    const report = run(stream, "check", "--lead-in", `${LEAD_IN}`).toString();
    const numbers = new Map(report.trim().split("\n").map((line) => line.split(" ")));
    const sums = ribjasper.survey(stream, { leadIn: LEAD_IN }).sums();
    assert.deepEqual(
        ["clean", "one", "two", "bad", "q-good", "q-bad"].map((word) => Number(numbers.get(word))),
        [sums.clean, sums.one, sums.two, sums.bad, sums.frames, sums.badFrames],
    );
    assert.equal(bad, sums.bad);
    const fed = ribjasper.player({ leadIn: LEAD_IN });
    fed.feedAll(stream);
    const blocks = stream.length / BLOCK_BYTES;
    assert.deepEqual(fed.counts(),
        { form: "raw", leadIn: LEAD_IN, blocks, words: 4 * (blocks - LEAD_IN) - 7, bad: Number(numbers.get("bad")) });
    fed.begin({ form: "packs", leadIn: 2 });
    fed.feedAll(stream.subarray(0, 5 * BLOCK_BYTES));
    assert.deepEqual([fed.counts().form, fed.counts().blocks, fed.counts().words], ["packs", 5, 12]);
    fed.close();
    // The command `thin` makes exactly those packs idle that change nothing.
    const thin = run(expected, "thin");
    const player = ribjasper.player();
    for (let at = 0; at < packs.length; at += PACK_BYTES) {
        const pack = packs.subarray(at, at + PACK_BYTES);
        const kept = player.changes(pack) ? pack : new Uint8Array(PACK_BYTES);
        same(kept, thin.subarray(at, at + PACK_BYTES), `the pack at ${at} of thin`);
        player.draw(pack);
    }
    // The drawn packs show the same picture as the stream.
    const program = stream.length / BLOCK_BYTES - LEAD_IN;
    const drawn = ribjasper.player();
    assert.equal(drawn.drawAll(packs), packs.length / PACK_BYTES);
    same(withoutAlpha(drawn.picture()), screenOf(stream, program, "--lead-in", `${LEAD_IN}`), "the picture of drawn packs");
    same(player.screen(), drawn.screen(), "packs drawn one by one");
    for (const it of [player, drawn]) {
        it.close();
    }
    console.log("test_web: the packs of convert and thin, and the numbers of check, equal the program's");
}

function compareForms(ribjasper, stream) {
    const sectors = Buffer.alloc((stream.length / BLOCK_BYTES) * SECTOR_BYTES, 0x5a);
    for (let b = 0; b < stream.length / BLOCK_BYTES; b += 1) {
        stream.copy(sectors, SECTOR_BYTES * b + SECTOR_BYTES - BLOCK_BYTES, BLOCK_BYTES * b, BLOCK_BYTES * (b + 1));
    }
    const one = ribjasper.player({ leadIn: LEAD_IN });
    const other = ribjasper.player({ leadIn: LEAD_IN });
    assert.equal(one.feedAll(sectors, "sectors"), other.feedAll(stream));
    same(one.screen(), other.screen(), "sectors and blocks");
    same(ribjasper.convert(sectors, { form: "sectors", leadIn: LEAD_IN }).packs,
        ribjasper.convert(stream, { leadIn: LEAD_IN }).packs, "the packs of sectors and of blocks");
    const planar = run(stream, "planar");
    same(ribjasper.fromPlanar(planar), stream, "the planar form");
    const third = ribjasper.player({ leadIn: LEAD_IN });
    assert.equal(third.feedAll(planar, "planar"), stream.length / BLOCK_BYTES);
    same(third.save(), other.save(), "planar blocks and raw ones");
    same(ribjasper.convert(planar, { form: "planar", leadIn: LEAD_IN }).packs,
        ribjasper.convert(stream, { leadIn: LEAD_IN }).packs, "the packs of planar blocks and of raw ones");
    assert.deepEqual(ribjasper.survey(planar, { form: "planar", leadIn: LEAD_IN }).sums(),
        ribjasper.survey(stream, { leadIn: LEAD_IN }).sums());
    // An ArrayBuffer, a Buffer and a Uint8ClampedArray are accepted as bytes too.
    const buffer = Uint8Array.from(stream).buffer;
    for (const bytes of [buffer, new Uint8ClampedArray(buffer), Buffer.from(buffer)]) {
        third.begin({ leadIn: LEAD_IN });
        assert.equal(third.feedAll(bytes), stream.length / BLOCK_BYTES);
        same(third.save(), other.save(), "bytes of another kind");
    }
    [one, other, third].forEach((it) => it.close());
    console.log("test_web: sectors, blocks and planar blocks have the same results");
}

/** `converting` and `surveying` work in parts, and have the results of `convert` and `survey` for each form and lead-in. */
function compareParts(ribjasper, stream) {
    const long = Buffer.concat([stream, stream, stream.subarray(0, BLOCK_BYTES * 77)]);
    const sectors = Buffer.alloc((long.length / BLOCK_BYTES) * SECTOR_BYTES);
    for (let b = 0; b < long.length / BLOCK_BYTES; b += 1) {
        long.copy(sectors, SECTOR_BYTES * (b + 1) - BLOCK_BYTES, BLOCK_BYTES * b, BLOCK_BYTES * (b + 1));
    }
    for (const [bytes, form] of [[long, "raw"], [long, "packs"], [sectors, "sectors"], [long, "planar"]]) {
        for (const leadIn of [0, 1, 300, 383, 384, 385, 3072, 3073, long.length / BLOCK_BYTES, 400_000]) {
            const options = { form, leadIn };
            const whole = ribjasper.convert(bytes, options);
            const parts = [...ribjasper.converting(bytes, options)];
            same(Buffer.concat(parts.map((it) => it.packs)), whole.packs, `packs of ${form} in parts`);
            assert.deepEqual([parts.at(-1).done, parts.at(-1).of, parts.at(-1).bad], [bytes.length / (form === "sectors" ? SECTOR_BYTES
                : BLOCK_BYTES), parts.at(-1).done, whole.bad]);
            const work = ribjasper.surveying(bytes, options);
            let step = work.next();
            while (!step.done) {
                step = work.next();
            }
            const [survey, atOnce] = [step.value, ribjasper.survey(bytes, options)];
            assert.equal(survey.length, atOnce.length);
            for (let b = 0; b < survey.length; b += 1) {
                assert.deepEqual([survey.words(b), survey.frame(b), survey.isEmpty(b)], [atOnce.words(b), atOnce.frame(b), atOnce.isEmpty(b)],
                    `row ${b} of ${form} behind ${leadIn}`);
            }
        }
    }
    console.log("test_web: convert and survey have the same results in parts, for four forms and ten lead-ins");
}

/** A seeker shows at each place the picture of a player that was fed from the beginning, with any number of marks. */
function compareSeeking(ribjasper, stream, packs) {
    const planar = run(stream, "planar");
    let seed = 11;
    for (const [bytes, form, unit] of [[stream, "raw", BLOCK_BYTES], [planar, "planar", BLOCK_BYTES], [packs, "cdg", PACK_BYTES],
        [packs.subarray(0, packs.length - (packs.length % BLOCK_BYTES)), "packs", BLOCK_BYTES]]) {
        const leadIn = form === "cdg" ? 0 : LEAD_IN;
        for (const marks of [0, 1, 3, 128]) {
            const seeker = ribjasper.seeker(bytes, { form, leadIn, marks });
            const player = ribjasper.player({ form: form === "packs" ? "packs" : "raw", leadIn });
            assert.equal(seeker.length, Math.floor(bytes.length / unit));
            for (let round = 0; round < 25; round += 1) {
                seed = (Math.imul(seed, 1664525) + 1013904223) >>> 0;
                const to = round === 0 ? seeker.length : seed % (seeker.length + 1);
                seeker.seek(to);
                player.begin({ form: form === "packs" ? "packs" : "raw", leadIn });
                const before = bytes.subarray(0, unit * to);
                if (form === "cdg") {
                    player.drawAll(before);
                } else {
                    player.feedAll(before, form);
                }
                assert.equal(seeker.position, to);
                same(seeker.player.screen(), player.screen(), `the screen at ${to} of ${form}`);
                assert.deepEqual([seeker.player.shown(), seeker.player.counts()], [player.shown(), player.counts()]);
            }
            seeker.close();
            player.close();
        }
    }
    console.log("test_web: seeking to 400 places shows the same pictures as feeding from the beginning");
}

/** `update` returns the smallest rectangle of changes, opacity follows the levels, and a returned picture stays unchanged. */
function comparePictures(ribjasper, packs) {
    const player = ribjasper.player();
    const image = { data: new Uint8ClampedArray(4 * 300 * 216), width: 300, height: 216 };
    const opaque = player.picture();
    assert.deepEqual(player.update(image), { x: 0, y: 0, width: 300, height: 216 });
    assert.equal(player.update(image), null);
    let changes = 0;
    for (let at = 0; at < packs.length; at += 7 * PACK_BYTES) {
        const before = new Uint32Array(Uint8Array.from(image.data).buffer);
        player.drawAll(packs.subarray(at, at + 7 * PACK_BYTES));
        const rect = player.update(image);
        same(image.data, player.picture(), "an updated image");
        // The expected rectangle is computed from the columns and rows of all pixels that differ.
        const after = new Uint32Array(Uint8Array.from(image.data).buffer);
        const differs = Array.from({ length: 300 * 216 }, (_, k) => k).filter((k) => before[k] !== after[k]);
        const [across, down] = [differs.map((k) => k % 300), differs.map((k) => Math.floor(k / 300))];
        const low = (list) => list.reduce((a, b) => Math.min(a, b), 1000);
        const high = (list) => list.reduce((a, b) => Math.max(a, b), -1);
        assert.deepEqual(rect, differs.length === 0 ? null
            : { x: low(across), y: low(down), width: high(across) - low(across) + 1, height: high(down) - low(down) + 1 });
        changes += differs.length === 0 ? 0 : 1;
    }
    assert.ok(changes > 20);
    // Levels 0 to 63 in turn: opacity is 255 - (4 L + L / 16).
    const levels = Uint8Array.from({ length: PACK_BYTES }, (_, k) => (k < 2 ? [9, 28][k] : k >= 4 && k < 20 ? [0, 1, 15, 16, 31, 32, 33,
        47, 48, 62, 63, 5, 7, 9, 11, 13][k - 4] : 0));
    player.draw(levels);
    const [shown, screen] = [player.shown(), player.screen()];
    const clear = [shown.border, 3];
    for (const options of [{ levels: true }, { clear }, { levels: true, clear }, {}]) {
        const picture = player.picture(undefined, options);
        screen.forEach((colour, k) => {
            const level = shown.levels[colour];
            const expected = options.clear?.includes(colour) ? 0 : options.levels ? 255 - (4 * level + Math.floor(level / 16)) : 255;
            assert.equal(picture[4 * k + 3], expected);
        });
        same(withoutOpacity(picture), withoutOpacity(opaquePicture(player)), "the colours of a clear picture");
    }
    // The memory grows while the picture is in use.
    const kept = player.picture();
    const before = Uint8Array.from(kept);
    const more = Array.from({ length: 40 }, () => ribjasper.player());
    ribjasper.survey(new Uint8Array(BLOCK_BYTES * 50_000));
    same(kept, before, "a picture that is kept while memory grows");
    assert.equal(kept.length, 4 * 300 * 216);
    assert.equal(opaque, kept, "each player has one array for its picture");
    [player, ...more].forEach((it) => it.close());
    console.log(`test_web: ${changes} changed rectangles, opacity and kept pictures are right`);
}

const opaquePicture = (player) => Uint8Array.from(player.picture());

function withoutOpacity(picture) {
    return picture.filter((_, k) => k % 4 !== 3);
}

/** A seeker also seeks in sectors and reuses its marks. A closed seeker refuses calls and has freed all its memory. */
function compareSeekers(ribjasper, stream, packs) {
    const sectors = new Uint8Array((stream.length / BLOCK_BYTES) * SECTOR_BYTES).fill(0x77);
    for (let b = 0; b < stream.length / BLOCK_BYTES; b += 1) {
        sectors.set(stream.subarray(BLOCK_BYTES * b, BLOCK_BYTES * (b + 1)), SECTOR_BYTES * (b + 1) - BLOCK_BYTES);
    }
    const [one, other] = [ribjasper.seeker(sectors, { form: "sectors", leadIn: LEAD_IN }), ribjasper.seeker(stream, { leadIn: LEAD_IN })];
    for (const to of [0, 1, 749, 750, 751, 1600, 1599, 3, one.length, one.length - 1, 1500]) {
        [one, other].forEach((it) => it.seek(to));
        same(one.player.screen(), other.player.screen(), `the screen of sectors at ${to}`);
        assert.deepEqual(one.player.counts(), other.player.counts());
    }
    // A seeker copies its data, so the caller may change them afterwards.
    const bytes = Uint8Array.from(packs);
    const seeker = ribjasper.seeker(bytes, { form: "cdg" });
    bytes.fill(0);
    seeker.seek(seeker.length);
    const player = ribjasper.player();
    player.drawAll(packs);
    same(seeker.player.screen(), player.screen(), "packs that were overwritten afterwards");
    [one, other, seeker].forEach((it) => it.close());
    assert.throws(() => seeker.seek(1), /closed/);
    seeker.close();
    const sizes = Array.from({ length: 6 }, () => {
        const more = ribjasper.seeker(sectors, { form: "sectors" });
        more.seek(more.length);
        more.close();
        return ribjasper.memoryBytes;
    });
    assert.equal(new Set(sizes).size, 1, `seekers leak memory: ${sizes}`);
    player.close();
    console.log("test_web: a seeker seeks in sectors as in raw blocks, copies its data, and frees its memory");
}

/** The reported change contains every changed pixel, and feeding or drawing has the same effect as without the report. */
function compareChanges(ribjasper, stream, packs) {
    const planar = run(stream, "planar");
    const [one, other] = [ribjasper.player({ leadIn: LEAD_IN }), ribjasper.player({ leadIn: LEAD_IN })];
    const isEqualOutside = (before, after, { rectangle, colours, levels }) => before.every((pixel, k) => {
        const [x, y] = [k % 300, Math.floor(k / 300)];
        return pixel === after[k] || (rectangle !== null && x >= rectangle.x && x < rectangle.x + rectangle.width
            && y >= rectangle.y && y < rectangle.y + rectangle.height);
    }) && typeof colours === "boolean" && typeof levels === "boolean";
    let changes = 0;
    for (const [bytes, form] of [[stream, "raw"], [planar, "planar"]]) {
        [one, other].forEach((it) => it.begin({ leadIn: LEAD_IN }));
        for (let at = 0; at < bytes.length; at += 97 * BLOCK_BYTES) {
            const [piece, before, table] = [bytes.subarray(at, at + 97 * BLOCK_BYTES), one.screen(), one.shown().colours];
            const change = one.feedChanges(piece, form);
            assert.equal(change.count, other.feedAll(piece, form));
            const after = one.screen();
            same(after, other.screen(), `feedChanges of ${form} at ${at}`);
            assert.ok(isEqualOutside(before, after, change), `the change of ${form} at ${at}`);
            assert.ok(change.colours || table.every((it, k) => it === one.shown().colours[k]), "colours that changed");
            changes += change.rectangle === null ? 0 : 1;
        }
    }
    [one, other].forEach((it) => it.begin());
    for (let at = 0; at < packs.length; at += 31 * PACK_BYTES) {
        const [piece, before] = [packs.subarray(at, at + 31 * PACK_BYTES), one.screen()];
        const change = one.drawChanges(piece);
        assert.equal(change.count, other.drawAll(piece));
        same(one.screen(), other.screen(), `drawChanges at ${at}`);
        assert.ok(isEqualOutside(before, one.screen(), change), `the change at ${at}`);
        changes += change.rectangle === null ? 0 : 1;
    }
    assert.ok(changes > 20);
    const pack = (...symbols) => Uint8Array.from({ length: PACK_BYTES }, (_, k) => symbols[k] ?? 0);
    const nothing = { rectangle: null, colours: false, levels: false };
    assert.deepEqual(one.drawChanges(new Uint8Array(0)), { count: 0, ...nothing });
    assert.deepEqual(one.feedChanges(new Uint8Array(95)), { count: 0, ...nothing });
    one.begin();
    // One tile at row 3 and column 5, then one at row 7 and column 9; a tile has six by twelve pixels.
    const tiles = [pack(9, 6, 0, 0, 1, 2, 3, 5), pack(9, 38, 0, 0, 1, 2, 7, 9)];
    assert.deepEqual(one.drawChanges(tiles[0]), { count: 1, ...nothing, rectangle: { x: 30, y: 36, width: 6, height: 12 } });
    const both = Uint8Array.from([...tiles[0], ...tiles[1]]);
    assert.deepEqual(one.drawChanges(both), { count: 2, ...nothing, rectangle: { x: 30, y: 36, width: 30, height: 60 } });
    assert.deepEqual(one.drawChanges(pack(9, 30)), { count: 1, ...nothing, colours: true });
    assert.deepEqual(one.drawChanges(pack(9, 28)), { count: 1, ...nothing, levels: true });
    // More packs than the module reads at a time; the first and the last one draw.
    const many = new Uint8Array(PACK_BYTES * 90_000);
    many.set(tiles[0], 0);
    many.set(tiles[1], many.length - PACK_BYTES);
    assert.deepEqual(one.drawChanges(many), { count: 90_000, ...nothing, rectangle: { x: 30, y: 36, width: 30, height: 60 } });
    [one, other].forEach((it) => it.close());
    console.log(`test_web: ${changes} reported changes contain each changed pixel`);
}

/** `parity` counts packs with valid parity, and `seal` writes parity: it restores removed parity of the program's packs. */
function compareParity(ribjasper, packs) {
    const [count, upper] = [packs.length / PACK_BYTES, packs.map((byte, k) => byte | (64 * (k % 4)))];
    const idle = Array.from({ length: count }, (_, k) => packs.subarray(PACK_BYTES * k, PACK_BYTES * (k + 1)))
        .filter((pack) => pack.every((byte) => byte === 0)).length;
    assert.deepEqual(ribjasper.parity(packs), { idle, valid: count - idle, invalid: 0 });
    assert.deepEqual(ribjasper.parity(upper), { idle, valid: count - idle, invalid: 0 });
    const bare = packs.map((byte, k) => ([2, 3, 20, 21, 22, 23].includes(k % PACK_BYTES) ? 0 : byte));
    assert.deepEqual(ribjasper.parity(bare), { idle, valid: 0, invalid: count - idle });
    const before = Uint8Array.from(bare);
    same(ribjasper.seal(bare), packs, "sealed packs");
    same(bare, before, "`seal` writes to a copy");
    same(ribjasper.seal(upper), packs, "packs with upper bits");
    const many = new Uint8Array(PACK_BYTES * 100_000);
    many.set(bare, many.length - bare.length);
    assert.deepEqual(ribjasper.parity(many), { idle: 100_000 - count + idle, valid: 0, invalid: count - idle });
    same(ribjasper.seal(many).subarray(many.length - bare.length), packs, "the last of many packs");
    // Fed as blocks, packs without parity draw nothing, and sealed packs draw the same as `drawAll`.
    const blocks = bare.subarray(0, bare.length - (bare.length % BLOCK_BYTES));
    const [player, drawn] = [ribjasper.player({ form: "packs" }), ribjasper.player()];
    const black = drawn.screen();
    drawn.drawAll(blocks);
    player.feedAll(blocks, "packs");
    same(player.screen(), black, "packs without parity");
    player.begin({ form: "packs" });
    player.feedAll(ribjasper.seal(blocks), "packs");
    same(player.screen(), drawn.screen(), "sealed packs as blocks");
    assert.equal(player.counts().bad, 0);
    assert.deepEqual(ribjasper.parity(new ArrayBuffer(0)), { idle: 0, valid: 0, invalid: 0 });
    [player, drawn].forEach((it) => it.close());
    console.log(`test_web: the parity of ${count} packs is counted and written`);
}

/** The memory of closed objects is reused, so it does not grow over time. */
async function compareMemory(module) {
    const ribjasper = await load(module);
    const dump = new Uint8Array(BLOCK_BYTES * 100_000);
    const sizes = [];
    for (let round = 0; round < 8; round += 1) {
        ribjasper.survey(dump);
        const players = Array.from({ length: 20 }, () => ribjasper.player());
        ribjasper.convert(dump.subarray(0, BLOCK_BYTES * 5000));
        ribjasper.mendReadings([dump, dump]);
        // Every second player is closed first, so that free memory is split and joined.
        players.filter((_, k) => k % 2 === round % 2).forEach((it) => it.close());
        ribjasper.survey(dump.subarray(0, BLOCK_BYTES * 1000 * (round + 1)));
        players.forEach((it) => it.close());
        sizes.push(ribjasper.memoryBytes);
    }
    assert.equal(new Set(sizes.slice(1)).size, 1, `memory grows: ${sizes}`);
    console.log(`test_web: memory stays at ${sizes[1]} bytes while objects are made and closed`);
}

/** A call with a wrong argument throws an error that names the argument, and changes nothing. */
async function refuseArguments(ribjasper, module) {
    const player = ribjasper.player();
    const other = (await load(module)).player();
    const survey = ribjasper.survey(new Uint8Array(BLOCK_BYTES));
    const block = new Uint8Array(BLOCK_BYTES);
    const pack = new Uint8Array(PACK_BYTES);
    const before = player.save();
    const detached = new ArrayBuffer(BLOCK_BYTES);
    structuredClone(detached, { transfer: [detached] });
    const wrongTypes = [undefined, null, 7, "abc", [1, 2], {}, new Uint16Array(48), new DataView(new ArrayBuffer(96)),
        new Float64Array(12)];
    const callsWithBytes = {
        stream: [(it) => player.feedAll(it), (it) => player.feedChanges(it), (it) => ribjasper.survey(it), (it) => ribjasper.convert(it),
            (it) => ribjasper.seeker(it), (it) => [...ribjasper.converting(it)], (it) => [...ribjasper.surveying(it)]],
        packs: [(it) => player.drawAll(it), (it) => player.drawChanges(it), (it) => ribjasper.parity(it), (it) => ribjasper.seal(it)],
        planar: [(it) => ribjasper.fromPlanar(it)],
        block: [(it) => player.feed(it), (it) => player.take(it), (it) => ribjasper.textPacks(it)],
        pack: [(it) => player.draw(it), (it) => player.changes(it), (it) => ribjasper.touches(it)],
        file: [(it) => player.load(it)],
        bytes: [(it) => new Survey(it)],
        "readings\\[0\\]": [(it) => ribjasper.mendReadings([it])],
    };
    let tries = 0;
    const expectRefused = (work, kind, name, what) => {
        tries += 1;
        assert.throws(work, (error) => error instanceof kind && new RegExp(`^${name}: `).test(error.message), `${name}: ${what}`);
    };
    for (const [name, calls] of Object.entries(callsWithBytes)) {
        for (const call of calls) {
            wrongTypes.forEach((it) => expectRefused(() => call(it), TypeError, name, String(it)));
        }
    }
    if (detached.detached === true) {
        expectRefused(() => player.feedAll(detached), TypeError, "stream", "a detached buffer");
    }
    for (const size of [0, 95, 97]) {
        callsWithBytes.block.forEach((call) => expectRefused(() => call(new Uint8Array(size)), RangeError, "block", size));
    }
    for (const size of [0, 23, 25]) {
        callsWithBytes.pack.forEach((call) => expectRefused(() => call(new Uint8Array(size)), RangeError, "pack", size));
    }
    expectRefused(() => player.load(new Uint8Array(FILE_BYTES)), RangeError, "file", "zeros");
    expectRefused(() => ribjasper.convert(block.subarray(1)), RangeError, "stream", "a torn stream");
    const callsWithOptions = [(it) => ribjasper.player(it), (it) => player.begin(it), (it) => ribjasper.survey(block, it),
        (it) => ribjasper.convert(block, it), (it) => ribjasper.seeker(block, it)];
    for (const call of callsWithOptions) {
        [-1, 0.5, NaN, Infinity, 2 ** 32, 450_001].forEach((leadIn) => expectRefused(() => call({ leadIn }), RangeError, "leadIn", leadIn));
        ["3", null, 3n, {}].forEach((leadIn) => expectRefused(() => call({ leadIn }), TypeError, "leadIn", String(leadIn)));
        ["Raw", "", "plannar", "constructor", "__proto__"].forEach((form) => expectRefused(() => call({ form }), RangeError, "form", form));
        [0, null, {}].forEach((form) => expectRefused(() => call({ form }), TypeError, "form", String(form)));
        [null, 3, "raw"].forEach((it) => expectRefused(() => call(it), TypeError, "options", String(it)));
    }
    ["sectors", "planar", "cdg"].forEach((form) => expectRefused(() => ribjasper.player({ form }), RangeError, "form", form));
    expectRefused(() => player.feedAll(block, "cdg"), RangeError, "form", "cdg");
    ["cdg", "Raw", ""].forEach((form) => expectRefused(() => player.feedChanges(block, form), RangeError, "form", form));
    [0, null].forEach((form) => expectRefused(() => player.feedChanges(block, form), TypeError, "form", String(form)));
    for (const size of [1, 23, 25]) {
        expectRefused(() => ribjasper.parity(new Uint8Array(size)), RangeError, "packs", size);
        expectRefused(() => ribjasper.seal(new Uint8Array(size)), RangeError, "packs", size);
    }
    expectRefused(() => ribjasper.seeker(pack, { form: "cdg", leadIn: 1 }), RangeError, "leadIn", "of a .cdg file");
    expectRefused(() => ribjasper.seeker(pack, { form: "cdg", marks: -1 }), RangeError, "marks", -1);
    expectRefused(() => ribjasper.mendReadings(block), TypeError, "readings", "bytes");
    expectRefused(() => ribjasper.mendReadings([block], { leadIn: 2 ** 32 }), RangeError, "leadIn", 2 ** 32);
    [null, {}, block, { data: [] }].forEach((it) => {
        expectRefused(() => player.picture(it), TypeError, "image", String(it));
        expectRefused(() => player.update(it), TypeError, "image", String(it));
    });
    expectRefused(() => player.update(undefined), TypeError, "image", "none");
    expectRefused(() => player.picture({ data: new Uint8Array(4) }), RangeError, "image", "four bytes");
    const turned = { data: new Uint8ClampedArray(4 * 300 * 216), width: 216, height: 300 };
    expectRefused(() => player.picture(turned), RangeError, "image", "216 by 300");
    expectRefused(() => player.picture(undefined, { levels: 1 }), TypeError, "levels", 1);
    expectRefused(() => player.picture(undefined, { clear: 1 }), TypeError, "clear", 1);
    expectRefused(() => player.picture(undefined, { clear: [16] }), RangeError, "clear\\[0\\]", 16);
    [null, {}, survey].forEach((it) => expectRefused(() => player.copyFrom(it), TypeError, "other", String(it)));
    expectRefused(() => player.copyFrom(other), RangeError, "other", "of another module");
    for (const call of [(it) => survey.words(it), (it) => survey.frame(it), (it) => survey.isEmpty(it)]) {
        [-1, 1, 0.5, NaN].forEach((it) => expectRefused(() => call(it), RangeError, "block", it));
        expectRefused(() => call("0"), TypeError, "block", "0");
    }
    expectRefused(() => new Survey(new Uint8Array(11)), RangeError, "bytes", 11);
    [-1, 2, 0.5].forEach((it) => expectRefused(() => ribjasper.seeker(block).seek(it), RangeError, "position", it));
    assert.throws(() => new Player({}, {}), TypeError);
    assert.throws(() => new Seeker({}, block, {}), TypeError);
    for (const it of [null, 3, "ribjasper.wasm", {}]) {
        await assert.rejects(load(it), /^TypeError: source: /);
    }
    await assert.rejects(load(new Response("", { status: 404 })), /status 404/);
    same(player.save(), before, "a player that refused");
    assert.equal(player.feedAll(new Uint8Array(95)), 0);
    console.log(`test_web: ${tries} wrong arguments are refused with an error that names them`);
}

/** A clean reading, mended with scratched readings and one without R to W, has the output of `convert`. */
function compareMending(ribjasper, whole, scratched) {
    const expected = run(whole, "convert", "--lead-in", `${LEAD_IN}`);
    const words = expected.length / PACK_BYTES;
    const empty = whole.map((byte) => byte & 0xc0);
    // A scratch of ten blocks is too long to be corrected.
    const worn = Buffer.from(scratched);
    worn.subarray(BLOCK_BYTES * (LEAD_IN + 500), BLOCK_BYTES * (LEAD_IN + 510)).forEach((byte, k, part) => {
        part[k] = byte ^ (1 + (k * 7) % 62);
    });
    for (const readings of [[whole], [whole, worn], [worn, whole], [empty, worn, whole, scratched]]) {
        const mended = ribjasper.mendReadings(readings, { leadIn: LEAD_IN });
        same(mended.packs, expected, `the packs of ${readings.length} readings`);
        assert.deepEqual([mended.sources.length, mended.blocks], [words, whole.length / BLOCK_BYTES - LEAD_IN]);
        const counts = readings.map((_, k) => mended.sources.filter((source) => source === k).length);
        assert.deepEqual(mended.ofReading, counts);
        assert.deepEqual([mended.agreed, mended.none], [0, 0]);
        assert.equal(counts.reduce((sum, count) => sum + count), words);
        assert.equal(mended.dropped.length, readings.length);
    }
    // A single reading is mended to its own packs, with zeros for uncorrectable words.
    const single = ribjasper.mendReadings([worn], { leadIn: LEAD_IN });
    const { packs, bad } = ribjasper.convert(worn, { leadIn: LEAD_IN });
    same(single.packs, packs, "the packs of a worn reading");
    assert.ok(bad > 0);
    assert.deepEqual([single.none, single.sources.filter((source) => source === 255).length], [bad, bad]);
    assert.equal(ribjasper.mendReadings([whole.subarray(0, 96 * 2)]).packs.length, 24);
    assert.equal(ribjasper.mendReadings([new Uint8Array(0)]).packs.length, 0);
    assert.throws(() => ribjasper.mendReadings([]), /1 to 254/);
    assert.throws(() => ribjasper.mendReadings(new Array(255).fill(whole.subarray(0, 96))), /1 to 254/);
    assert.throws(() => ribjasper.mendReadings([whole], { leadIn: 450001 }), RangeError);
    assert.throws(() => ribjasper.mendReadings([whole, whole.subarray(96)]), /equally long/);
    assert.throws(() => ribjasper.mendReadings([whole.subarray(1)]), /whole blocks/);
    console.log("test_web: clean, scratched and empty readings are mended, and wrong readings are refused");
}

/** The text packs of a lead-in have the right order of bits. As many have a right checksum as the command `text` counts. */
function compareTexts(ribjasper) {
    writeFileSync(join(FOLDER, "titled.cue"), 'TITLE "An album"\nFILE "a" WAVE\nTRACK 01 AUDIO\nTITLE "One"\nINDEX 01 00:00:00\n');
    writeFileSync(join(FOLDER, "empty.script"), "");
    const stream = run("", "author", "--lead-in", "30", "--length", "00:00:20", "--", "titled.cue", "empty.script");
    stream[3 * BLOCK_BYTES + 5] ^= 1;
    const reported = run(stream, "text", "--lead-in", "30").toString().match(/^packs good (\d+) bad (\d+) other (\d+)$/m);
    const counts = [0, 0];
    for (let b = 0; b < 30; b += 1) {
        const block = stream.subarray(BLOCK_BYTES * b, BLOCK_BYTES * (b + 1));
        ribjasper.textPacks(block).forEach(({ bytes, matches }, k) => {
            counts[matches ? 0 : 1] += 1;
            const bits = (list, size) => Array.from(list, (byte) => (byte & (2 ** size - 1)).toString(2).padStart(size, "0")).join("");
            assert.equal(bits(bytes, 8), bits(block.subarray(24 * k, 24 * k + 24), 6));
        });
    }
    assert.deepEqual(counts, [Number(reported[1]) + Number(reported[3]), Number(reported[2])]);
    assert.ok(counts[0] > 0 && counts[1] > 0);
    assert.throws(() => ribjasper.textPacks(stream.subarray(0, 95)), RangeError);
    console.log("test_web: the program counts the same text packs in a lead-in");
}

function compareCheckpoints(ribjasper, stream) {
    const cut = BLOCK_BYTES * (LEAD_IN + 777);
    const player = ribjasper.player({ leadIn: LEAD_IN });
    player.feedAll(stream.subarray(0, cut));
    const file = player.save();
    same(file, run(stream.subarray(0, cut), "save", "--lead-in", `${LEAD_IN}`), "the file of a checkpoint");
    const restored = ribjasper.player();
    restored.load(file);
    const copy = player.copy();
    for (const it of [player, restored, copy]) {
        it.feedAll(stream.subarray(cut));
    }
    same(player.screen(), restored.screen(), "a restored player");
    same(player.screen(), copy.screen(), "a copied player");
    same(player.save(), restored.save(), "the checkpoint of a restored player");
    const broken = file.slice();
    broken[200] = 16;
    assert.throws(() => restored.load(broken), /byte 200/);
    same(player.screen(), restored.screen(), "a refused file changes nothing");
    assert.throws(() => restored.load(file.subarray(1)), RangeError);
    assert.equal(ribjasper.player({ form: "packs" }).save(), null);
    assert.throws(() => ribjasper.player({ form: "sectors" }), RangeError);
    assert.throws(() => ribjasper.player({ leadIn: 450001 }), RangeError);
    assert.throws(() => player.feed(stream.subarray(0, 95)), RangeError);
    assert.equal(file.length, FILE_BYTES);
    player.close();
    assert.throws(() => player.screen(), /closed/);
    console.log("test_web: checkpoints equal the program's, and wrong ones are refused");
}

/** The file of types declares each value, class and method of the library, and no others. */
function compareTypes() {
    const types = readFileSync(join(TOP, "web", "ribjasper.d.mts"), "utf8");
    const declared = [...types.matchAll(/^export (?:const|function|class) (\w+)/gm)].map((it) => it[1]);
    assert.deepEqual(declared.sort(), Object.keys(library).sort());
    for (const [name, value] of Object.entries(library)) {
        if (typeof value === "number") {
            assert.match(types, new RegExp(`const ${name}: (${value}|0x${value.toString(16)});`));
        }
        if (typeof value === "function" && value.prototype !== undefined && /^class/.test(String(value))) {
            const body = new RegExp(`^export class ${name} \\{$(.*?)^\\}`, "ms").exec(types)[1];
            const members = new Set([...body.matchAll(/^    (?:private )?(?:readonly )?(\w+)[(:<]/gm)].map((it) => it[1]));
            assert.deepEqual([...members].sort(), Object.getOwnPropertyNames(value.prototype).sort(), name);
        }
    }
    console.log("test_web: the types declare all of the library");
}

/** A player writes only its own memory: the bytes behind it do not change. */
async function checkBounds(module) {
    const { exports } = await WebAssembly.instantiate(module, {});
    const start = exports.memory.buffer.byteLength;
    try {
        exports.memory.grow(8n);
    } catch {
        exports.memory.grow(8);
    }
    const bytes = new Uint8Array(exports.memory.buffer);
    const [player, end, block] = [start, start + 65080, start + 2 * 65536];
    bytes.fill(0xa5, end, block);
    let seed = 1;
    for (let k = 0; k < 200000; k += 1) {
        for (let i = 0; i < PACK_BYTES; i += 1) {
            seed = (Math.imul(seed, 1103515245) + 12345) >>> 0;
            bytes[block + i] = seed >>> 24;
        }
        bytes[block] = 9;
        bytes[block + 1] = [1, 2, 6, 20, 24, 28, 30, 31, 38][k % 9];
        exports.ribjasper_web_draw(BigInt(player), BigInt(block));
        exports.ribjasper_web_feed(BigInt(player), BigInt(block));
    }
    assert.ok(bytes.subarray(end, block).every((byte) => byte === 0xa5), "a player wrote behind its end");
    assert.ok(bytes.subarray(player, player + 192).some((byte) => byte !== 0));
    console.log("test_web: 200,000 random packs and blocks stay within the 65,080 bytes of a player");
}

/** Runs the functions in turn, several times, and returns the least time of each in milliseconds. */
function leastTimes(rounds, ...works) {
    const best = works.map(() => Infinity);
    for (let round = 0; round < rounds; round += 1) {
        works.forEach((work, k) => {
            const from = performance.now();
            work();
            best[k] = Math.min(best[k], performance.now() - from);
        });
    }
    return best;
}

function measure(ribjasper, tour) {
    const hour = 60 * 60 * 75;
    const body = tour.subarray(BLOCK_BYTES * LEAD_IN);
    const stream = Buffer.concat(Array.from({ length: Math.ceil((hour * BLOCK_BYTES) / body.length) }, () => body))
        .subarray(0, hour * BLOCK_BYTES);
    const random = Buffer.alloc(BLOCK_BYTES * 20000);
    let seed = 7;
    for (let i = 0; i < random.length; i += 1) {
        seed = (Math.imul(seed, 1664525) + 1013904223) >>> 0;
        random[i] = seed >>> 24;
    }
    const whole = ribjasper.player();
    whole.feedAll(stream);
    same(withoutAlpha(whole.picture()), screenOf(stream, hour, "--lead-in", "0"), "the screen after an hour");
    const rows = [];
    for (const [name, bytes, rounds] of [["an hour of the tour's stream", stream, 3], ["random bytes", random, 15],
        ["zeros", new Uint8Array(random.length), 25]]) {
        const blocks = bytes.length / BLOCK_BYTES;
        const views = Array.from({ length: blocks }, (_, b) => bytes.subarray(BLOCK_BYTES * b, BLOCK_BYTES * (b + 1)));
        const [all, each, plain] = leastTimes(rounds,
            () => { const player = ribjasper.player(); player.feedAll(bytes); player.close(); },
            () => { const player = ribjasper.player(); views.forEach((block) => player.feed(block)); player.close(); },
            () => { const player = new PlainPlayer(); views.forEach((block) => player.feed(block)); });
        rows.push([`a block of ${name}, all in one call`, (1e6 * all) / blocks, (1e6 * plain) / blocks]);
        rows.push([`a block of ${name}, a call for each`, (1e6 * each) / blocks, (1e6 * plain) / blocks]);
    }
    // Packs of the tour, idle packs (most packs of a file are idle), and tiles that are set (6) or combined (38).
    const tiles = (code) => Uint8Array.from({ length: PACK_BYTES * 36000 }, (_, k) => {
        const [byte, place] = [random[k], k % PACK_BYTES];
        return [9, code, 0, 0, byte % 16, byte % 16, byte % 18, byte % 50][place] ?? byte % 64;
    });
    const packs = ribjasper.convert(stream).packs;
    for (const [name, bytes, rounds] of [["the tour", packs, 3], ["idle packs", new Uint8Array(PACK_BYTES * 36000), 25],
        ["tiles that are set", tiles(6), 25], ["tiles that are combined", tiles(38), 25]]) {
        const views = Array.from({ length: bytes.length / PACK_BYTES }, (_, k) => bytes.subarray(PACK_BYTES * k, PACK_BYTES * (k + 1)));
        const [all, each, plain] = leastTimes(rounds,
            () => { const player = ribjasper.player(); player.drawAll(bytes); player.close(); },
            () => { const player = ribjasper.player(); views.forEach((pack) => player.draw(pack)); player.close(); },
            () => { const player = new PlainPlayer(); views.forEach((pack) => player.draw(pack)); });
        rows.push([`a pack of ${name}, all in one call`, (1e6 * all) / views.length, (1e6 * plain) / views.length]);
        rows.push([`a pack of ${name}, a call for each`, (1e6 * each) / views.length, (1e6 * plain) / views.length]);
    }
    const plain = new PlainPlayer();
    for (let b = 0; b < body.length / BLOCK_BYTES; b += 1) {
        plain.feed(body.subarray(BLOCK_BYTES * b, BLOCK_BYTES * (b + 1)));
    }
    const player = ribjasper.player();
    player.feedAll(body);
    const pixels = new Uint8Array(4 * 300 * 216);
    plain.picture(pixels);
    same(player.picture(), pixels, "the picture of the plain player");
    const repeats = 300;
    const repeat = (work) => () => { for (let k = 0; k < repeats; k += 1) { work(); } };
    const image = { data: new Uint8ClampedArray(pixels.length) };
    const [picture, copied, updated, clear, other] = leastTimes(9, repeat(() => player.picture()), repeat(() => player.picture(image)),
        repeat(() => player.update(image)), repeat(() => player.picture(image, { levels: true })), repeat(() => plain.picture(pixels)));
    rows.push(["a picture", (1e6 * picture) / repeats, (1e6 * other) / repeats]);
    rows.push(["a picture in an ImageData", (1e6 * copied) / repeats, (1e6 * other) / repeats]);
    rows.push(["an unchanged picture, compared with an ImageData", (1e6 * updated) / repeats, (1e6 * other) / repeats]);
    rows.push(["a picture with opacity by levels", (1e6 * clear) / repeats, (1e6 * other) / repeats]);
    const [survey, convert] = leastTimes(3, () => ribjasper.survey(stream), () => ribjasper.convert(stream));
    const seeker = ribjasper.seeker(stream);
    seeker.seek(hour);
    const places = Array.from({ length: 300 }, (_, k) => (k * 7919 * 31) % hour);
    const [seek] = leastTimes(3, () => places.forEach((it) => seeker.seek(it)));
    for (const [what, one, two] of rows) {
        console.log(`test_web: ${what}: ${Math.round(one)} ns, the plain player ${Math.round(two)} ns, ${(two / one).toFixed(2)}`);
    }
    console.log(`test_web: surveying an hour takes ${Math.round(survey)} ms, converting it ${Math.round(convert)} ms, ` +
        `and seeking to a place in it ${(seek / places.length).toFixed(2)} ms`);
}

compareTypes();
const bytes = readFileSync(MODULE);
const module = await WebAssembly.compile(bytes);
assert.deepEqual(WebAssembly.Module.imports(module), [], "the module imports nothing from its host");
const ribjasper = await load(module);
const { whole, scratched } = makeStreams();
compareScreens(ribjasper, whole, "a clean stream", 30);
compareScreens(ribjasper, scratched, "a scratched stream", 30);
comparePacks(ribjasper, scratched);
compareForms(ribjasper, scratched);
compareParts(ribjasper, scratched);
compareSeeking(ribjasper, scratched, run(whole, "convert", "--lead-in", `${LEAD_IN}`));
const packs = run(whole, "convert", "--lead-in", `${LEAD_IN}`);
compareSeekers(ribjasper, scratched, packs);
compareChanges(ribjasper, scratched, packs);
compareParity(ribjasper, packs);
comparePictures(ribjasper, packs);
await compareMemory(module);
await refuseArguments(ribjasper, module);
compareMending(ribjasper, whole, scratched);
compareTexts(ribjasper);
compareCheckpoints(ribjasper, scratched);
await checkBounds(module);
if (MEASURE === "measure") {
    measure(ribjasper, whole);
}
