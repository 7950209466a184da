// Tests the plain exports of the web module: calls with many blocks or packs, seeking, pixels and parity. Each has the same effect
// as single calls, and a refused call changes nothing. tests/peers/compare_web.sh runs this test; or run
//
//     node tests/peers/test_web_calls.mjs lib/web/ribjasper.wasm
import { readFile } from "node:fs/promises";

const PLAYER = 65080;
const MARK = 65088;
const [BLOCK, PACK] = [96, 24];
const [BLOCKS, PACKS, MARKS] = [400, 600, 9];

const { instance } = await WebAssembly.instantiate(await readFile(process.argv[2]), {});
const { memory, ...calls } = instance.exports;
let failed = 0;

function check(isTrue, what) {
    if (!isTrue) {
        console.error(`test_web_calls: ${what}`);
        failed = 1;
    }
}

const call = (name, ...values) => calls[`ribjasper_web_${name}`](...values);
let end = memory.buffer.byteLength;

function grow(pages) {
    try {
        memory.grow(BigInt(pages));
    } catch {
        // Engines before 2024 expect a plain number.
        memory.grow(pages);
    }
}

/** Allocates this many bytes at a multiple of eight, and returns their address. */
function allocate(bytes) {
    const at = end;
    end += 8 * Math.ceil(bytes / 8);
    const more = Math.ceil((end - memory.buffer.byteLength) / 65536);
    if (more > 0) {
        grow(more);
    }
    return at;
}

const bytes = (at, length) => new Uint8Array(memory.buffer, at, length);
const big = (...numbers) => numbers.map(BigInt);
const same = (one, other, length) => Buffer.compare(bytes(one, length), bytes(other, length)) === 0;

let seed = 9;
function randomBelow(bound) {
    seed = (Math.imul(seed, 1664525) + 1013904223) >>> 0;
    return Math.floor((seed / 2 ** 32) * bound);
}

const [one, other, change, stream, packs, work, marks, shown] = [
    PLAYER, PLAYER, 20, BLOCK * BLOCKS, PACK * PACKS, BLOCK * BLOCKS, MARK * MARKS, 4 * 300 * 216,
].map(allocate);
for (let n = 0; n < BLOCKS; n++) {
    const isQuiet = randomBelow(2) === 0;
    for (let i = 0; i < BLOCK; i++) {
        bytes(stream + BLOCK * n, BLOCK)[i] = isQuiet ? 64 * randomBelow(4) : randomBelow(256);
    }
}
for (let n = 0; n < PACKS; n++) {
    const pack = bytes(packs + PACK * n, PACK);
    for (let i = 0; i < PACK; i++) {
        pack[i] = randomBelow(256);
    }
    pack[0] = randomBelow(6) === 0 ? randomBelow(256) : 9;
    pack[1] = randomBelow(15) === 0 ? 20 + randomBelow(12) : 6;
    pack[6] %= 18;
    pack[7] %= 50;
}

function picture(player) {
    call("picture", ...big(player, shown));
    return bytes(shown, 4 * 300 * 216).slice();
}

function begin(player, form = 0, leadIn = 0) {
    check(call("begin", BigInt(player), form, leadIn) === 0, `begin ${form} ${leadIn}`);
}

/** The change that a call reported: left, top, right, bottom, colours, levels. */
function reportedChange() {
    const numbers = new DataView(memory.buffer, change, 20);
    return [0, 4, 8, 12].map((at) => numbers.getUint32(at, true)).concat([numbers.getUint8(16), numbers.getUint8(17)]);
}

/** Whether two pictures are equal outside the rectangle. */
function isEqualOutside(before, after, [left, top, right, bottom, colours]) {
    if (colours) {
        return true;
    }
    for (let n = 0; n < 300 * 216; n++) {
        const [x, y] = [n % 300, Math.floor(n / 300)];
        if (x >= left && x < right && y >= top && y < bottom) {
            continue;
        }
        for (let k = 0; k < 4; k++) {
            if (before[4 * n + k] !== after[4 * n + k]) {
                return false;
            }
        }
    }
    return true;
}

/** A call with many blocks or packs has the same effect as single calls. */
function compareMany() {
    for (const form of [0, 1]) {
        begin(one, form, 2);
        begin(other, form, 2);
        for (let from = 0; from < BLOCKS; ) {
            const count = Math.min(BLOCKS - from, randomBelow(40));
            const before = picture(one);
            call("feed_changes", ...big(one, stream + BLOCK * from, count, change));
            for (let n = from; n < from + count; n++) {
                call("feed", ...big(other, stream + BLOCK * n));
            }
            from += count;
            check(same(one, other, PLAYER), `feed_changes to block ${from} of form ${form}`);
            check(isEqualOutside(before, picture(one), reportedChange()), `the change reported up to block ${from}`);
            if (count === 0) {
                check(reportedChange().join() === "300,216,0,0,0,0", "a call without blocks reports no change");
            }
        }
    }
    begin(one);
    begin(other);
    for (let from = 0; from < PACKS; ) {
        const count = Math.min(PACKS - from, randomBelow(50));
        const before = picture(one);
        call("draw_all", ...big(one, packs + PACK * from, count, change));
        for (let n = from; n < from + count; n++) {
            call("draw", ...big(other, packs + PACK * n));
        }
        from += count;
        check(same(one, other, PLAYER), `draw_all to pack ${from}`);
        check(isEqualOutside(before, picture(one), reportedChange()), `the change reported up to pack ${from}`);
    }
}

/** The call converts as many planar blocks as both lists have. */
function comparePlanar() {
    bytes(work, BLOCK * BLOCKS).fill(0xee);
    call("blocks_from_planar", ...big(stream, 3, work, BLOCKS));
    check(bytes(work + 3 * BLOCK, BLOCK).every((byte) => byte === 0xee), "three planar blocks write three blocks");
    call("blocks_from_planar", ...big(stream, BLOCKS, work, BLOCKS));
    const [single] = [allocate(BLOCK)];
    for (let n = 0; n < BLOCKS; n++) {
        call("from_planar", ...big(stream + BLOCK * n, single));
        check(same(single, work + BLOCK * n, BLOCK), `planar block ${n}`);
    }
}

/** Seeking shows the right picture with any number of marks and any distance between them. */
function compareSeeks() {
    for (const [form, leadIn, every, count] of [[0, 0, 50, MARKS], [0, 7, 1, MARKS], [1, 0, 399, 1], [0, 450000, 30, MARKS], [0, 3, 60, 0]]) {
        bytes(marks, MARK * MARKS).fill(0);
        for (let round = 0; round < 12; round++) {
            const to = randomBelow(BLOCKS + 1);
            const status = call("seek", BigInt(one), form, leadIn, ...big(stream, BLOCKS, to, marks, count), every);
            check(status === 0, `seek returns ${status}`);
            begin(other, form, leadIn);
            for (let n = 0; n < to; n++) {
                call("feed", ...big(other, stream + BLOCK * n));
            }
            check(Buffer.compare(picture(one), picture(other)) === 0, `seek to ${to} by ${every}`);
            call("feed", ...big(one, stream));
            call("feed", ...big(other, stream));
            check(Buffer.compare(picture(one), picture(other)) === 0, `the block after ${to}`);
        }
    }
    for (const [every, count] of [[64, MARKS], [1, MARKS], [600, 1], [77, 0]]) {
        bytes(marks, MARK * MARKS).fill(0);
        for (let round = 0; round < 12; round++) {
            const to = randomBelow(PACKS + 1);
            check(call("seek_packs", ...big(one, packs, PACKS, to, marks, count), every) === 0, "seek_packs returns 0");
            begin(other);
            call("draw_all", ...big(other, packs, to, change));
            check(Buffer.compare(picture(one), picture(other)) === 0, `seek to pack ${to} by ${every}`);
        }
    }
}

/** The pixels have the opacity of their levels, or are opaque; the call writes only their bytes. */
function comparePixels() {
    const size = 4 * 300 * 216;
    const guarded = allocate(size + 16);
    const numbers = allocate(300 * 216);
    const levelsAt = allocate(56);
    for (const levels of [0, 1, 2, 4294967295]) {
        bytes(guarded, size + 16).fill(0xa7);
        call("pixels", BigInt(one), levels, BigInt(guarded + 8));
        check(bytes(guarded, 8).every((byte) => byte === 0xa7), "bytes before the pixels");
        check(bytes(guarded + 8 + size, 8).every((byte) => byte === 0xa7), "bytes behind the pixels");
        call("screen", ...big(one, numbers));
        call("shown", ...big(one, levelsAt));
        const expected = picture(one);
        bytes(numbers, 300 * 216).forEach((colour, k) => {
            const level = bytes(levelsAt, 56)[32 + colour];
            expected[4 * k + 3] = levels === 0 ? 255 : 255 - (4 * level + Math.floor(level / 16));
        });
        check(Buffer.compare(bytes(guarded + 8, size), expected) === 0, `pixels with levels ${levels}`);
    }
}

/** As many packs as requested are counted and sealed, and no byte behind them changes. */
function compareParity() {
    const [counts, sealed, fixed] = [allocate(40), allocate(PACK * PACKS + 8), allocate(PACK)];
    const parity = (at, count) => {
        bytes(counts, 40).fill(0xa7);
        call("packs_parity", ...big(at, count, counts + 8));
        check(bytes(counts, 8).every((byte) => byte === 0xa7) && bytes(counts + 32, 8).every((byte) => byte === 0xa7), "bytes beside the counts");
        return [0, 8, 16].map((at) => Number(new DataView(memory.buffer, counts + 8, 24).getBigUint64(at, true)));
    };
    check(parity(packs, 0).join() === "0,0,0", "no packs have no parity");
    bytes(sealed, PACK * PACKS).set(bytes(packs, PACK * PACKS));
    bytes(sealed + PACK * PACKS, 8).fill(0xa7);
    const idle = Array.from({ length: PACKS }, (_, n) => bytes(packs + PACK * n, PACK).every((byte) => byte % 64 === 0)).filter(Boolean).length;
    // One pack of noise in 2 ** 36 is a codeword.
    check(parity(packs, PACKS).join() === [idle, 0, PACKS - idle].join(), "packs of noise have no parity");
    call("packs_seal", ...big(sealed, PACKS - 1));
    check(Buffer.compare(bytes(sealed + PACK * (PACKS - 1), PACK), bytes(packs + PACK * (PACKS - 1), PACK)) === 0,
        "the pack behind the sealed packs");
    call("packs_seal", ...big(sealed, PACKS));
    check(bytes(sealed + PACK * PACKS, 8).every((byte) => byte === 0xa7), "bytes behind the packs");
    check(parity(sealed, PACKS).reduce((a, b) => a + b) === PACKS && parity(sealed, PACKS)[2] === 0, "sealed packs have parity");
    for (let n = 0; n < PACKS; n++) {
        const [before, after] = [bytes(packs + PACK * n, PACK), bytes(sealed + PACK * n, PACK)];
        check([0, 1, 4, 5, 6, 7, 8, 9, 10, 11, 12, 13, 14, 15, 16, 17, 18, 19].every((k) => after[k] === before[k] % 64), `symbols of pack ${n}`);
        // With one wrong symbol, the pack is no codeword.
        bytes(fixed, PACK).set(after);
        bytes(fixed, PACK)[n % PACK] ^= 1 + (n % 63);
        check(parity(fixed, 1)[2] === 1, `pack ${n} with a wrong symbol`);
    }
}

/** A refused call changes neither the player nor the marks. */
function compareRefusals() {
    const [kept, keptMarks] = [bytes(one, PLAYER).slice(), bytes(marks, MARK * MARKS).slice()];
    for (const [form, leadIn, to, every] of [[2, 0, 0, 1], [4294967295, 0, 0, 1], [0, 450001, 0, 1], [0, 0, BLOCKS + 1, 1], [0, 0, 0, 0]]) {
        check(call("seek", BigInt(one), form, leadIn, ...big(stream, BLOCKS, to, marks, MARKS), every) === -1, "seek refuses");
    }
    check(call("seek", BigInt(one), 0, 0, ...big(stream, BLOCKS, 2n ** 64n - 1n, marks, MARKS), 1) === -1, "seek refuses 2 ** 64 - 1");
    check(call("seek_packs", ...big(one, packs, PACKS, PACKS + 1, marks, MARKS), 1) === -1, "seek_packs refuses");
    check(call("seek_packs", ...big(one, packs, PACKS, 0, marks, MARKS), 0) === -1, "seek_packs refuses 0");
    check(Buffer.compare(kept, bytes(one, PLAYER)) === 0 && Buffer.compare(keptMarks, bytes(marks, MARK * MARKS)) === 0,
        "a refused call changes nothing");
}

compareMany();
comparePlanar();
compareSeeks();
comparePixels();
compareParity();
compareRefusals();
if (failed === 0) {
    console.log("test_web_calls: calls on many blocks and packs, and seeking, have the same effect as single calls");
}
process.exit(failed);
