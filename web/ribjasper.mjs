// Plays and converts the subcode of Compact Discs in web pages: the calls of crates/ribjasper_web.
//
// The calls are proved Rattle code, compiled to WebAssembly (ribjasper.wasm). This file checks arguments, manages the module's
// memory and copies bytes. The module's memory has 64-bit addresses. Chromium 133, Firefox 134 and Node 24 support these; Node 20
// and 22 need --experimental-wasm-memory64. Only ribjasper.wasm is fetched, and only if `load` gets no source.

/** The version of the library. `make web` sets it. */
export const VERSION = "";
/** The screen, in pixels. */
export const WIDTH = 300;
export const HEIGHT = 216;
/** The sizes in bytes of a block of the channels P to W, of a pack, of a sector with its block, and of a checkpoint file. */
export const BLOCK_BYTES = 96;
export const PACK_BYTES = 24;
export const SECTOR_BYTES = 2448;
export const FILE_BYTES = 65045;
/** The size in bytes of a text pack of the lead-in. */
export const TEXT_PACK_BYTES = 18;
/** Blocks and packs per second. */
export const BLOCKS_A_SECOND = 75;
export const PACKS_A_SECOND = 300;
/** The maximum number of blocks of a lead-in, and of readings for `mendReadings`. */
export const MOST_LEAD_IN = 450_000;
export const MOST_READINGS = 254;
/** The value of `absolute` if a frame has no absolute time. */
export const NO_TIME = 0xffffffff;

// The numbers of the forms for the calls of the module. Planar blocks are converted to raw blocks first.
const FORMS = new Map([["raw", 0], ["packs", 1], ["sectors", 2], ["planar", 0]]);
const PLAYER_FORMS = new Map([["raw", 0], ["packs", 1]]);
const PIXELS = WIDTH * HEIGHT;
// The size of WebPlayer in crates/ribjasper_web/src/state.rt.
const PLAYER_BYTES = 65080;
const ROW_BYTES = 12;
const READ_PACK_BYTES = PACK_BYTES + 4;
const PACKS_A_BLOCK = BLOCK_BYTES / PACK_BYTES;
// Three numbers and two lists of numbers, of four bytes each.
const TALLY_BYTES = 4 * (3 + 2 * MOST_READINGS);
const PAGE_BYTES = 65536;
// Streams are copied into the module's memory in chunks of this size: whole blocks and whole sectors.
const CHUNK_BYTES = 384 * SECTOR_BYTES;
const BLOCKS_AT_ONCE = CHUNK_BYTES / SECTOR_BYTES;
const BLOCKS_A_CHUNK = CHUNK_BYTES / BLOCK_BYTES;
// A word has symbols in its last block and the two blocks before it.
const BLOCKS_BEFORE = 2;
const COLOURS = 16;
// A mark is a position and a player. A mark of zeros is not set.
const MARK_BYTES = 8 + PLAYER_BYTES;
// The answers of `touches` for packs that touch no single tile, from FIRST_TOUCHED on.
const TOUCHED = ["nothing", "all", "border", "colours", "levels"];
const FIRST_TOUCHED = 900;
const TILES_A_ROW = 50;

/**
 * Compiles the module.
 * @param {BufferSource | WebAssembly.Module | Response | PromiseLike<Response>} [source] ribjasper.wasm; without it,
 *     the file next to this one is read
 */
export async function load(source) {
    const given = await source;
    const bytes = given === undefined ? await bytesOfNeighbour() : await bytesOfSource(given);
    const module = bytes instanceof WebAssembly.Module ? bytes : await WebAssembly.compile(bytes);
    return new Ribjasper(await WebAssembly.instantiate(module, {}));
}

async function bytesOfSource(source) {
    if (source instanceof WebAssembly.Module || source instanceof ArrayBuffer || ArrayBuffer.isView(source)) {
        return source;
    }
    if (typeof Response !== "undefined" && source instanceof Response) {
        return bytesOfResponse(source, source.url);
    }
    throw new TypeError(`source: expected the bytes of ribjasper.wasm, a WebAssembly.Module or a Response, got ${kindOf(source)}`);
}

/** The bytes of ribjasper.wasm in the folder of this file. */
async function bytesOfNeighbour() {
    const place = new URL("./ribjasper.wasm", import.meta.url);
    if (place.protocol === "file:" && typeof process !== "undefined") {
        // Not a literal, because bundlers would search for the module.
        const files = "node:fs/promises";
        const { readFile } = await import(/* webpackIgnore: true */ /* @vite-ignore */ files);
        return readFile(place);
    }
    return bytesOfResponse(await fetch(place), place);
}

async function bytesOfResponse(response, place) {
    if (!response.ok) {
        throw new Error(`${place} cannot be read: status ${response.status}`);
    }
    return response.arrayBuffer();
}

/** The memory of the module. Buffers are whole pages; freed buffers are used again, as a whole or in part. */
class ModuleMemory {
    #memory;
    #calls;
    // The free buffers in the order of their addresses. No two of them are adjacent.
    #free = [];
    #end;
    #bytes;

    constructor(exports) {
        this.#memory = exports.memory;
        this.#calls = exports;
        this.#end = this.#memory.buffer.byteLength;
    }

    /** All bytes. Get them for each use, because growing the memory detaches the array. */
    get bytes() {
        if (this.#bytes === undefined || this.#bytes.byteLength !== this.#memory.buffer.byteLength) {
            this.#bytes = new Uint8Array(this.#memory.buffer);
        }
        return this.#bytes;
    }

    /** Allocates the smallest free buffer that is large enough, or grows the memory. The buffer may contain old bytes. */
    allocate(size) {
        const pages = Math.max(1, Math.ceil(size / PAGE_BYTES));
        let best = -1;
        this.#free.forEach((it, k) => {
            if (it.pages >= pages && (best < 0 || it.pages < this.#free[best].pages)) {
                best = k;
            }
        });
        if (best < 0) {
            return this.#grown(pages);
        }
        const found = this.#free[best];
        const buffer = { at: found.at, pages };
        if (found.pages === pages) {
            this.#free.splice(best, 1);
        } else {
            this.#free[best] = { at: found.at + pages * PAGE_BYTES, pages: found.pages - pages };
        }
        return buffer;
    }

    #grown(pages) {
        // A free buffer at the end is used first.
        const last = this.#free.at(-1);
        const atTheEnd = last !== undefined && last.at + last.pages * PAGE_BYTES === this.#end;
        const at = atTheEnd ? last.at : this.#end;
        const more = pages - (atTheEnd ? last.pages : 0);
        try {
            this.#memory.grow(BigInt(more));
        } catch (error) {
            // Engines before 2024 need a number, and so do memories with 32-bit addresses.
            if (!(error instanceof TypeError)) {
                throw error;
            }
            this.#memory.grow(more);
        }
        if (atTheEnd) {
            this.#free.pop();
        }
        this.#end += more * PAGE_BYTES;
        return { at, pages };
    }

    /** Frees a buffer, and joins it with its free neighbours. */
    free(buffer) {
        const next = this.#free.findIndex((it) => it.at > buffer.at);
        this.#free.splice(next < 0 ? this.#free.length : next, 0, buffer);
        this.#free = this.#free.reduce((joined, it) => {
            const before = joined.at(-1);
            if (before !== undefined && before.at + before.pages * PAGE_BYTES === it.at) {
                joined[joined.length - 1] = { at: before.at, pages: before.pages + it.pages };
            } else {
                joined.push(it);
            }
            return joined;
        }, []);
    }

    has(name) {
        return `ribjasper_web_${name}` in this.#calls;
    }

    /** Calls a function of the module. Addresses and sizes are BigInts. */
    call(name, ...values) {
        return this.#calls[`ribjasper_web_${name}`](...values);
    }

    /** Writes bytes to a place, and returns its address. */
    put(at, bytes) {
        this.bytes.set(bytes, at);
        return BigInt(at);
    }

    numbers(at) {
        return new DataView(this.#memory.buffer, at);
    }

    /** Four-byte numbers from an address that is a multiple of four. */
    words(at, count) {
        return new Uint32Array(this.#memory.buffer, at, count);
    }

    /** Converts planar blocks at one place to raw blocks at another. */
    fromPlanar(from, to, blocks) {
        if (this.has("blocks_from_planar")) {
            this.call("blocks_from_planar", BigInt(from), BigInt(blocks), BigInt(to), BigInt(blocks));
            return;
        }
        for (let at = 0; at < BLOCK_BYTES * blocks; at += BLOCK_BYTES) {
            this.call("from_planar", BigInt(from + at), BigInt(to + at));
        }
    }
}

// Functions of Player that other classes use: they read units and write their packs, and call the module with the player.
let takePacks;
let callWithPlayer;

/** The module. `load` makes an instance. */
export class Ribjasper {
    #memory;
    #shared;

    constructor(instance) {
        const { exports } = instance ?? {};
        if (!(exports?.memory instanceof WebAssembly.Memory)) {
            throw new TypeError(`instance: expected an instance of ribjasper.wasm, got ${kindOf(instance)}`);
        }
        this.#memory = new ModuleMemory(exports);
        this.#shared = {
            memory: this.#memory,
            // A buffer for a picture, the file of a checkpoint, or a few blocks.
            work: this.#memory.allocate(8 * PAGE_BYTES).at,
            chunk: this.#memory.allocate(CHUNK_BYTES).at,
            converted: this.#memory.allocate(CHUNK_BYTES).at,
        };
    }

    /** The size of the module's memory in bytes. It never shrinks; memory of closed objects is used again. */
    get memoryBytes() {
        return this.#memory.bytes.length;
    }

    /** A player of a raw stream or of blocks of four packs (`form: "packs"`), with `leadIn` lead-in blocks. */
    player(options = {}) {
        return new Player(this.#shared, options);
    }

    /** A player of a whole stream or .cdg file (`form: "cdg"`) that can seek to any block or pack. */
    seeker(stream, options = {}) {
        return new Seeker(this.#shared, stream, options);
    }

    /**
     * Converts a whole stream to the packs of a .cdg file, with error correction. A word that cannot be corrected becomes a pack
     * of zeros; `bad` is the number of these words. The packs are the output of the command `convert`.
     */
    convert(stream, options = {}) {
        const bytes = wholeUnits(stream, options);
        const { leadIn, unit } = streamOptions(options);
        const blocks = Math.max(0, bytes.length / unit - leadIn);
        // The last seven words of a raw stream are incomplete.
        const incomplete = options.form === "packs" ? 0 : 7;
        const packs = new Uint8Array(PACK_BYTES * Math.max(0, PACKS_A_BLOCK * blocks - incomplete));
        let [at, bad] = [0, 0];
        for (const part of this.converting(bytes, options)) {
            packs.set(part.packs, at);
            at += part.packs.length;
            bad = part.bad;
        }
        return { packs, blocks, bad };
    }

    /**
     * Converts like `convert`, but in parts. Each part has the next packs, the number of finished blocks, and the number of bad
     * words so far. A page does not freeze if it returns to the browser between parts.
     */
    *converting(stream, options = {}) {
        const bytes = wholeUnits(stream, options);
        const { form, leadIn, unit } = streamOptions(options);
        const at = this.#memory.allocate(READ_PACK_BYTES * PACKS_A_BLOCK * BLOCKS_AT_ONCE);
        const player = this.player({ form: form === "packs" ? "packs" : "raw", leadIn });
        const all = bytes.length / unit;
        let [done, bad] = [0, 0];
        try {
            while (done < all) {
                const count = Math.min(BLOCKS_AT_ONCE, all - done);
                const units = bytes.subarray(unit * done, unit * (done + count));
                const part = readPacks(this.#memory, takePacks(player, units, form, at.at), at.at);
                done += count;
                bad += part.bad;
                yield { packs: part.packs, done, of: all, bad };
            }
        } finally {
            player.close();
            this.#memory.free(at);
        }
    }

    /** Surveys each whole block of a stream: its words and its Q frame. The sums are those of the command `check`. */
    survey(stream, options = {}) {
        const bytes = bytesOf("stream", stream);
        const { form, leadIn, unit } = streamOptions(options);
        const blocks = Math.floor(bytes.length / unit);
        return new Survey(this.#rows(form === "planar" ? this.fromPlanar(bytes) : bytes, form, leadIn, blocks));
    }

    /** Surveys like `survey`, but in parts. Yields the number of finished blocks after each part, and returns the survey. */
    *surveying(stream, options = {}) {
        const bytes = bytesOf("stream", stream);
        const { form, leadIn, unit } = streamOptions(options);
        const all = Math.floor(bytes.length / unit);
        const rows = new Uint8Array(ROW_BYTES * all);
        for (let done = 0; done < all;) {
            const end = Math.min(all, done + BLOCKS_AT_ONCE * 8);
            const first = Math.max(0, done - (form === "packs" ? 0 : BLOCKS_BEFORE));
            const units = bytes.subarray(unit * first, unit * end);
            const part = this.#rows(form === "planar" ? this.fromPlanar(units) : units, form, Math.max(0, leadIn - first), end - first);
            rows.set(part.subarray(ROW_BYTES * (done - first)), ROW_BYTES * done);
            done = end;
            yield done;
        }
        return new Survey(rows);
    }

    #rows(bytes, form, leadIn, blocks) {
        // Rows begin at an address that is a multiple of four.
        const before = 4 * Math.ceil(bytes.length / 4);
        const buffer = this.#memory.allocate(before + ROW_BYTES * blocks);
        try {
            const rows = buffer.at + before;
            const answer = this.#memory.call("survey", this.#memory.put(buffer.at, bytes), BigInt(bytes.length),
                FORMS.get(form), leadIn, BigInt(rows), BigInt(blocks));
            if (answer !== 0) {
                throw new Error(`the module refuses a survey: ${answer}`);
            }
            return this.#memory.bytes.slice(rows, rows + ROW_BYTES * blocks);
        } finally {
            this.#memory.free(buffer);
        }
    }

    /**
     * Mends readings of one raw stream: chooses the best reading of each word, by the rule in include/ribjasper.h. There must be
     * 1 to 254 readings with the same number of whole blocks. `packs` are the packs of a .cdg file, with zeros for words without a
     * codeword. `sources` has for each word the number of the reading with its codeword, 254 if two readings agree, or 255 if there
     * is no codeword.
     */
    mendReadings(readings, options = {}) {
        if (!Array.isArray(readings)) {
            throw new TypeError(`readings: expected an array of Uint8Arrays, got ${kindOf(readings)}`);
        }
        if (readings.length < 1 || readings.length > MOST_READINGS) {
            throw new RangeError(`readings: expected 1 to 254, got ${readings.length}`);
        }
        const leadIn = leadInOf(optionsOf(options));
        const lists = readings.map((it, k) => bytesOf(`readings[${k}]`, it));
        const size = lists[0].length;
        const other = lists.findIndex((it) => it.length !== size);
        if (other >= 0) {
            throw new RangeError(`readings[${other}]: readings must be equally long, expected ${size} bytes, got ${lists[other].length}`);
        }
        const blocks = Math.max(0, Math.floor(size / BLOCK_BYTES) - leadIn);
        const words = Math.max(0, 4 * blocks - 7);
        // The tallies begin at an address that is a multiple of four.
        const bytes = size * lists.length;
        const buffer = this.#memory.allocate(TALLY_BYTES + bytes + PACK_BYTES * words + words);
        try {
            const first = buffer.at + TALLY_BYTES;
            lists.forEach((reading, k) => this.#memory.put(first + size * k, reading));
            const packs = first + bytes;
            const sources = packs + PACK_BYTES * words;
            const answer = this.#memory.call("mend", BigInt(first), BigInt(bytes), lists.length, leadIn, BigInt(packs),
                BigInt(PACK_BYTES * words), BigInt(sources), BigInt(words), BigInt(buffer.at));
            if (answer !== 0) {
                throw new RangeError(`readings: each must have whole blocks, at most 1,000,000, but has ${size} bytes`);
            }
            const numbers = this.#memory.numbers(buffer.at);
            const list = (from) => lists.map((_, k) => numbers.getUint32(4 * (from + k), true));
            return {
                packs: this.#memory.bytes.slice(packs, sources),
                sources: this.#memory.bytes.slice(sources, sources + words),
                blocks,
                agreed: numbers.getUint32(0, true),
                none: numbers.getUint32(4, true),
                ofReading: list(3),
                dropped: list(3 + MOST_READINGS),
            };
        } finally {
            this.#memory.free(buffer);
        }
    }

    /**
     * The four text packs of a lead-in block, eighteen bytes each, and whether the CRC of each is correct; if so, the pack is
     * CD-TEXT. The module has no heap, so it cannot read the texts of a whole lead-in. The command `text`, the C library and the
     * desk can.
     */
    textPacks(block) {
        const at = this.#memory.put(this.#shared.work, exactly("block", block, BLOCK_BYTES));
        const to = this.#shared.work + BLOCK_BYTES;
        return Array.from({ length: PACKS_A_BLOCK }, (_, k) => {
            const matches = this.#memory.call("text_pack", at, k, BigInt(to)) === 1;
            return { bytes: this.#memory.bytes.slice(to, to + TEXT_PACK_BYTES), matches };
        });
    }

    /** Converts the whole blocks of a planar stream (.sub files of some drives) to raw blocks. */
    fromPlanar(planar) {
        const bytes = bytesOf("planar", planar);
        const blocks = new Uint8Array(bytes.length - (bytes.length % BLOCK_BYTES));
        for (let from = 0; from < blocks.length; from += CHUNK_BYTES) {
            const count = Math.min(CHUNK_BYTES, blocks.length - from) / BLOCK_BYTES;
            blocks.set(rawFromPlanar(this.#shared, bytes.subarray(from, from + BLOCK_BYTES * count)), from);
        }
        return blocks;
    }

    /**
     * Counts the packs that are idle, those with valid parity, and those with invalid parity. In a .cdg file without parity, all
     * packs are idle or invalid. A player of the form "packs" draws no invalid packs; `draw` and `drawAll` ignore parity.
     */
    parity(packs) {
        const bytes = wholePacks(packs);
        const counts = { idle: 0, valid: 0, invalid: 0 };
        for (let from = 0; from < bytes.length; from += CHUNK_BYTES) {
            const piece = bytes.subarray(from, from + CHUNK_BYTES);
            const at = this.#memory.put(this.#shared.chunk, piece);
            this.#memory.call("packs_parity", at, BigInt(piece.length / PACK_BYTES), BigInt(this.#shared.work));
            const numbers = this.#memory.numbers(this.#shared.work);
            Object.keys(counts).forEach((name, k) => { counts[name] += Number(numbers.getBigUint64(8 * k, true)); });
        }
        return counts;
    }

    /**
     * Computes the parity of packs: each pack becomes the codeword with its symbols 0, 1 and 4 to 19. Do not seal packs that
     * already have parity and may be damaged, because their wrong symbols would become valid.
     */
    seal(packs) {
        const bytes = wholePacks(packs);
        const sealed = new Uint8Array(bytes.length);
        for (let from = 0; from < bytes.length; from += CHUNK_BYTES) {
            const piece = bytes.subarray(from, from + CHUNK_BYTES);
            const at = this.#memory.put(this.#shared.chunk, piece);
            this.#memory.call("packs_seal", at, BigInt(piece.length / PACK_BYTES));
            sealed.set(this.#memory.bytes.subarray(Number(at), Number(at) + piece.length), from);
        }
        return sealed;
    }

    /** The part of the screen that a pack may change: `{ kind: "tile", row, column }`, or another kind without a place. */
    touches(pack) {
        const number = this.#memory.call("touches", this.#memory.put(this.#shared.work, exactly("pack", pack, PACK_BYTES)));
        return number < FIRST_TOUCHED
            ? { kind: "tile", row: Math.floor(number / TILES_A_ROW), column: number % TILES_A_ROW }
            : { kind: TOUCHED[number - FIRST_TOUCHED] };
    }
}

/** A player reads blocks or draws packs, and shows the picture after them. */
export class Player {
    #shared;
    #memory;
    #work;
    #place;
    #picture;

    static {
        takePacks = (player, units, form, to) => player.#takeAll(units, form, to);
        callWithPlayer = (player, name, ...values) => player.#memory.call(name, player.#at, ...values);
    }

    constructor(shared, options) {
        if (!(shared?.memory instanceof ModuleMemory)) {
            throw new TypeError("a Player is made by Ribjasper.player()");
        }
        const begin = playerOptions(options);
        this.#shared = shared;
        this.#memory = shared.memory;
        this.#work = shared.work;
        this.#place = this.#memory.allocate(PLAYER_BYTES);
        // A player of zeros is valid; old bytes may not be.
        this.#memory.bytes.fill(0, this.#place.at, this.#place.at + PLAYER_BYTES);
        this.#begin(begin);
    }

    get #at() {
        if (this.#place === null) {
            throw new Error("the player is closed");
        }
        return BigInt(this.#place.at);
    }

    #begin({ form, leadIn }) {
        this.#memory.call("begin", this.#at, PLAYER_FORMS.get(form), leadIn);
    }

    /** Begins a new stream. */
    begin(options = {}) {
        this.#begin(playerOptions(options));
    }

    /** Reads the next block. */
    feed(block) {
        this.#memory.call("feed", this.#at, this.#memory.put(this.#work, exactly("block", block, BLOCK_BYTES)));
    }

    /**
     * Reads all whole blocks of a piece of the stream, and returns their number. `form` is the form of the piece: raw, packs,
     * sectors or planar. Bytes after the last whole block are ignored.
     */
    feedAll(stream, form = "raw") {
        const bytes = bytesOf("stream", stream);
        const unit = unitOf(form);
        const whole = bytes.length - (bytes.length % unit);
        const at = this.#at;
        let fed = 0;
        for (let from = 0; from < whole; from += CHUNK_BYTES) {
            const piece = bytes.subarray(from, Math.min(whole, from + CHUNK_BYTES));
            const place = BigInt(this.#put(piece, form));
            if (form === "sectors") {
                fed += Number(this.#memory.call("feed_all", at, FORMS.get(form), place, BigInt(piece.length)));
                continue;
            }
            // This is faster than feed_all. The reported change is not used.
            this.#memory.call("feed_changes", at, place, BigInt(piece.length / BLOCK_BYTES), BigInt(this.#work));
            fed += piece.length / BLOCK_BYTES;
        }
        return fed;
    }

    /**
     * Reads blocks like `feedAll`, and returns the possible changes of the screen: the smallest rectangle around the drawn tiles,
     * or null, and whether colours or their levels may have changed. If they have, any pixel may look different. Nothing else
     * has changed.
     */
    feedChanges(stream, form = "raw") {
        const bytes = bytesOf("stream", stream);
        const unit = unitOf(form);
        return this.#changesOf("feed_changes", bytes, form, unit);
    }

    /** Draws packs like `drawAll`, and returns the possible changes of the screen like `feedChanges`. */
    drawChanges(packs) {
        return this.#changesOf("draw_all", bytesOf("packs", packs), "cdg", PACK_BYTES);
    }

    #changesOf(name, bytes, form, unit) {
        const at = this.#at;
        const all = Math.floor(bytes.length / unit);
        const most = Math.floor(CHUNK_BYTES / unit);
        const changed = { count: all, rectangle: null, colours: false, levels: false };
        for (let done = 0; done < all; done += most) {
            const count = Math.min(most, all - done);
            const place = this.#shared.converted;
            putUnits(this.#shared, bytes.subarray(unit * done, unit * (done + count)), form, count, place);
            this.#memory.call(name, at, BigInt(place), BigInt(count), BigInt(this.#work));
            this.#addChange(changed);
        }
        return changed;
    }

    /** Adds the change that the module has written to its memory. */
    #addChange(changed) {
        const numbers = this.#memory.numbers(this.#work);
        const [left, top, right, bottom] = [0, 4, 8, 12].map((at) => numbers.getUint32(at, true));
        if (left < WIDTH) {
            changed.rectangle = around(changed.rectangle, { x: left, y: top, width: right - left, height: bottom - top });
        }
        changed.colours ||= numbers.getUint8(16) !== 0;
        changed.levels ||= numbers.getUint8(17) !== 0;
    }

    /** Copies a chunk to the module's memory, converts planar blocks to raw ones, and returns the place. */
    #put(piece, form) {
        this.#memory.put(this.#shared.chunk, piece);
        if (form !== "planar") {
            return this.#shared.chunk;
        }
        this.#memory.fromPlanar(this.#shared.chunk, this.#shared.converted, piece.length / BLOCK_BYTES);
        return this.#shared.converted;
    }

    /** Reads the next block, and returns its packs, at most four. `wrong` is -1 for a word that cannot be corrected. */
    take(block) {
        const packs = this.#work + BLOCK_BYTES;
        const count = this.#memory.call("take", this.#at, this.#memory.put(this.#work, exactly("block", block, BLOCK_BYTES)),
            BigInt(packs));
        return Array.from({ length: count }, (_, k) => {
            const at = packs + READ_PACK_BYTES * k;
            return {
                symbols: this.#memory.bytes.slice(at, at + PACK_BYTES),
                wrong: this.#memory.numbers(at + PACK_BYTES).getInt32(0, true),
            };
        });
    }

    /** Reads units and writes their packs to a place of the module's memory. Returns the number of packs. */
    #takeAll(units, form, to) {
        const unit = unitOf(form);
        const [at, chunk] = [this.#at, this.#put(units, form) + unit - BLOCK_BYTES];
        let packs = 0;
        for (let from = 0; from < units.length; from += unit) {
            packs += this.#memory.call("take", at, BigInt(chunk + from), BigInt(to + READ_PACK_BYTES * packs));
        }
        return packs;
    }

    /** Draws a pack of a .cdg file. Its parity is ignored. */
    draw(pack) {
        this.#memory.call("draw", this.#at, this.#memory.put(this.#work, exactly("pack", pack, PACK_BYTES)));
    }

    /** Draws all whole packs of a piece of a .cdg file, and returns their number. */
    drawAll(packs) {
        const bytes = bytesOf("packs", packs);
        const whole = bytes.length - (bytes.length % PACK_BYTES);
        const at = this.#at;
        const hasDrawAll = this.#memory.has("draw_all");
        for (let from = 0; from < whole; from += CHUNK_BYTES) {
            const piece = bytes.subarray(from, Math.min(whole, from + CHUNK_BYTES));
            const chunk = this.#memory.put(this.#shared.chunk, piece);
            if (hasDrawAll) {
                this.#memory.call("draw_all", at, chunk, BigInt(piece.length / PACK_BYTES), BigInt(this.#work));
                continue;
            }
            for (let pack = 0; pack < piece.length; pack += PACK_BYTES) {
                this.#memory.call("draw", at, chunk + BigInt(pack));
            }
        }
        return whole / PACK_BYTES;
    }

    /** Whether a pack would change a pixel of the memory, the border, a colour, a level or an offset. */
    changes(pack) {
        const at = this.#memory.put(this.#work, exactly("pack", pack, PACK_BYTES));
        return this.#memory.call("changes", this.#at, at) !== 0;
    }

    /**
     * Writes the picture with four bytes per pixel: red, green, blue and opacity. The target is `image`, an `ImageData` of 300 by
     * 216 pixels. Without `image`, it is an array of this player, which the next picture overwrites. All pixels are opaque (255),
     * unless options are given: `levels: true` gives each colour the opacity that the disc sets for it, and `clear: [k, ..]` makes
     * the colours with these numbers transparent.
     */
    picture(image, options = {}) {
        if (image === undefined) {
            this.#picture ??= new Uint8Array(4 * PIXELS);
        }
        const data = image === undefined ? this.#picture : pixelsOf(image);
        data.set(this.#pixels(options));
        return image ?? this.#picture;
    }

    /**
     * Writes the picture into `image` like `picture`, and returns the smallest rectangle with all changed pixels, or null if no
     * pixel has changed.
     */
    update(image, options = {}) {
        const data = pixelsOf(image);
        this.#pixels(options);
        const pixels = this.#memory.words(this.#work, PIXELS);
        const shown = data.byteOffset % 4 === 0 ? new Uint32Array(data.buffer, data.byteOffset, PIXELS)
            : new Uint32Array(Uint8Array.from(data).buffer);
        let [left, right, top, bottom] = [WIDTH, -1, HEIGHT, -1];
        for (let y = 0; y < HEIGHT; y += 1) {
            let [first, last] = [WIDTH * y, WIDTH * (y + 1) - 1];
            while (first <= last && pixels[first] === shown[first]) {
                first += 1;
            }
            if (first > last) {
                continue;
            }
            while (pixels[last] === shown[last]) {
                last -= 1;
            }
            left = Math.min(left, first - WIDTH * y);
            right = Math.max(right, last - WIDTH * y);
            top = Math.min(top, y);
            bottom = y;
        }
        if (right < 0) {
            return null;
        }
        const [from, to] = [4 * WIDTH * top, 4 * WIDTH * (bottom + 1)];
        data.set(this.#memory.bytes.subarray(this.#work + from, this.#work + to), from);
        return { x: left, y: top, width: right - left + 1, height: bottom - top + 1 };
    }

    /** Writes the picture into the module's memory, and returns a view of it that the next call may overwrite. */
    #pixels(options) {
        const { levels, clear } = pictureOptions(options);
        const at = this.#at;
        if (levels) {
            this.#memory.call("pixels", at, 1, BigInt(this.#work));
        } else {
            this.#memory.call("picture", at, BigInt(this.#work));
        }
        if (clear.length > 0) {
            this.#makeClear(clear);
        }
        return this.#memory.bytes.subarray(this.#work, this.#work + 4 * PIXELS);
    }

    #makeClear(clear) {
        const end = this.#work + 4 * PIXELS;
        this.#memory.call("screen", this.#at, BigInt(end));
        const isClear = Uint8Array.from({ length: COLOURS }, (_, colour) => (clear.includes(colour) ? 1 : 0));
        const pixels = this.#memory.bytes.subarray(this.#work, end);
        const colours = this.#memory.bytes.subarray(end, end + PIXELS);
        for (let pixel = 0; pixel < PIXELS; pixel += 1) {
            if (isClear[colours[pixel]] === 1) {
                pixels[4 * pixel + 3] = 0;
            }
        }
    }

    /** The numbers of the colours of the screen's pixels, row by row. */
    screen() {
        this.#memory.call("screen", this.#at, BigInt(this.#work));
        return this.#memory.bytes.slice(this.#work, this.#work + PIXELS);
    }

    /** The colours as 0xRGB, their levels, the border and the offsets. */
    shown() {
        this.#memory.call("shown", this.#at, BigInt(this.#work));
        const numbers = this.#memory.numbers(this.#work);
        return {
            colours: Array.from({ length: COLOURS }, (_, k) => numbers.getUint16(2 * k, true)),
            levels: Array.from({ length: COLOURS }, (_, k) => numbers.getUint8(32 + k)),
            border: numbers.getUint8(48),
            h: numbers.getUint8(49),
            v: numbers.getUint8(50),
        };
    }

    /** The player's form and lead-in, and its counts since it began: blocks, words and bad words. */
    counts() {
        this.#memory.call("counts", this.#at, BigInt(this.#work));
        const numbers = this.#memory.numbers(this.#work);
        const [form, leadIn, blocks, bad] = [8, 12, 16, 20].map((at) => numbers.getUint32(at, true));
        return { form: form === 1 ? "packs" : "raw", leadIn, blocks, words: Number(numbers.getBigUint64(0, true)), bad };
    }

    /** The checkpoint file, as the command `save` writes it, or null if the stream consists of packs or is too long. */
    save() {
        if (this.#memory.call("save", this.#at, BigInt(this.#work)) !== 0) {
            return null;
        }
        return this.#memory.bytes.slice(this.#work, this.#work + FILE_BYTES);
    }

    /** Restores a checkpoint from a file. */
    load(file) {
        const bytes = exactly("file", file, FILE_BYTES);
        const place = this.#work + PAGE_BYTES;
        if (this.#memory.call("load", this.#at, this.#memory.put(this.#work, bytes), BigInt(place)) !== 0) {
            const byte = this.#memory.numbers(place).getUint32(0, true);
            throw new RangeError(`file: not a checkpoint, byte ${byte} is out of range`);
        }
    }

    /** Becomes a copy of another player of the same module. */
    copyFrom(other) {
        if (!(other instanceof Player)) {
            throw new TypeError(`other: expected a Player, got ${kindOf(other)}`);
        }
        if (other.#memory !== this.#memory) {
            throw new RangeError("other: the player belongs to another module");
        }
        const [to, from] = [Number(this.#at), Number(other.#at)];
        this.#memory.bytes.copyWithin(to, from, from + PLAYER_BYTES);
    }

    /** A copy of this player. */
    copy() {
        const from = Number(this.#at);
        const other = new Player(this.#shared, {});
        this.#memory.bytes.copyWithin(other.#place.at, from, from + PLAYER_BYTES);
        return other;
    }

    /** Frees the memory of the player, which can then no longer be used. Closing it again has no effect. */
    close() {
        if (this.#place !== null) {
            this.#memory.free(this.#place);
            this.#place = null;
        }
    }
}

/**
 * A player of a whole stream that can seek to any of its blocks, or to any pack of a .cdg file. The module's memory has a copy of
 * the blocks or packs, and at most `marks` (default 128) marks of 65,088 bytes. A mark is the state of the player at a position.
 * After `seek(n)`, the player is equal to one that has read the first n blocks (proved for the module's call).
 */
export class Seeker {
    #shared;
    #player;
    #form;
    #leadIn;
    #unit;
    #length;
    // The number of blocks or packs from one mark to the next, and the number of marks.
    #every;
    #count;
    // The buffers of the blocks or packs and of the marks, or null after they are freed.
    #units = null;
    #marks = null;
    #position = 0;

    constructor(shared, stream, options) {
        if (!(shared?.memory instanceof ModuleMemory)) {
            throw new TypeError("a Seeker is made by Ribjasper.seeker()");
        }
        const { form, leadIn, unit } = seekerOptions(options);
        const bytes = bytesOf("stream", stream);
        this.#shared = shared;
        this.#form = form;
        this.#leadIn = leadIn;
        this.#unit = form === "cdg" ? PACK_BYTES : BLOCK_BYTES;
        this.#length = Math.floor(bytes.length / unit);
        this.#every = everyOf(options, this.#length);
        this.#count = Math.floor(this.#length / this.#every);
        this.#player = new Player(shared, { form: form === "packs" ? "packs" : "raw", leadIn });
        try {
            this.#units = shared.memory.allocate(this.#unit * this.#length);
            this.#marks = shared.memory.allocate(MARK_BYTES * this.#count);
        } catch (error) {
            this.close();
            throw error;
        }
        putUnits(shared, bytes, form, this.#length, this.#units.at);
        // Marks of all zeros are not set.
        shared.memory.bytes.fill(0, this.#marks.at, this.#marks.at + MARK_BYTES * this.#count);
    }

    /** The player, for reading only. It belongs to the seeker. */
    get player() {
        return this.#player;
    }

    /** The number of blocks or packs of the stream. */
    get length() {
        return this.#length;
    }

    /** The number of blocks or packs that the player has read. */
    get position() {
        return this.#position;
    }

    /** Seeks to the position after the first `position` blocks or packs. */
    seek(position) {
        const to = numberOf("position", position, this.#length);
        if (this.#units === null) {
            throw new Error("the seeker is closed");
        }
        const isNear = to >= this.#position && Math.floor(to / this.#every) === Math.floor(this.#position / this.#every);
        if (isNear) {
            this.#readTo(to);
        } else {
            this.#seekFromMark(to);
        }
        this.#position = to;
    }

    /** Seeks forward without a mark in between: the player reads on. */
    #readTo(to) {
        const at = BigInt(this.#units.at + this.#unit * this.#position);
        const count = to - this.#position;
        const call = this.#form === "cdg" ? "draw_all" : "feed_changes";
        callWithPlayer(this.#player, call, at, BigInt(count), BigInt(this.#shared.work));
    }

    #seekFromMark(to) {
        const units = [BigInt(this.#units.at), BigInt(this.#length), BigInt(to)];
        const marks = [BigInt(this.#marks.at), BigInt(this.#count), this.#every];
        const answer = this.#form === "cdg" ? callWithPlayer(this.#player, "seek_packs", ...units, ...marks)
            : callWithPlayer(this.#player, "seek", this.#form === "packs" ? 1 : 0, this.#leadIn, ...units, ...marks);
        if (answer !== 0) {
            throw new Error(`the module refuses to seek: ${answer}`);
        }
    }

    /** Frees the player, the marks and the copy of the stream. */
    close() {
        this.#player.close();
        [this.#units, this.#marks].filter((it) => it !== null).forEach((it) => this.#shared.memory.free(it));
        [this.#units, this.#marks] = [null, null];
    }
}

/** The rows of a survey. */
export class Survey {
    #bytes;
    #numbers;

    constructor(bytes) {
        this.#bytes = bytesOf("bytes", bytes);
        if (this.#bytes.length % ROW_BYTES !== 0) {
            throw new RangeError(`bytes: expected rows of ${ROW_BYTES} bytes, got ${this.#bytes.length} bytes`);
        }
        this.#numbers = new DataView(this.#bytes.buffer, this.#bytes.byteOffset, this.#bytes.byteLength);
    }

    /** The number of surveyed blocks. */
    get length() {
        return this.#bytes.length / ROW_BYTES;
    }

    #row(block) {
        if (this.length === 0) {
            throw new RangeError("block: the survey has none");
        }
        return ROW_BYTES * numberOf("block", block, this.length - 1);
    }

    /** The words that end with a block: the numbers of codewords, of words with one or two wrong symbols, and of bad words. */
    words(block) {
        const at = this.#row(block);
        return {
            clean: this.#bytes[at + 4],
            one: this.#bytes[at + 5],
            two: this.#bytes[at + 6],
            bad: this.#bytes[at + 7],
        };
    }

    /** The Q frame of a block: its kind (0 to 7; 253 to 255 if it has none), track, index and absolute time in blocks. */
    frame(block) {
        const at = this.#row(block);
        return {
            kind: this.#bytes[at + 8],
            track: this.#bytes[at + 9],
            index: this.#bytes[at + 10],
            absolute: this.#numbers.getUint32(at, true),
        };
    }

    /** Whether all bytes of a block are zero. */
    isEmpty(block) {
        return this.#bytes[this.#row(block) + 11] === 1;
    }

    /** The sums over all rows. */
    sums() {
        const sums = { clean: 0, one: 0, two: 0, bad: 0, frames: 0, badFrames: 0 };
        for (let at = 0; at < this.#bytes.length; at += ROW_BYTES) {
            sums.clean += this.#bytes[at + 4];
            sums.one += this.#bytes[at + 5];
            sums.two += this.#bytes[at + 6];
            sums.bad += this.#bytes[at + 7];
            const kind = this.#bytes[at + 8];
            if (kind < 8) {
                sums.frames += 1;
            } else if (kind > 253) {
                sums.badFrames += 1;
            }
        }
        return sums;
    }
}

/** The packs that `take` has written, 28 bytes each, as packs of a .cdg file, and the number of those that cannot be corrected. */
function readPacks(memory, count, at) {
    const read = memory.words(at, (READ_PACK_BYTES / 4) * count);
    const packs = new Uint32Array((PACK_BYTES / 4) * count);
    let bad = 0;
    for (let pack = 0; pack < count; pack += 1) {
        const [from, to] = [7 * pack, 6 * pack];
        if (read[from + 6] > 2) {
            bad += 1;
            continue;
        }
        for (let k = 0; k < 6; k += 1) {
            packs[to + k] = read[from + k];
        }
    }
    return { packs: new Uint8Array(packs.buffer), bad };
}

/** Copies blocks, or packs of a .cdg file, to a place in the module's memory. Planar blocks are converted to raw ones. */
function putUnits({ memory, chunk }, bytes, form, count, at) {
    if (form === "planar") {
        for (let done = 0; done < count; done += BLOCKS_A_CHUNK) {
            const more = Math.min(BLOCKS_A_CHUNK, count - done);
            memory.put(chunk, bytes.subarray(BLOCK_BYTES * done, BLOCK_BYTES * (done + more)));
            memory.fromPlanar(chunk, at + BLOCK_BYTES * done, more);
        }
    } else if (form === "sectors") {
        for (let block = 0; block < count; block += 1) {
            const end = SECTOR_BYTES * (block + 1);
            memory.put(at + BLOCK_BYTES * block, bytes.subarray(end - BLOCK_BYTES, end));
        }
    } else {
        memory.put(at, bytes.subarray(0, (form === "cdg" ? PACK_BYTES : BLOCK_BYTES) * count));
    }
}

/** The smallest rectangle around two rectangles; the first one may be null. */
function around(one, other) {
    if (one === null) {
        return other;
    }
    const [x, y] = [Math.min(one.x, other.x), Math.min(one.y, other.y)];
    return {
        x,
        y,
        width: Math.max(one.x + one.width, other.x + other.width) - x,
        height: Math.max(one.y + one.height, other.y + other.height) - y,
    };
}

/** Converts planar blocks, at most a chunk, to raw ones. Returns a view that the next call may overwrite. */
function rawFromPlanar({ memory, chunk, converted: to }, planar) {
    memory.put(chunk, planar);
    memory.fromPlanar(chunk, to, planar.length / BLOCK_BYTES);
    return memory.bytes.subarray(to, to + planar.length);
}

// ---- arguments

/** A description of a value for an error message. */
function kindOf(value) {
    if (value === null || value === undefined) {
        return `${value}`;
    }
    if (typeof value === "object" || typeof value === "function") {
        return value.constructor?.name || typeof value;
    }
    return `${typeof value} ${String(value)}`;
}

/** Bytes: a Uint8Array (a Buffer too), a Uint8ClampedArray or an ArrayBuffer. */
function bytesOf(name, value) {
    const isBuffer = value instanceof ArrayBuffer || (typeof SharedArrayBuffer !== "undefined" && value instanceof SharedArrayBuffer);
    if (!isBuffer && !(value instanceof Uint8Array) && !(value instanceof Uint8ClampedArray)) {
        throw new TypeError(`${name}: expected a Uint8Array or an ArrayBuffer, got ${kindOf(value)}`);
    }
    if ((isBuffer ? value : value.buffer).detached === true) {
        throw new TypeError(`${name}: its buffer is detached`);
    }
    return isBuffer ? new Uint8Array(value) : value;
}

function exactly(name, value, count) {
    const bytes = bytesOf(name, value);
    if (bytes.length !== count) {
        throw new RangeError(`${name}: expected ${count} bytes, got ${bytes.length}`);
    }
    return bytes;
}

/** A whole number from 0 to a maximum. */
function numberOf(name, value, most) {
    if (typeof value !== "number") {
        throw new TypeError(`${name}: expected a number, got ${kindOf(value)}`);
    }
    if (!Number.isInteger(value) || value < 0 || value > most) {
        throw new RangeError(`${name}: expected a whole number from 0 to ${most}, got ${value}`);
    }
    return value;
}

function optionsOf(options) {
    if (typeof options !== "object" || options === null) {
        throw new TypeError(`options: expected an object, got ${kindOf(options)}`);
    }
    return options;
}

function leadInOf({ leadIn = 0 }) {
    return numberOf("leadIn", leadIn, MOST_LEAD_IN);
}

function formIn(form, forms) {
    if (typeof form !== "string") {
        throw new TypeError(`form: expected a string, got ${kindOf(form)}`);
    }
    if (!forms.includes(form)) {
        throw new RangeError(`form: expected one of ${forms.join(", ")}, got ${form}`);
    }
    return form;
}

function unitOf(form) {
    return formIn(form, [...FORMS.keys()]) === "sectors" ? SECTOR_BYTES : BLOCK_BYTES;
}

function streamOptions(options) {
    const { form = "raw" } = optionsOf(options);
    return { form, unit: unitOf(form), leadIn: leadInOf(options) };
}

function playerOptions(options) {
    const { form = "raw" } = optionsOf(options);
    return { form: formIn(form, [...PLAYER_FORMS.keys()]), leadIn: leadInOf(options) };
}

function seekerOptions(options) {
    const { form = "raw" } = optionsOf(options);
    formIn(form, [...FORMS.keys(), "cdg"]);
    const leadIn = leadInOf(options);
    if (form === "cdg" && leadIn > 0) {
        throw new RangeError(`leadIn: expected 0 for a .cdg file, got ${leadIn}`);
    }
    return { form, leadIn, unit: form === "cdg" ? PACK_BYTES : unitOf(form) };
}

/** The distance of marks: ten seconds, or more if there would be too many marks. */
function everyOf({ form = "raw", marks = 128 }, length) {
    const most = numberOf("marks", marks, 1_000_000);
    const least = 10 * (form === "cdg" ? PACKS_A_SECOND : BLOCKS_A_SECOND);
    return most === 0 ? length + 1 : Math.max(least, Math.ceil((length + 1) / most));
}

function pictureOptions(options) {
    const { levels = false, clear = [] } = optionsOf(options);
    if (typeof levels !== "boolean") {
        throw new TypeError(`levels: expected true or false, got ${kindOf(levels)}`);
    }
    if (!Array.isArray(clear)) {
        throw new TypeError(`clear: expected an array of colour numbers, got ${kindOf(clear)}`);
    }
    clear.forEach((colour, k) => numberOf(`clear[${k}]`, colour, COLOURS - 1));
    return { levels, clear };
}

/** The pixels of an `ImageData`, or of an object with such `data`. */
function pixelsOf(image) {
    const data = image?.data;
    if (!(data instanceof Uint8ClampedArray) && !(data instanceof Uint8Array)) {
        throw new TypeError(`image: expected an ImageData, got ${kindOf(image)}`);
    }
    if (data.length !== 4 * PIXELS || (image.width ?? WIDTH) !== WIDTH) {
        throw new RangeError(`image: expected ${WIDTH} by ${HEIGHT} pixels, got ${data.length} bytes`);
    }
    return data;
}

function wholeUnits(stream, options) {
    const bytes = bytesOf("stream", stream);
    const { unit } = streamOptions(options);
    if (bytes.length % unit !== 0) {
        throw new RangeError(`stream: expected whole units of ${unit} bytes, got ${bytes.length} bytes`);
    }
    return bytes;
}

function wholePacks(packs) {
    const bytes = bytesOf("packs", packs);
    if (bytes.length % PACK_BYTES !== 0) {
        throw new RangeError(`packs: expected whole packs of ${PACK_BYTES} bytes, got ${bytes.length} bytes`);
    }
    return bytes;
}
