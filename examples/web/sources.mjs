// The sources that the page plays: the packs of a .cdg file, or the blocks of a stream with their damage.
import { BLOCKS_A_SECOND, BLOCK_BYTES, MOST_LEAD_IN, PACKS_A_SECOND, PACK_BYTES } from "../../lib/web/ribjasper.mjs";
import { TimeSlice } from "./time_slice.mjs";
import { bytesOfBlob, formNamed, formOf, leadInOfSurvey, subcodeOf } from "./detect.mjs";

const MOST_BLOCKS = 1_000_000;
const PIECES = 1000;
const STEPS = 500;
const READ_BYTES = 2 ** 20;
const MODE_AND_ITEM = 9;

export const clock = (seconds) => {
    const whole = Math.max(0, Math.floor(seconds));
    return `${String(Math.floor(whole / 60)).padStart(2, "0")}:${String(whole % 60).padStart(2, "0")}`;
};

/** Plays a stream once to set its marks. Afterwards seeking is fast, because a mark is near each place. */
async function setMarks(seeker, timeSlice) {
    const step = Math.ceil(seeker.length / STEPS);
    for (let at = 0; at < seeker.length; at += step) {
        seeker.seek(at);
        await timeSlice.pause();
    }
    seeker.seek(0);
}

const piecesFor = (count) => Array.from({ length: Math.min(PIECES, count) }, () => ({ drawn: 0, corrected: 0, bad: 0, all: 0 }));

/** The source for a .cdg file: packs, 300 per second. */
class Packs {
    rate = PACKS_A_SECOND;
    leadIn = 0;
    canSave = false;
    hasDamage = false;

    constructor(ribjasper, bytes, rest) {
        this.ribjasper = ribjasper;
        this.bytes = bytes;
        this.count = bytes.length / PACK_BYTES;
        this.rest = rest;
        this.drawn = 0;
    }

    get form() {
        return formNamed("cdg").label;
    }

    /** Counts the packs and the drawing packs in each piece of time. */
    async read(timeSlice) {
        this.pieces = piecesFor(this.count);
        for (let k = 0; k < this.count; k += 1) {
            const piece = this.pieces[Math.floor((k * this.pieces.length) / this.count)];
            piece.all += 1;
            if ((this.bytes[PACK_BYTES * k] & 63) === MODE_AND_ITEM) {
                piece.drawn += 1;
                this.drawn += 1;
            }
            if (k % 10_000 === 0) {
                await timeSlice.pause();
            }
        }
    }

    /** Makes the player. */
    async start(timeSlice) {
        this.seeker = this.ribjasper.seeker(this.bytes, { form: "cdg" });
        await setMarks(this.seeker, timeSlice);
    }

    goTo(position) {
        this.seeker.seek(position);
    }

    get position() {
        return this.seeker.position;
    }

    close() {
        this.seeker?.close();
    }

    description() {
        const torn = this.rest > 0 ? `; torn: ${this.rest} bytes after the last whole pack` : "";
        return `${this.count} packs, ${this.drawn === 0 ? "none" : this.drawn} of them graphics${torn}`;
    }
}

/** The source for a stream: blocks, 75 per second. Time zero is the end of the lead-in. */
class Blocks {
    rate = BLOCKS_A_SECOND;
    hasDamage = true;

    constructor(ribjasper, bytes, form, rest) {
        this.ribjasper = ribjasper;
        this.bytes = bytes;
        this.form = form.label;
        this.rest = rest;
        this.options = { form: form.coding === "packs" ? "packs" : "raw", leadIn: 0 };
        this.blocks = bytes.length / BLOCK_BYTES;
    }

    get leadIn() {
        return this.options.leadIn;
    }

    get count() {
        return Math.max(0, this.blocks - this.leadIn);
    }

    get canSave() {
        return this.count > 0;
    }

    /** Surveys the stream with this lead-in, or otherwise with the lead-in according to Q. */
    async read(timeSlice, leadIn) {
        this.survey = await this.#surveyBlocks(timeSlice, leadIn ?? 0);
        this.source = leadIn === undefined ? "Q" : "you";
        if (leadIn === undefined && this.options.form === "raw") {
            const found = await leadInOfSurvey(this.survey);
            this.source = found === null ? "none" : "Q";
            if (found !== null && found > 0 && found <= MOST_LEAD_IN) {
                this.survey = await this.#surveyBlocks(timeSlice, found);
            }
        }
        this.sums = this.survey.sums();
        this.pieces = piecesFor(this.count);
        for (let block = 0; block < this.count; block += 1) {
            const words = this.survey.words(this.leadIn + block);
            const piece = this.pieces[Math.floor((block * this.pieces.length) / this.count)];
            piece.all += words.clean + words.one + words.two + words.bad;
            piece.corrected += words.one + words.two;
            piece.bad += words.bad;
            if (block % 10_000 === 0) {
                await timeSlice.pause();
            }
        }
    }

    /** Makes the player, with the lead-in of the last survey. */
    async start(timeSlice) {
        this.seeker?.close();
        this.seeker = this.ribjasper.seeker(this.bytes, this.options);
        await setMarks(this.seeker, timeSlice);
        this.goTo(0);
    }

    async #surveyBlocks(timeSlice, leadIn) {
        this.options = { ...this.options, leadIn };
        const work = this.ribjasper.surveying(this.bytes, this.options);
        for (;;) {
            const { done, value } = work.next();
            if (done) {
                return value;
            }
            await timeSlice.pause();
        }
    }

    goTo(position) {
        this.seeker.seek(Math.min(this.blocks, this.leadIn + position));
    }

    get position() {
        return Math.max(0, this.seeker.position - this.leadIn);
    }

    close() {
        this.seeker?.close();
    }

    description() {
        const { clean, one, two, bad, frames, badFrames } = this.sums;
        const leadIns = { Q: "by Q", you: "as you set it", none: "unknown, because no Q frame gives it: set it if there is one" };
        const q = this.options.form === "packs" ? "" : `; Q frames: ${frames} good, ${badFrames} bad`;
        const leadIn = this.options.form === "packs" && this.source !== "you" ? ""
            : `; lead-in: ${this.source === "none" ? leadIns.none : `${this.leadIn} blocks, ${leadIns[this.source]}`}`;
        const torn = this.rest > 0 ? `; torn: ${this.rest} bytes after the last whole unit` : "";
        return `${this.count} blocks; words: ${clean} clean, ${one} with one wrong symbol, ${two} with two, ${bad} bad` +
            `${q}${leadIn}${torn}`;
    }
}

/** Makes a source of a file. `onProgress` is called with the share that has been read. */
export async function sourceOf(ribjasper, entry, onProgress) {
    const blob = await entry.blob();
    const { form, skip } = entry.ending === "cdg" ? { form: formNamed("cdg"), skip: 0 } : await detectedForm(ribjasper, entry, blob);
    const units = Math.floor((blob.size - skip) / form.unit);
    const rest = (blob.size - skip) % form.unit;
    if (units === 0) {
        throw new Error(`${entry.name} has ${blob.size} bytes, less than one unit of ${form.unit}`);
    }
    if (units * (form.coding === "cdg" ? PACK_BYTES : BLOCK_BYTES) > BLOCK_BYTES * MOST_BLOCKS) {
        throw new Error(`${entry.name} has more than ${MOST_BLOCKS.toLocaleString("en")} blocks`);
    }
    const bytes = await subcodeOfFile(ribjasper, blob, form, skip, units, onProgress);
    const source = form.coding === "cdg" ? new Packs(ribjasper, bytes, rest) : new Blocks(ribjasper, bytes, form, rest);
    await source.read(new TimeSlice());
    return { source, form, skip, blob };
}

async function detectedForm(ribjasper, entry, blob) {
    const { found, why } = await formOf(ribjasper, blob);
    if (found === null) {
        throw new Error(`${entry.name} cannot be played: ${why}`);
    }
    if (found.form.coding === "pq") {
        throw new Error(`${entry.name} has ${found.form.label}, which have no graphics`);
    }
    return found;
}

async function subcodeOfFile(ribjasper, blob, form, skip, units, onProgress) {
    const bytes = new Uint8Array(units * form.size);
    const atOnce = Math.max(1, Math.floor(READ_BYTES / form.unit));
    const timeSlice = new TimeSlice();
    for (let first = 0; first < units; first += atOnce) {
        const count = Math.min(atOnce, units - first);
        const piece = await bytesOfBlob(blob, skip + form.unit * first, skip + form.unit * (first + count));
        bytes.set(subcodeOf(ribjasper, piece, form), form.size * first);
        onProgress?.((first + count) / units);
        await timeSlice.pause();
    }
    return bytes;
}

/** The packs of a stream as a .cdg file, in parts. */
export async function packsOfStream(source, onProgress, isActive) {
    const parts = [];
    const timeSlice = new TimeSlice();
    for (const part of source.ribjasper.converting(source.bytes, source.options)) {
        parts.push(part.packs);
        await timeSlice.pause();
        if (!isActive()) {
            return null;
        }
        onProgress(part.done / part.of);
    }
    return new Blob(parts, { type: "application/octet-stream" });
}
