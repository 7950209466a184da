// Detects the form of the subcode in a file, and the length of its lead-in. The rules are those of the desk's command `identify`,
// but without its search for headers of unknown length and for bits or bytes in another order.
import { BLOCK_BYTES, NO_TIME, PACK_BYTES } from "../../lib/web/ribjasper.mjs";
import { TimeSlice } from "./time_slice.mjs";

const AUDIO_BYTES = 2352;
// P and Q as some drives return them: the frame, three bytes of zeros, and P in the highest bit of the last byte.
const PQ_BYTES = 16;
const FRAME_BYTES = 12;

/** The forms of files: a label, the bytes of a unit, the number of its last bytes that are subcode, and the coding of these. */
const FORMS_OF_FILES = [
    { name: "raw", label: "raw subcode", unit: BLOCK_BYTES, size: BLOCK_BYTES, coding: "raw" },
    { name: "pq", label: "channels P and Q only", unit: PQ_BYTES, size: PQ_BYTES, coding: "pq" },
    { name: "planar", label: "subcode in the planar form", unit: BLOCK_BYTES, size: BLOCK_BYTES, coding: "planar" },
    { name: "sector", label: "an image with sectors of 2,448 bytes", unit: AUDIO_BYTES + BLOCK_BYTES, size: BLOCK_BYTES, coding: "raw" },
    { name: "sector-pq", label: "an image with channels P and Q only", unit: AUDIO_BYTES + PQ_BYTES, size: PQ_BYTES, coding: "pq" },
    {
        name: "sector-planar", label: "an image with sectors of 2,448 bytes, their subcode planar",
        unit: AUDIO_BYTES + BLOCK_BYTES, size: BLOCK_BYTES, coding: "planar",
    },
    { name: "cooked", label: "blocks of four packs", unit: BLOCK_BYTES, size: BLOCK_BYTES, coding: "packs" },
    {
        name: "cooked-sector", label: "an image with sectors of 2,448 bytes, their subcode packs",
        unit: AUDIO_BYTES + BLOCK_BYTES, size: BLOCK_BYTES, coding: "packs",
    },
    { name: "cdg", label: "a .cdg file", unit: PACK_BYTES, size: PACK_BYTES, coding: "cdg" },
];
export const formNamed = (name) => FORMS_OF_FILES.find((it) => it.name === name);

// Forms are tried on windows of this many bytes: first on a few nonempty windows, and if these are not enough, on more.
const WINDOW = 1 << 17;
const FEW = { places: 64, windows: 12 };
const MANY = { places: 2048, windows: 64 };
// The probabilities that random bytes look valid: as a Q frame with a valid check, as one with valid fields too, as one with valid
// fields but no check, as a word near a codeword, and as the first two symbols of a graphics pack. The probability that random
// bytes look like a form must be below UNLIKELY.
const CHANCE = { frame: 2 ** -16, fields: 1e-9, unchecked: 1e-5, word: 1.6e-5, pack: 9 / 4096 };
const UNLIKELY = 1e-8;
// A form that explains this share of the nonempty units is accepted at once.
const SURE = 0.9;
// A form with a smaller share than COMPARABLE of the best share is dropped. One that explains at least NEARLY_EQUAL of the largest
// number of units counts as equal.
const COMPARABLE = 0.7;
const NEARLY_EQUAL = 0.95;
const LIKELY_BY_Q = 0.2;
const LIKELY_BY_WORDS = 0.5;
// Words decide instead of Q if Q explains a smaller share than this, and the words are likely.
const LITTLE_BY_Q = 0.05;
const LEAST_PACKS = 0.2;
const LEAST_WORDS = 0.05;
const LEAST_UNCHECKED = 0.25;
const GRAPHICS = 9;
const INSTRUCTIONS = new Set([1, 2, 6, 20, 24, 28, 30, 31, 38]);
const OTHER_FRAME = 7;

export async function bytesOfBlob(blob, from = 0, to = blob.size) {
    return new Uint8Array(await blob.slice(from, to).arrayBuffer());
}

// ---- the subcode of units

/** The subcode of whole units: raw blocks, blocks of packs, or packs. */
export function subcodeOf(ribjasper, units, form) {
    const subcode = form.unit === form.size ? units : lastBytes(units, form);
    if (form.coding === "planar") {
        return ribjasper.fromPlanar(subcode);
    }
    return form.coding === "pq" ? blocksOfPq(ribjasper, subcode) : subcode;
}

/** The last bytes of each unit. */
function lastBytes(units, form) {
    const count = Math.floor(units.length / form.unit);
    const found = new Uint8Array(count * form.size);
    for (let unit = 0; unit < count; unit += 1) {
        const end = form.unit * (unit + 1);
        found.set(units.subarray(end - form.size, end), form.size * unit);
    }
    return found;
}

/** Raw blocks with these P and Q, and zeros in the channels R to W. */
function blocksOfPq(ribjasper, content) {
    const count = Math.floor(content.length / PQ_BYTES);
    const planar = new Uint8Array(BLOCK_BYTES * count);
    for (let k = 0; k < count; k += 1) {
        const unit = content.subarray(PQ_BYTES * k, PQ_BYTES * (k + 1));
        if (unit[PQ_BYTES - 1] & 0x80) {
            planar.fill(0xff, BLOCK_BYTES * k, BLOCK_BYTES * k + FRAME_BYTES);
        }
        planar.set(withCheck(unit), BLOCK_BYTES * k + FRAME_BYTES);
    }
    return ribjasper.fromPlanar(planar);
}

/** The frame of a unit. If the drive omitted its check, the check is computed. */
function withCheck(unit) {
    const frame = unit.slice(0, FRAME_BYTES);
    const hasNoCheck = frame.some((byte, k) => k < 10 && byte !== 0) && unit.subarray(10).every((byte) => (byte & 0x7f) === 0);
    if (hasNoCheck) {
        const check = checkOf(frame.subarray(0, 10)) ^ 0xffff;
        frame.set([check >> 8, check & 0xff], 10);
    }
    return frame;
}

/** CRC-16 with the polynomial x^16 + x^12 + x^5 + 1 of ECMA-130. */
function checkOf(bytes) {
    let check = 0;
    for (const byte of bytes) {
        check ^= byte << 8;
        for (let bit = 0; bit < 8; bit += 1) {
            check = (check & 0x8000 ? (check << 1) ^ 0x1021 : check << 1) & 0xffff;
        }
    }
    return check;
}

// ---- the form

/** Detects the form of a file: `{ found: { form, skip, evidence }, why }`. If no form fits, `found` is null and `why` is the reason. */
export async function formOf(ribjasper, blob) {
    const candidates = [];
    let tried = 0;
    for (const extent of [FEW, MANY]) {
        const windows = await windowsOf(blob, extent);
        if (windows.length <= tried) {
            continue;
        }
        tried = windows.length;
        for (const form of FORMS_OF_FILES.filter((it) => it.unit <= blob.size)) {
            for (const skip of new Set([0, blob.size % form.unit])) {
                const candidate = { form, skip, evidence: await evidenceOf(ribjasper, windows, form, skip) };
                candidates.push(candidate);
                if (isSureAmong(candidate, candidates)) {
                    return { found: candidate, why: "" };
                }
            }
        }
        const best = bestOf(candidates);
        if (best !== null && isLikely(explainedBy(best))) {
            break;
        }
    }
    if (tried === 0) {
        return { found: null, why: blob.size === 0 ? "it is empty" : "all its bytes are zeros" };
    }
    return { found: cdgByLength(blob, bestOf(candidates)), why: "no known form of subcode fits" };
}

/** Changes the form of packs with parity to .cdg if their number is not a multiple of four. */
function cdgByLength(blob, found) {
    const isCdg = found?.form.name === "cooked" && (blob.size - found.skip) % BLOCK_BYTES !== 0;
    return isCdg ? { ...found, form: formNamed("cdg") } : found;
}

/** Nonempty windows of a file at regular distances. */
async function windowsOf(blob, { places: most, windows: enough }) {
    const places = Math.ceil(blob.size / WINDOW);
    const starts = places <= most
        ? Array.from({ length: places }, (_, k) => WINDOW * k)
        : Array.from({ length: most }, (_, k) => Math.floor((blob.size * k) / most));
    const full = [];
    for (const start of starts) {
        const content = await bytesOfBlob(blob, start, start + WINDOW);
        if (content.some((byte) => byte !== 0)) {
            full.push({ start, content });
        }
    }
    return full.length <= enough ? full : Array.from({ length: enough }, (_, k) => full[Math.floor((full.length * k) / enough)]);
}

/** The evidence for a form: the numbers of nonempty Q frames, of valid ones and of ones with known fields (`frames`, `good`, `fields`);
 * of valid nonempty words, of all nonempty words, and of all words (`carrying`, `busy`, `words`). */
async function evidenceOf(ribjasper, windows, form, skip) {
    const total = { frames: 0, good: 0, fields: 0, carrying: 0, busy: 0, words: 0 };
    const add = (counts) => Object.entries(counts).forEach(([name, count]) => { total[name] += count; });
    const timeSlice = new TimeSlice();
    for (const { start, content } of windows) {
        await timeSlice.pause();
        const first = Math.max(0, Math.ceil((start - skip) / form.unit));
        const from = skip + first * form.unit - start;
        const count = Math.max(0, Math.floor((content.length - from) / form.unit));
        const subcode = subcodeOf(ribjasper, content.subarray(from, from + count * form.unit), form);
        if (subcode.length === 0) {
            continue;
        }
        if (form.coding === "cdg") {
            add(packsIn(subcode));
            continue;
        }
        if (form.coding !== "packs") {
            add(framesIn(ribjasper, subcode));
        }
        if (form.coding !== "pq") {
            add(wordsIn(ribjasper, subcode, form.coding === "packs" ? "packs" : "raw"));
        }
    }
    return total;
}

function framesIn(ribjasper, blocks) {
    const survey = ribjasper.survey(blocks);
    const found = { frames: 0, good: 0, fields: 0 };
    for (let block = 0; block < survey.length; block += 1) {
        const { kind } = survey.frame(block);
        found.frames += survey.isEmpty(block) ? 0 : 1;
        found.good += kind <= OTHER_FRAME ? 1 : 0;
        found.fields += kind < OTHER_FRAME ? 1 : 0;
    }
    return found;
}

function wordsIn(ribjasper, blocks, form) {
    const { packs, bad } = ribjasper.convert(blocks, { form });
    let carrying = 0;
    for (let at = 0; at < packs.length; at += PACK_BYTES) {
        carrying += packs[at] === 0 ? 0 : 1;
    }
    return { carrying, busy: carrying + bad, words: packs.length / PACK_BYTES };
}

function packsIn(packs) {
    const found = { carrying: 0, busy: 0, words: packs.length / PACK_BYTES };
    for (let at = 0; at < packs.length; at += PACK_BYTES) {
        const pack = packs.subarray(at, at + PACK_BYTES);
        found.busy += pack.some((byte) => (byte & 63) !== 0) ? 1 : 0;
        found.carrying += (pack[0] & 63) === GRAPHICS && INSTRUCTIONS.has(pack[1] & 63) ? 1 : 0;
    }
    return found;
}

/** The share and the number of the nonempty units that a form explains by Q or by words; null if chance explains them too. */
function explainedBy({ form, evidence }) {
    const { frames, good, fields, carrying, busy, words } = evidence;
    if (form.coding === "pq") {
        // A missing check was computed and is always right, so the fields decide.
        const isFound = fields >= LEAST_UNCHECKED * frames && isAboveChance(fields, frames, CHANCE.unchecked);
        return isFound ? { byQ: true, share: fields / frames, size: fields } : null;
    }
    if (isAboveChance(good, frames, CHANCE.frame) || isAboveChance(fields, frames, CHANCE.fields)) {
        return { byQ: true, share: good / Math.max(frames, good), size: good };
    }
    const isFound = form.coding === "cdg"
        ? carrying >= LEAST_PACKS * busy && isAboveChance(carrying, busy, CHANCE.pack)
        : carrying >= LEAST_WORDS * busy && isAboveChance(carrying, words, CHANCE.word);
    return isFound ? { byQ: false, share: carrying / busy, size: carrying } : null;
}

/** Whether random bytes would hardly have this number of valid units, by the Poisson distribution. */
function isAboveChance(count, of, chance) {
    const expected = of * chance;
    if (count <= expected) {
        return false;
    }
    let logFactorial = 0;
    for (let k = 2; k <= count; k += 1) {
        logFactorial += Math.log(k);
    }
    return count * Math.log(expected) - logFactorial < Math.log(UNLIKELY);
}

function isSureAmong(candidate, candidates) {
    const found = explainedBy(candidate);
    return found !== null && found.byQ && found.share >= SURE &&
        candidates.every((it) => (explainedBy(it)?.size ?? 0) * NEARLY_EQUAL <= found.size);
}

function isLikely({ byQ, share }) {
    return share >= (byQ ? LIKELY_BY_Q : LIKELY_BY_WORDS);
}

/** The candidate that explains the most. Of equal candidates, the one with the fewest words and frames. */
function bestOf(candidates) {
    const explained = candidates.map((it) => ({ it, by: explainedBy(it) })).filter(({ by }) => by !== null);
    const byQ = explained.filter(({ by }) => by.byQ);
    const byWords = explained.filter(({ by }) => !by.byQ);
    const most = (list, of) => list.reduce((high, { by }) => Math.max(high, by[of]), 0);
    const qDecides = byQ.length > 0 && (most(byQ, "share") >= LITTLE_BY_Q || !byWords.some(({ by }) => isLikely(by)));
    let left = qDecides ? byQ : byWords;
    left = left.filter(({ by }) => by.share >= COMPARABLE * most(left, "share"));
    left = left.filter(({ by }) => by.size >= NEARLY_EQUAL * most(left, "size"));
    const rank = ({ it, by }) => [
        it.evidence.words + it.evidence.frames, -Math.round(by.share * 100) / 100, FORMS_OF_FILES.indexOf(it.form), it.skip,
    ];
    left.sort((one, other) => {
        const [a, b] = [rank(one), rank(other)];
        const place = a.findIndex((value, k) => value !== b[k]);
        return place < 0 ? 0 : a[place] - b[place];
    });
    return left[0]?.it ?? null;
}

// ---- the lead-in

// Pieces with fewer frames are ignored if there is a longer piece, because their frames are probably wrong.
const FEWEST = 3;
// A piece decides if it has a second of frames, or a hundredth of all frames.
const DECIDES = 75;
const SHARE = 100;
const MOST_PIECES = 300;
const [TABLE_FIRST, TABLE_LAST] = [1, 4];

/**
 * The number of blocks before the absolute time zero, from Q; null if no frame gives it. If there is a table of contents and no
 * program, all blocks are lead-in.
 */
export async function leadInOfSurvey(survey) {
    const { pieces, hasTable } = await timePieces(survey);
    const found = mainPieces(pieces);
    if (found.length === 0) {
        return hasTable ? survey.length : null;
    }
    const frames = found.reduce((sum, it) => sum + it.known, 0);
    const long = found.find((it) => it.known >= Math.min(DECIDES, Math.ceil(frames / SHARE)));
    const decisive = long ?? found.reduce((most, it) => (it.known > most.known ? it : most));
    return Math.max(0, -decisive.shift);
}

/** Pieces of consecutive absolute times: the first block, the block after the last, and the time minus the block number. */
async function timePieces(survey) {
    const pieces = [];
    const timeSlice = new TimeSlice();
    let hasTable = false;
    let before = null;
    for (let block = 0; block < survey.length; block += 1) {
        if (block % 10_000 === 0) {
            await timeSlice.pause();
        }
        const { kind, absolute } = survey.frame(block);
        hasTable ||= kind >= TABLE_FIRST && kind <= TABLE_LAST;
        if (absolute === NO_TIME) {
            before = null;
            continue;
        }
        if (before !== null && absolute - block === before.shift) {
            before.end = block + 1;
            before.known += 1;
        } else {
            before = { first: block, end: block + 1, shift: absolute - block, known: 1 };
            pieces.push(before);
        }
    }
    return { pieces, hasTable };
}

/** Joins neighbouring pieces with the same shift. */
function joined(pieces) {
    const found = [];
    for (const piece of pieces) {
        const before = found.at(-1);
        if (before !== undefined && before.shift === piece.shift) {
            found[found.length - 1] = { ...before, end: piece.end, known: before.known + piece.known };
        } else {
            found.push(piece);
        }
    }
    return found;
}

function mainPieces(pieces) {
    const all = joined(pieces);
    const long = joined(all.filter((it) => it.known >= FEWEST));
    return joined(inOrder(long.length > 0 ? long : all));
}

/** The pieces with ascending times that together have the most frames. This excludes stale subcode. */
function inOrder(pieces) {
    const longest = pieces.toSorted((one, other) => other.known - one.known).slice(0, MOST_PIECES)
        .toSorted((one, other) => one.first - other.first);
    const time = (it) => it.first + it.shift;
    const end = (it) => it.end + it.shift;
    const chains = [];
    longest.forEach((piece, place) => {
        let best = { frames: 0, before: -1 };
        for (let other = 0; other < place; other += 1) {
            const canFollow = time(longest[other]) < time(piece) && end(longest[other]) < end(piece);
            if (canFollow && chains[other].frames >= best.frames) {
                best = { frames: chains[other].frames, before: other };
            }
        }
        chains.push({ frames: best.frames + piece.known, before: best.before });
    });
    const found = [];
    let place = chains.reduce((most, it, k) => (it.frames > (chains[most]?.frames ?? -1) ? k : most), -1);
    while (place >= 0) {
        found.unshift(longest[place]);
        place = chains[place].before;
    }
    return found;
}
