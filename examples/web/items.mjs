// Finds the playable items in the files that are opened together: graphics, each with the sound and the sheet of the same name.
import { bytesOfBlob } from "./detect.mjs";
import { ZipError, isZip, zipFiles } from "./zip.mjs";

const SOUND_TYPES = new Map([["mp3", "audio/mpeg"], ["ogg", "audio/ogg"], ["oga", "audio/ogg"], ["opus", "audio/ogg; codecs=opus"],
    ["m4a", "audio/mp4"], ["aac", "audio/aac"], ["flac", "audio/flac"], ["webm", "audio/webm"], ["wav", "audio/wav"]]);
const STREAMS = new Set(["sub", "subcode", "raw", "cooked", "dump"]);
const IMAGES = new Set(["img", "bin"]);
const SHEETS = new Set(["cue", "ccd"]);
// Files that belong to dumps and songs, and are never played.
const OTHERS = new Set(["toc", "mds", "state", "log", "txt", "nfo", "jpg", "jpeg", "png", "gif", "webp", "pdf", "lrc", "srt", "kar",
    "mid", "html", "htm", "url", "db", "ini", "m3u", "m3u8", "md5", "sfv", "xml", "json", "script", "cdt"]);
export const AUDIO_SECTOR = 2352;
const MOST_SHEET = 2 ** 20;
const MOST_FILES = 10_000;

function nameParts(path) {
    const name = path.split("/").at(-1);
    const dot = name.lastIndexOf(".");
    const stem = dot > 0 ? name.slice(0, dot) : name;
    return {
        name,
        folder: path.slice(0, path.length - name.length),
        stem: stem.normalize("NFC").toLowerCase(),
        ending: dot > 0 ? name.slice(dot + 1).toLowerCase() : "",
    };
}

/** An opened file or a file in a zip: its path and its name, and `blob()`, which reads it. */
function entryOf(path, size, blob, why = "") {
    return { ...nameParts(path), size, blob, why };
}

/** The dropped or chosen files; zips are replaced by their files. `wrong` has a line for each unreadable file. */
export async function entriesOf(files) {
    const entries = [];
    const wrong = [];
    for (const { path, file } of files) {
        const entry = entryOf(path, file.size, async () => file);
        if (entry.ending !== "zip" && !(entry.ending === "" && (await isZip(file)))) {
            entries.push(entry);
            continue;
        }
        try {
            for (const inside of await zipFiles(file)) {
                entries.push(entryOf(`${path}/${inside.name}`, inside.size, () => inside.blob(), inside.why));
            }
        } catch (error) {
            if (!(error instanceof ZipError)) {
                throw error;
            }
            wrong.push(`${entry.name}: ${error.message}`);
        }
    }
    return { entries, wrong };
}

/** The dropped files, including those in folders. */
export async function filesOfDrop(transfer) {
    const roots = [...transfer.items].filter((it) => it.kind === "file").map((it) => it.webkitGetAsEntry?.() ?? it.getAsFile());
    const found = [];
    for (const root of roots) {
        await gather(root, "", found);
    }
    return found;
}

async function gather(root, folder, found) {
    if (root === null || found.length >= MOST_FILES) {
        return;
    }
    if (root instanceof File) {
        found.push({ path: folder + root.name, file: root });
    } else if (root.isFile) {
        const file = await new Promise((done, failed) => { root.file(done, failed); });
        found.push({ path: folder + root.name, file });
    } else if (root.isDirectory) {
        const reader = root.createReader();
        for (;;) {
            const some = await new Promise((done, failed) => { reader.readEntries(done, failed); });
            if (some.length === 0) {
                return;
            }
            for (const entry of some) {
                await gather(entry, `${folder}${root.name}/`, found);
            }
        }
    }
}

export const isSound = (entry) => SOUND_TYPES.has(entry.ending);
export const soundType = (entry) => SOUND_TYPES.get(entry.ending);

/**
 * The items in files, in the order of the files: `{ name, graphics, sound, image, sheet, why }`. `sound` has the same name as
 * `graphics`. `image` has the sectors to which the subcode of `graphics` belongs. If the item cannot be played, `why` is the reason.
 */
export function itemsOf(entries) {
    const all = entries.filter((it) => it.size > 0 || it.why !== "");
    const sounds = all.filter(isSound);
    const items = [];
    for (const entry of graphicsIn(all)) {
        const related = all.filter((it) => it.folder === entry.folder && it.stem === entry.stem && it !== entry);
        const image = IMAGES.has(entry.ending) || entry.ending === "cdg" ? undefined : related.find((it) => IMAGES.has(it.ending));
        items.push({
            name: entry.name,
            graphics: entry,
            sound: related.find(isSound) ?? only(sounds.filter((it) => it.stem === entry.stem)),
            image,
            sheet: related.find((it) => SHEETS.has(it.ending)),
            why: entry.why,
        });
    }
    // If there are only one graphics file and one sound, they belong together even if their names differ.
    if (items.length === 1 && items[0].image === undefined) {
        items[0].sound ??= only(sounds);
    }
    return items;
}

const only = (list) => (list.length === 1 ? list[0] : undefined);

/** The files that may have graphics. An image counts only if there is no stream with its name. */
function graphicsIn(entries) {
    const isStream = (it) => it.ending === "cdg" || STREAMS.has(it.ending);
    const hasStream = (it) => entries.some((other) => isStream(other) && other.ending !== "cdg" && other.folder === it.folder &&
        other.stem === it.stem);
    const known = entries.filter((it) => isStream(it) || (IMAGES.has(it.ending) && !hasStream(it)));
    return known.length > 0 ? known
        : entries.filter((it) => !isSound(it) && !SHEETS.has(it.ending) && !OTHERS.has(it.ending) && it.ending !== "zip");
}

// ---- sheets

/** Reads from a sheet whether all tracks of an image are audio, and whether the bytes of each sample are swapped. */
export async function tracksOf(sheet) {
    if (sheet === undefined || sheet.size > MOST_SHEET) {
        return { isAudio: true, isSwapped: false };
    }
    const text = new TextDecoder().decode(await bytesOfBlob(await sheet.blob()));
    return sheet.ending === "cue" ? tracksOfCue(text) : tracksOfCcd(text);
}

function tracksOfCue(text) {
    const kinds = [...text.matchAll(/^\s*TRACK\s+\d+\s+(\S+)/gim)].map((it) => it[1].toUpperCase());
    return {
        isAudio: kinds.every((it) => it === "AUDIO" || it === "CDG"),
        isSwapped: /^\s*FILE\s.*\sMOTOROLA\s*$/im.test(text),
    };
}

/** Reads a sheet of CloneCD. The control bit 4 of an entry marks a data track. */
function tracksOfCcd(text) {
    const entries = text.split(/^\s*\[/m).filter((it) => /^Entry/i.test(it));
    const isData = (entry) => {
        const point = Number(/^\s*Point\s*=\s*(\S+)/im.exec(entry)?.[1] ?? 0);
        const control = Number(/^\s*Control\s*=\s*(\S+)/im.exec(entry)?.[1] ?? 0);
        return point >= 1 && point <= 99 && (control & 4) !== 0;
    };
    return { isAudio: !entries.some(isData), isSwapped: false };
}

// ---- the sound of images

const WAVE_HEADER = 44;
const SAMPLES_A_SECOND = 44_100;
const SAMPLE_BYTES = 4;
const READ_SECTORS = 4000;

/** The audio of an image as a WAV file: the first 2,352 bytes of each unit. Units of this size are not copied. */
export async function soundOfImage(blob, unit, skip, isSwapped, onProgress) {
    const sectors = Math.floor((blob.size - skip) / unit);
    if (unit === AUDIO_SECTOR && !isSwapped) {
        return waveOf([blob.slice(skip, skip + unit * sectors)], AUDIO_SECTOR * sectors);
    }
    const parts = [];
    for (let first = 0; first < sectors; first += READ_SECTORS) {
        const count = Math.min(READ_SECTORS, sectors - first);
        const bytes = await bytesOfBlob(blob, skip + unit * first, skip + unit * (first + count));
        const audio = new Uint8Array(AUDIO_SECTOR * count);
        for (let sector = 0; sector < count; sector += 1) {
            audio.set(bytes.subarray(unit * sector, unit * sector + AUDIO_SECTOR), AUDIO_SECTOR * sector);
        }
        if (isSwapped) {
            swapBytes(audio);
        }
        // The browser can move a blob out of memory.
        parts.push(new Blob([audio]));
        await onProgress?.((first + count) / sectors);
    }
    return waveOf(parts, AUDIO_SECTOR * sectors);
}

function swapBytes(bytes) {
    for (let at = 0; at + 1 < bytes.length; at += 2) {
        [bytes[at], bytes[at + 1]] = [bytes[at + 1], bytes[at]];
    }
}

function waveOf(parts, length) {
    const header = new DataView(new ArrayBuffer(WAVE_HEADER));
    const words = (at, text) => [...text].forEach((letter, k) => header.setUint8(at + k, letter.charCodeAt(0)));
    words(0, "RIFF");
    header.setUint32(4, length + WAVE_HEADER - 8, true);
    words(8, "WAVEfmt ");
    header.setUint32(16, 16, true);
    header.setUint16(20, 1, true);
    header.setUint16(22, 2, true);
    header.setUint32(24, SAMPLES_A_SECOND, true);
    header.setUint32(28, SAMPLES_A_SECOND * SAMPLE_BYTES, true);
    header.setUint16(32, SAMPLE_BYTES, true);
    header.setUint16(34, 16, true);
    words(36, "data");
    header.setUint32(40, length, true);
    return new Blob([header, ...parts], { type: "audio/wav" });
}
