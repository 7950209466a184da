// Reads zips. A file is unpacked only when it is read. The browser decompresses (DecompressionStream); this module reads and
// checks the directory, with a limit for each value in the zip.

const END = 0x06054b50;
const END_BYTES = 22;
const MOST_COMMENT = 0xffff;
const END_64 = 0x06064b50;
const END_64_BYTES = 56;
const LOCATOR = 0x07064b50;
const LOCATOR_BYTES = 20;
const ENTRY = 0x02014b50;
const ENTRY_BYTES = 46;
const LOCAL = 0x04034b50;
const LOCAL_BYTES = 30;
const WIDE = 0xffffffff;
const EXTRA_64 = 1;
const [STORED, DEFLATED] = [0, 8];
const METHODS = new Map([[1, "shrinking"], [6, "imploding"], [9, "Deflate64"], [12, "bzip2"], [14, "LZMA"], [20, "Zstandard"],
    [93, "Zstandard"], [95, "xz"], [96, "JPEG"], [97, "WavPack"], [98, "PPMd"], [99, "AES"]]);
/** The largest file that is unpacked, the largest directory, and the greatest number of files. */
export const MOST_UNPACKED = 512 * 2 ** 20;
const MOST_DIRECTORY = 32 * 2 ** 20;
const MOST_ENTRIES = 65_536;
// Packed bytes are passed to the browser in small slices, because each slice may become a thousand times longer.
const READ_AT_ONCE = 1 << 18;
const SLICE = 1 << 14;

const CRC_TABLE = Uint32Array.from({ length: 256 }, (_, byte) => {
    let value = byte;
    for (let bit = 0; bit < 8; bit += 1) {
        value = value & 1 ? (value >>> 1) ^ 0xedb88320 : value >>> 1;
    }
    return value;
});

function updatedCrc(crc, bytes) {
    let value = ~crc;
    for (let k = 0; k < bytes.length; k += 1) {
        value = CRC_TABLE[(value ^ bytes[k]) & 0xff] ^ (value >>> 8);
    }
    return ~value >>> 0;
}

/** An error about a zip or a file in it. */
export class ZipError extends Error {}

async function numbersAt(blob, from, size) {
    if (from < 0 || from + size > blob.size) {
        throw new ZipError("the zip is cut off: its directory refers to bytes outside of it");
    }
    return new DataView(await blob.slice(from, from + size).arrayBuffer());
}

/** An eight-byte number, which must be one that JavaScript can represent exactly. */
function wide(numbers, at) {
    const value = Number(numbers.getBigUint64(at, true));
    if (!Number.isSafeInteger(value)) {
        throw new ZipError("the zip has an impossible size");
    }
    return value;
}

/** Whether a file begins or ends like a zip. */
export async function isZip(blob) {
    if (blob.size < END_BYTES) {
        return false;
    }
    const numbers = await numbersAt(blob, 0, 4);
    return numbers.getUint32(0, true) === LOCAL || (await findEnd(blob)) !== null;
}

/** The record at the end of the zip, or null. Bytes after it are allowed. */
async function findEnd(blob) {
    const size = Math.min(blob.size, END_BYTES + MOST_COMMENT);
    const start = blob.size - size;
    const tail = await numbersAt(blob, start, size);
    let loose = null;
    for (let at = size - END_BYTES; at >= 0; at -= 1) {
        if (tail.getUint32(at, true) !== END) {
            continue;
        }
        const rest = size - at - END_BYTES - tail.getUint16(at + 20, true);
        const found = {
            at: start + at,
            count: tail.getUint16(at + 10, true),
            size: tail.getUint32(at + 12, true),
            offset: tail.getUint32(at + 16, true),
        };
        if (rest === 0) {
            return found;
        }
        loose ??= rest > 0 ? found : null;
    }
    return loose;
}

/** The record of a zip64, or null if the zip has none. */
async function findEnd64(blob, end) {
    if (end.at < LOCATOR_BYTES) {
        return null;
    }
    const locator = await numbersAt(blob, end.at - LOCATOR_BYTES, LOCATOR_BYTES);
    if (locator.getUint32(0, true) !== LOCATOR) {
        return null;
    }
    // If other bytes precede the zip, the place in the locator is wrong; then the record is directly before the locator.
    const places = [wide(locator, 8), end.at - LOCATOR_BYTES - END_64_BYTES];
    for (const at of places.filter((it) => it >= 0 && it + END_64_BYTES <= end.at)) {
        const numbers = await numbersAt(blob, at, END_64_BYTES);
        if (numbers.getUint32(0, true) === END_64) {
            return { at, count: wide(numbers, 32), size: wide(numbers, 40), offset: wide(numbers, 48) };
        }
    }
    throw new ZipError("the zip64 record of the zip is missing");
}

/** The files in a zip: name, size, and `blob()`, which unpacks the file. Folders and files added by macOS are omitted. */
export async function zipFiles(blob) {
    const short = await findEnd(blob);
    if (short === null) {
        throw new ZipError("the zip has no directory: it is cut off, or the file is not a zip");
    }
    const end = (await findEnd64(blob, short)) ?? short;
    if (end.size > MOST_DIRECTORY || end.count > MOST_ENTRIES) {
        throw new ZipError(`the directory of the zip is too long: ${end.count} files`);
    }
    const { start, before, directory } = await directoryOf(blob, end);
    const files = [];
    let at = 0;
    for (let k = 0; k < end.count; k += 1) {
        if (at + ENTRY_BYTES > directory.byteLength || directory.getUint32(at, true) !== ENTRY) {
            throw new ZipError(`the directory of the zip is damaged after file ${k}`);
        }
        const [entry, size] = readEntry(directory, at, before);
        at += size;
        if (!entry.name.endsWith("/") && !isOfMacOs(entry.name)) {
            files.push(new ZipFile(blob, start, entry));
        }
    }
    return files;
}

/** The directory, which ends where the record begins. Bytes before the zip, for example a program, change all offsets. */
async function directoryOf(blob, end) {
    for (const start of [end.at - end.size, end.offset]) {
        const before = start - end.offset;
        if (start < 0 || before < 0 || start + end.size > blob.size) {
            continue;
        }
        const directory = await numbersAt(blob, start, end.size);
        if (end.count === 0 || (end.size >= ENTRY_BYTES && directory.getUint32(0, true) === ENTRY)) {
            return { start, before, directory };
        }
    }
    throw new ZipError("the zip is cut off: its directory is not where the zip says");
}

function isOfMacOs(name) {
    const parts = name.split("/");
    return parts[0] === "__MACOSX" || parts.at(-1).startsWith("._") || parts.at(-1) === ".DS_Store";
}

function readEntry(directory, at, before) {
    const [name, extra, comment] = [28, 30, 32].map((place) => directory.getUint16(at + place, true));
    const size = ENTRY_BYTES + name + extra + comment;
    if (at + size > directory.byteLength) {
        throw new ZipError("the directory of the zip is cut off");
    }
    const bytes = new Uint8Array(directory.buffer, directory.byteOffset + at + ENTRY_BYTES, name);
    const entry = {
        name: nameOf(bytes).replaceAll("\\", "/"),
        flags: directory.getUint16(at + 8, true),
        method: directory.getUint16(at + 10, true),
        crc: directory.getUint32(at + 16, true),
        packed: directory.getUint32(at + 20, true),
        size: directory.getUint32(at + 24, true),
        at: directory.getUint32(at + 42, true),
    };
    readWide(entry, directory, at + ENTRY_BYTES + name, extra);
    entry.at += before;
    return [entry, size];
}

/** A file name: UTF-8, or Latin-1 if it is not UTF-8, as from old programs. */
function nameOf(bytes) {
    try {
        return new TextDecoder("utf-8", { fatal: true }).decode(bytes);
    } catch {
        return new TextDecoder("windows-1252").decode(bytes);
    }
}

/** The sizes of zip64 are present only if their short fields have the highest value. */
function readWide(entry, directory, from, length) {
    for (let at = from; at + 4 <= from + length;) {
        const [kind, size] = [directory.getUint16(at, true), directory.getUint16(at + 2, true)];
        if (kind === EXTRA_64 && at + 4 + size <= from + length) {
            let place = at + 4;
            for (const field of ["size", "packed", "at"]) {
                if (entry[field] === WIDE && place + 8 <= at + 4 + size) {
                    entry[field] = wide(directory, place);
                    place += 8;
                }
            }
            return;
        }
        at += 4 + size;
    }
}

/** A file of a zip. */
class ZipFile {
    #zip;
    #end;
    #entry;

    constructor(zip, end, entry) {
        this.#zip = zip;
        this.#end = end;
        this.#entry = entry;
        this.name = entry.name;
        this.size = entry.size;
    }

    /** The reason why the file cannot be unpacked, or "". */
    get why() {
        const { flags, method, size } = this.#entry;
        if (flags & 1) {
            return "is encrypted";
        }
        if (method !== STORED && method !== DEFLATED) {
            return `is compressed by ${METHODS.get(method) ?? `method ${method}`}, which this page cannot read`;
        }
        return size > MOST_UNPACKED ? `would unpack to ${Math.round(size / 2 ** 20)} MB, more than ${MOST_UNPACKED / 2 ** 20} MB` : "";
    }

    /** Unpacks the file. Throws an error that names the file if anything is wrong with it. */
    async blob() {
        if (this.why !== "") {
            throw new ZipError(`${this.name} ${this.why}`);
        }
        const packed = await this.#packed();
        const { method } = this.#entry;
        if (method === STORED) {
            await this.#checked(packed.stream(), () => {});
            return packed;
        }
        const parts = [];
        await this.#checked(inSlices(packed).pipeThrough(new DecompressionStream("deflate-raw")), (part) => parts.push(part));
        return new Blob(parts);
    }

    async #packed() {
        const { at, packed } = this.#entry;
        const header = await numbersAt(this.#zip, at, LOCAL_BYTES);
        if (header.getUint32(0, true) !== LOCAL) {
            throw new ZipError(`${this.name} is not where the directory of the zip says`);
        }
        const from = at + LOCAL_BYTES + header.getUint16(26, true) + header.getUint16(28, true);
        if (from + packed > this.#end) {
            throw new ZipError(`${this.name} is cut off`);
        }
        return this.#zip.slice(from, from + packed);
    }

    /** Reads a stream to its end, and checks its length and its CRC. Stops as soon as the stream is too long. */
    async #checked(stream, keep) {
        const { size, crc } = this.#entry;
        const reader = stream.getReader();
        let [length, found] = [0, 0];
        for (;;) {
            const { done, value } = await this.#read(reader);
            if (done) {
                break;
            }
            length += value.length;
            if (length > size) {
                reader.cancel().catch(() => {});
                throw new ZipError(`${this.name} is longer than the directory of the zip says`);
            }
            found = updatedCrc(found, value);
            keep(value);
        }
        if (length < size) {
            throw new ZipError(`${this.name} is shorter than the directory of the zip says`);
        }
        if (found !== crc) {
            throw new ZipError(`${this.name} is damaged: its checksum (CRC) is wrong`);
        }
    }

    async #read(reader) {
        try {
            return await reader.read();
        } catch {
            throw new ZipError(`${this.name} is damaged: it cannot be unpacked`);
        }
    }
}

function inSlices(blob) {
    let at = 0;
    return new ReadableStream({
        async pull(controller) {
            if (at >= blob.size) {
                controller.close();
                return;
            }
            const bytes = new Uint8Array(await blob.slice(at, at + READ_AT_ONCE).arrayBuffer());
            at += bytes.length;
            for (let from = 0; from < bytes.length; from += SLICE) {
                controller.enqueue(bytes.subarray(from, from + SLICE));
            }
        },
    }, { highWaterMark: 1 });
}
