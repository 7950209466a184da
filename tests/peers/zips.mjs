// Writes zips for the tests of the page, valid and invalid ones. The format follows its published description (APPNOTE.TXT);
// Node provides the deflate and the CRC.
import * as zlib from "node:zlib";

/** The CRC-32 of bytes. Node before 20.15 and 22.2 has no function for it. */
export function crcOf(bytes) {
    if (zlib.crc32 !== undefined) {
        return zlib.crc32(bytes);
    }
    let crc = 0xffffffff;
    for (const byte of bytes) {
        crc ^= byte;
        for (let bit = 0; bit < 8; bit += 1) {
            crc = crc & 1 ? (crc >>> 1) ^ 0xedb88320 : crc >>> 1;
        }
    }
    return ~crc >>> 0;
}

function record(size, ...fields) {
    const bytes = Buffer.alloc(size);
    for (const [at, width, value] of fields) {
        if (width === 8) {
            bytes.writeBigUInt64LE(BigInt(value), at);
        } else {
            bytes.writeUIntLE(value, at, width);
        }
    }
    return bytes;
}

/**
 * A zip of entries `{ name, bytes, .. }`. An entry with `stored` is not compressed. Its `method`, `flags`, `crc`, `size`, `packed`
 * and `header` replace the correct values.
 *
 * The options belong to the whole zip: `front` and `back` are bytes around it, `comment` is its comment, and `wide` makes it a
 * zip64. With `absolute`, offsets count from the first byte of `front` instead of from the first entry.
 */
export function zipOf(entries, { front = Buffer.alloc(0), back = Buffer.alloc(0), comment = "", wide = false, absolute = false } = {}) {
    const [bodies, directory] = [[], []];
    const shift = absolute ? front.length : 0;
    let at = 0;
    for (const entry of entries) {
        const name = Buffer.from(entry.name);
        const data = entry.packed ?? (entry.stored ? entry.bytes : zlib.deflateRawSync(entry.bytes));
        const method = entry.method ?? (entry.stored ? 0 : 8);
        const [crc, size, flags] = [entry.crc ?? crcOf(entry.bytes), entry.size ?? entry.bytes.length, (entry.flags ?? 0) | 0x800];
        const local = record(30, [0, 4, entry.header ?? 0x04034b50], [4, 2, 45], [6, 2, flags], [8, 2, method], [14, 4, crc],
            [18, 4, wide ? 0xffffffff : data.length], [22, 4, wide ? 0xffffffff : Math.min(size, 0xffffffff)], [26, 2, name.length],
            [28, 2, wide ? 20 : 0]);
        const localExtra = wide ? record(20, [0, 2, 1], [2, 2, 16], [4, 8, size], [12, 8, data.length]) : Buffer.alloc(0);
        const extra = wide ? record(28, [0, 2, 1], [2, 2, 24], [4, 8, size], [12, 8, data.length], [20, 8, at + shift]) : Buffer.alloc(0);
        directory.push(record(46, [0, 4, 0x02014b50], [4, 2, 45], [6, 2, 45], [8, 2, flags], [10, 2, method], [16, 4, crc],
            [20, 4, wide ? 0xffffffff : data.length], [24, 4, wide ? 0xffffffff : Math.min(size, 0xffffffff)], [28, 2, name.length],
            [30, 2, extra.length], [42, 4, wide ? 0xffffffff : at + shift]), name, extra);
        bodies.push(local, name, localExtra, data);
        at += local.length + name.length + localExtra.length + data.length;
    }
    const list = Buffer.concat(directory);
    const ends = [];
    if (wide) {
        ends.push(record(56, [0, 4, 0x06064b50], [4, 8, 44], [12, 2, 45], [14, 2, 45], [24, 8, entries.length], [32, 8, entries.length],
            [40, 8, list.length], [48, 8, at + shift]));
        ends.push(record(20, [0, 4, 0x07064b50], [8, 8, at + shift + list.length], [16, 4, 1]));
    }
    const count = wide ? 0xffff : entries.length;
    ends.push(record(22, [0, 4, 0x06054b50], [8, 2, count], [10, 2, count], [12, 4, wide ? 0xffffffff : list.length],
        [16, 4, wide ? 0xffffffff : at + shift], [20, 2, comment.length]), Buffer.from(comment));
    return Buffer.concat([front, ...bodies, list, ...ends, back]);
}
