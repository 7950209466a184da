// The types of ribjasper.mjs.

/** The version of the library. */
export const VERSION: string;
export const WIDTH: 300;
export const HEIGHT: 216;
export const BLOCK_BYTES: 96;
export const PACK_BYTES: 24;
export const SECTOR_BYTES: 2448;
export const FILE_BYTES: 65045;
export const TEXT_PACK_BYTES: 18;
export const BLOCKS_A_SECOND: 75;
export const PACKS_A_SECOND: 300;
export const MOST_LEAD_IN: 450000;
export const MOST_READINGS: 254;
/** The value of `absolute` if a frame has no absolute time. */
export const NO_TIME: 0xffffffff;

/** Bytes. Strings, and arrays and views of other kinds, cause a TypeError. */
export type Bytes = Uint8Array | Uint8ClampedArray | ArrayBuffer | SharedArrayBuffer;

/**
 * The form of the blocks in a stream: raw blocks of 96 bytes; blocks of four packs, with R to W only; sectors, which are 2,352
 * bytes of audio and a raw block; or planar blocks, with twelve bytes for each channel.
 */
export type Form = "raw" | "packs" | "sectors" | "planar";

/** The form of a stream (default: "raw"), and the number of lead-in blocks with which it begins, 0 to 450,000. */
export interface StreamOptions {
    form?: Form;
    leadIn?: number;
}

/** The form of the blocks that a player reads, and the number of lead-in blocks. */
export interface PlayerOptions {
    form?: "raw" | "packs";
    leadIn?: number;
}

/**
 * Like the options of a stream, but the form may also be a .cdg file. `marks` is the maximum number of marks (default: 128). The
 * module's memory has the marks, of 65,088 bytes each, and a copy of the blocks or packs.
 */
export interface SeekerOptions {
    form?: Form | "cdg";
    leadIn?: number;
    marks?: number;
}

/** The pixels of a picture that are not opaque. */
export interface PictureOptions {
    /** Whether each colour gets the opacity 255 - (4 L + L / 16) for its level L, which the disc sets. */
    levels?: boolean;
    /** The numbers (0 to 15) of transparent colours. */
    clear?: readonly number[];
}

/** An `ImageData` of 300 by 216 pixels, or a similar object. */
export interface ImageLike {
    readonly data: Uint8ClampedArray | Uint8Array;
    readonly width?: number;
    readonly height?: number;
}

/** A rectangle of the screen, in pixels. */
export interface Rectangle {
    x: number;
    y: number;
    width: number;
    height: number;
}

/**
 * The possible changes of the screen by `count` blocks or packs: a rectangle or null, and whether colours of the table or their
 * levels may have changed. If they have, any pixel may look different.
 */
export interface Changed {
    count: number;
    rectangle: Rectangle | null;
    colours: boolean;
    levels: boolean;
}

/** The numbers of packs that are idle, have valid parity, or have invalid parity. */
export interface Parity {
    idle: number;
    valid: number;
    invalid: number;
}

/** A pack: its 24 symbols, and the number of corrected symbols, or -1 if the pack cannot be corrected. */
export interface ReadPack {
    symbols: Uint8Array;
    wrong: number;
}

/** The packs of a stream, the number of its blocks after the lead-in, and the number of words that cannot be corrected. */
export interface Converted {
    packs: Uint8Array;
    blocks: number;
    bad: number;
}

/** The next packs of a stream, the number of finished blocks and of all blocks, and the number of bad words so far. */
export interface ConvertedPart {
    packs: Uint8Array;
    done: number;
    of: number;
    bad: number;
}

/** A text pack of the lead-in: its eighteen bytes, and whether the last two are the CRC of the others. */
export interface TextPack {
    bytes: Uint8Array;
    matches: boolean;
}

/** The form and lead-in of a player, and the numbers of blocks, of words, and of words that cannot be corrected. */
export interface Counts {
    form: "raw" | "packs";
    leadIn: number;
    blocks: number;
    words: number;
    bad: number;
}

/**
 * Mended readings. `packs` are the packs. `sources` has for each word the number of the reading with its codeword, 254 if two
 * readings agree, or 255 if there is no codeword. `blocks` is the number of blocks of the program. `ofReading`, `agreed` and
 * `none` count the words of each reading, with agreeing readings, and without a codeword. `dropped` counts the idle packs of each
 * reading that were dropped.
 */
export interface MendedReadings {
    packs: Uint8Array;
    sources: Uint8Array;
    blocks: number;
    agreed: number;
    none: number;
    ofReading: number[];
    dropped: number[];
}

/** Sixteen colours as 0xRGB, their levels (0 to 63), the number of the border colour, and the horizontal and vertical offset. */
export interface Shown {
    colours: number[];
    levels: number[];
    border: number;
    h: number;
    v: number;
}

/** The part of the screen that a pack may change. */
export type Touched =
    | { kind: "tile"; row: number; column: number }
    | { kind: "nothing" | "all" | "border" | "colours" | "levels" };

/** The numbers of words with no, one or two wrong symbols, and of words that cannot be corrected. */
export interface Words {
    clean: number;
    one: number;
    two: number;
    bad: number;
}

/** A Q frame: its kind (0 to 7; 253: a stream of packs, 254: a field out of range, 255: a wrong CRC), track, index and time. */
export interface Frame {
    kind: number;
    track: number;
    index: number;
    absolute: number;
}

/** The sums of all rows, which the command `check` prints. */
export interface Sums extends Words {
    frames: number;
    badFrames: number;
}

/** Compiles the module. Without a source, it reads ribjasper.wasm in the folder of ribjasper.mjs. */
export function load(source?: BufferSource | WebAssembly.Module | Response | PromiseLike<BufferSource | WebAssembly.Module | Response>):
    Promise<Ribjasper>;

/**
 * The module. A wrong argument causes an error and no change. The message begins with the name of the argument. The error is a
 * TypeError if the type is wrong, or a RangeError if the value or length is out of range.
 */
export class Ribjasper {
    constructor(instance: WebAssembly.Instance);
    /** The size of the module's memory in bytes. */
    readonly memoryBytes: number;
    player(options?: PlayerOptions): Player;
    seeker(stream: Bytes, options?: SeekerOptions): Seeker;
    convert(stream: Bytes, options?: StreamOptions): Converted;
    converting(stream: Bytes, options?: StreamOptions): Generator<ConvertedPart, void, void>;
    survey(stream: Bytes, options?: StreamOptions): Survey;
    surveying(stream: Bytes, options?: StreamOptions): Generator<number, Survey, void>;
    mendReadings(readings: readonly Bytes[], options?: { leadIn?: number }): MendedReadings;
    textPacks(block: Bytes): TextPack[];
    fromPlanar(planar: Bytes): Uint8Array;
    /** Counts the packs of a .cdg file with and without valid parity. */
    parity(packs: Bytes): Parity;
    /** Computes the parity of packs from their other symbols. */
    seal(packs: Bytes): Uint8Array;
    touches(pack: Bytes): Touched;
}

/** A player. `Ribjasper.player` makes it, and `close` frees its memory. */
export class Player {
    private constructor();
    begin(options?: PlayerOptions): void;
    feed(block: Bytes): void;
    feedAll(stream: Bytes, form?: Form): number;
    /** Reads blocks like `feedAll`, and returns the possible changes of the screen. */
    feedChanges(stream: Bytes, form?: Form): Changed;
    take(block: Bytes): ReadPack[];
    draw(pack: Bytes): void;
    drawAll(packs: Bytes): number;
    /** Draws packs like `drawAll`, and returns the possible changes of the screen. */
    drawChanges(packs: Bytes): Changed;
    changes(pack: Bytes): boolean;
    /** The picture with four bytes per pixel, in an array of this player. The next picture of this player overwrites it. */
    picture(image?: undefined, options?: PictureOptions): Uint8Array;
    picture<I extends ImageLike>(image: I, options?: PictureOptions): I;
    /** Writes the picture into the image, and returns the smallest rectangle with all changed pixels, or null if there are none. */
    update(image: ImageLike, options?: PictureOptions): Rectangle | null;
    screen(): Uint8Array;
    shown(): Shown;
    counts(): Counts;
    /** The checkpoint file, or null if the stream is not raw or is too long. */
    save(): Uint8Array | null;
    /** Restores a checkpoint. If the file is not a checkpoint, a RangeError names the first byte that is out of range. */
    load(file: Bytes): void;
    copyFrom(other: Player): void;
    copy(): Player;
    close(): void;
}

/** A player of a whole stream that can seek to any block or pack. `Ribjasper.seeker` makes it, and `close` frees it. */
export class Seeker {
    private constructor();
    /** The player, for reading only. */
    readonly player: Player;
    /** The number of blocks, or of packs of a .cdg file. */
    readonly length: number;
    /** The number of blocks or packs that the player has read. */
    readonly position: number;
    seek(position: number): void;
    close(): void;
}

export class Survey {
    constructor(bytes: Bytes);
    readonly length: number;
    words(block: number): Words;
    frame(block: number): Frame;
    isEmpty(block: number): boolean;
    sums(): Sums;
}
