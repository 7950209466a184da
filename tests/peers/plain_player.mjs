// A plain CD+G player, as a web developer would write it in a hundred lines: no proofs and no error correction. The benchmark in
// tests/peers/test_web.mjs measures it against the module.

const WIDTH = 300;
const HEIGHT = 216;
const SWAPS = new Map([[1, 18], [2, 5], [3, 23], [18, 1], [5, 2], [23, 3]]);

export class PlainPlayer {
    memory = new Uint8Array(WIDTH * HEIGHT);
    colours = new Uint16Array(16);
    table = new Uint32Array(16).fill(0xff000000);
    border = 0;
    h = 0;
    v = 0;
    slots = [];

    /** Reads the four slots of a block, and draws each pack that they complete. */
    feed(block) {
        for (let slot = 0; slot < 4; slot += 1) {
            this.slots.push(block.slice(24 * slot, 24 * slot + 24));
            if (this.slots.length > 8) {
                this.slots.shift();
            }
            if (this.slots.length === 8) {
                const pack = new Uint8Array(24);
                for (let i = 0; i < 24; i += 1) {
                    const place = SWAPS.get(i) ?? i;
                    pack[i] = this.slots[place % 8][place] & 63;
                }
                this.draw(pack);
            }
        }
    }

    draw(pack) {
        if ((pack[0] & 63) !== 9) {
            return;
        }
        const data = pack.subarray(4, 20);
        switch (pack[1] & 63) {
            case 1:
                this.memory.fill(data[0] & 15);
                break;
            case 2:
                this.border = data[0] & 15;
                break;
            case 6:
                this.tile(data, (old, colour) => colour);
                break;
            case 38:
                this.tile(data, (old, colour) => old ^ colour);
                break;
            case 20:
                this.scroll(data, data[0] & 15);
                break;
            case 24:
                this.scroll(data, null);
                break;
            case 30:
                this.load(data, 0);
                break;
            case 31:
                this.load(data, 8);
                break;
        }
    }

    tile(data, mix) {
        const [row, column] = [data[2] & 31, data[3] & 63];
        if (row > 17 || column > 49) {
            return;
        }
        for (let y = 0; y < 12; y += 1) {
            for (let x = 0; x < 6; x += 1) {
                const at = (12 * row + y) * WIDTH + 6 * column + x;
                const bit = (data[4 + y] >> (5 - x)) & 1;
                this.memory[at] = mix(this.memory[at], data[bit] & 15);
            }
        }
    }

    scroll(data, colour) {
        const [across, down] = [(data[1] >> 4) & 3, (data[2] >> 4) & 3];
        const dx = across === 1 ? 6 : across === 2 ? -6 : 0;
        const dy = down === 1 ? 12 : down === 2 ? -12 : 0;
        this.h = Math.min(data[1] & 7, 5);
        this.v = Math.min(data[2] & 15, 11);
        const old = this.memory.slice();
        for (let y = 0; y < HEIGHT; y += 1) {
            for (let x = 0; x < WIDTH; x += 1) {
                const [fromX, fromY] = [x - dx, y - dy];
                const inside = fromX >= 0 && fromX < WIDTH && fromY >= 0 && fromY < HEIGHT;
                this.memory[y * WIDTH + x] = inside || colour === null
                    ? old[((fromY + HEIGHT) % HEIGHT) * WIDTH + ((fromX + WIDTH) % WIDTH)] : colour;
            }
        }
    }

    load(data, first) {
        for (let k = 0; k < 8; k += 1) {
            const colour = ((data[2 * k] & 63) << 6) | (data[2 * k + 1] & 63);
            this.colours[first + k] = colour;
            const [red, green, blue] = [17 * (colour >> 8), 17 * ((colour >> 4) & 15), 17 * (colour & 15)];
            this.table[first + k] = (0xff000000 | (blue << 16) | (green << 8) | red) >>> 0;
        }
    }

    /** Writes the picture with four bytes per pixel. */
    picture(bytes) {
        const pixels = new Uint32Array(bytes.buffer, bytes.byteOffset, WIDTH * HEIGHT);
        for (let y = 0; y < HEIGHT; y += 1) {
            for (let x = 0; x < WIDTH; x += 1) {
                const inside = x >= 6 && x < 294 && y >= 12 && y < 204;
                const colour = inside ? this.memory[(y + this.v) * WIDTH + x + this.h] : this.border;
                pixels[y * WIDTH + x] = this.table[colour];
            }
        }
    }
}
