// Compares the module for web pages, run by WebKit's engine, with the program: screens must have the same bytes.
//
//     jsc -m tests/peers/test_webkit.mjs -- MODULE FOLDER
//
// The file FOLDER/names lists names. Each NAME has three files:
// - FOLDER/NAME is a stream;
// - FOLDER/NAME.moments has the number of lead-in blocks, then the numbers of blocks after which the screen is compared;
// - FOLDER/NAME.screens has the program's pictures, one after another.
import { BLOCK_BYTES, HEIGHT, WIDTH, load } from "../../web/ribjasper.mjs";

/* global arguments, readFile, print */
const [MODULE, FOLDER] = arguments;
const ribjasper = await load(readFile(MODULE, "binary"));
for (const name of readFile(`${FOLDER}/names`).trim().split("\n")) {
    const stream = readFile(`${FOLDER}/${name}`, "binary");
    const expected = readFile(`${FOLDER}/${name}.screens`, "binary");
    const [leadIn, ...moments] = readFile(`${FOLDER}/${name}.moments`).trim().split(/\s+/).map(Number);
    const player = ribjasper.player({ leadIn });
    let fed = 0;
    moments.forEach((moment, k) => {
        const upTo = BLOCK_BYTES * (leadIn + moment);
        player.feedAll(stream.subarray(fed, upTo));
        fed = upTo;
        const picture = player.picture();
        const first = 3 * WIDTH * HEIGHT * k;
        for (let pixel = 0; pixel < WIDTH * HEIGHT; pixel += 1) {
            for (let channel = 0; channel < 3; channel += 1) {
                if (picture[4 * pixel + channel] !== expected[first + 3 * pixel + channel]) {
                    throw new Error(`the screen of ${name} at block ${moment} differs at pixel ${pixel}`);
                }
            }
        }
    });
    if (expected.length !== 3 * WIDTH * HEIGHT * moments.length || moments.length === 0) {
        throw new Error(`${name}.screens has ${expected.length} bytes, which do not fit ${moments.length} screens`);
    }
    player.close();
    print(`test_webkit: ${moments.length} screens of ${name} equal the program's`);
}
