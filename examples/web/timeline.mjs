// The timeline: a slider that also shows the places where the stream draws, and where it is damaged.

const STEP = 5;
const LONG_STEP = 30;

/** A time in words, for screen readers. */
export function timeInWords(seconds) {
    const whole = Math.max(0, Math.floor(seconds));
    const [minutes, rest] = [Math.floor(whole / 60), whole % 60];
    const count = (number, word) => `${number} ${word}${number === 1 ? "" : "s"}`;
    return minutes === 0 ? count(rest, "second") : `${count(minutes, "minute")} ${count(rest, "second")}`;
}

export class Timeline {
    #canvas;
    #pieces = [];
    #graphics = 0;
    #length = 0;
    #now = 0;
    #jump;
    // The image of the pieces, and the sizes and colours with which it was drawn.
    #layer = document.createElement("canvas");
    #layerKey = "";

    /** Calls `jump` with each second that the user chooses. */
    constructor(canvas, jump) {
        this.#canvas = canvas;
        this.#jump = jump;
        canvas.addEventListener("pointerdown", (event) => {
            if (event.button === 0) {
                canvas.setPointerCapture(event.pointerId);
                this.#follow(event);
            }
        });
        canvas.addEventListener("pointermove", (event) => {
            if (canvas.hasPointerCapture(event.pointerId)) {
                this.#follow(event);
            }
        });
        canvas.addEventListener("keydown", (event) => this.#press(event));
    }

    #follow(event) {
        const { left, width } = this.#canvas.getBoundingClientRect();
        if (this.#length > 0 && width > 0) {
            this.#jump((this.#length * Math.max(0, Math.min(width, event.clientX - left))) / width);
        }
    }

    #press(event) {
        const to = new Map([["ArrowLeft", this.#now - STEP], ["ArrowDown", this.#now - STEP], ["ArrowRight", this.#now + STEP],
            ["ArrowUp", this.#now + STEP], ["PageDown", this.#now - LONG_STEP], ["PageUp", this.#now + LONG_STEP], ["Home", 0],
            ["End", this.#length]]).get(event.key);
        if (to !== undefined && !event.ctrlKey && !event.altKey && !event.metaKey) {
            event.preventDefault();
            event.stopPropagation();
            this.#jump(to);
        }
    }

    /** Sets the data to show: the pieces of the graphics, the length of the graphics in seconds, and the total length. */
    show(pieces, graphics, length) {
        this.#pieces = pieces;
        this.#graphics = graphics;
        this.#length = length;
        this.#canvas.setAttribute("aria-valuemax", Math.floor(length));
        this.#canvas.setAttribute("aria-disabled", String(length === 0));
        this.#layerKey = "";
        this.draw(this.#now);
    }

    draw(now) {
        this.#now = now;
        this.#updateLabel();
        const canvas = this.#canvas;
        const scale = globalThis.devicePixelRatio ?? 1;
        const [width, height] = [canvas.clientWidth, canvas.clientHeight].map((it) => Math.max(1, Math.round(it * scale)));
        if (canvas.width !== width || canvas.height !== height) {
            [canvas.width, canvas.height] = [width, height];
        }
        const to = canvas.getContext("2d");
        const style = getComputedStyle(canvas);
        const colour = (name) => style.getPropertyValue(`--${name}`);
        const key = [width, height, colour("line"), colour("drawn")].join();
        if (this.#layerKey !== key) {
            [this.#layer.width, this.#layer.height] = [width, height];
            this.#drawPieces(this.#layer.getContext("2d"), width, height, colour);
            this.#layerKey = key;
        }
        to.clearRect(0, 0, width, height);
        to.drawImage(this.#layer, 0, 0);
        if (this.#length > 0) {
            const thick = Math.max(2, Math.round(3 * scale));
            const at = Math.min(width - thick, Math.round((width * now) / this.#length));
            to.fillStyle = colour("line");
            to.fillRect(at - 1, 0, thick + 2, height);
            to.fillStyle = colour("now");
            to.fillRect(at, 0, thick, height);
        }
    }

    #drawPieces(to, width, height, colour) {
        const all = this.#length === 0 ? 0 : (width * this.#graphics) / this.#length;
        const columns = Math.floor(all);
        const colours = { drawn: colour("drawn"), corrected: colour("corrected"), bad: colour("bad") };
        // Corrected words are drawn from the bottom up, bad ones from the top down.
        for (let x = 0; x < columns; x += 1) {
            const piece = this.#between(x / columns, (x + 1) / columns);
            const tall = (count) => (count === 0 ? 0 : Math.max(2, Math.round((height * count) / piece.all)));
            const fill = (name, from, size) => {
                to.fillStyle = colours[name];
                to.fillRect(x, from, 1, size);
            };
            const [drawn, corrected, bad] = [tall(piece.drawn), tall(piece.corrected), tall(piece.bad)];
            fill("drawn", height - drawn, drawn);
            fill("corrected", height - corrected, corrected);
            fill("bad", 0, bad);
        }
    }

    /** The sum of the pieces between two shares of the time; it includes at least one piece. */
    #between(from, to) {
        const count = this.#pieces.length;
        const first = Math.min(count - 1, Math.floor(from * count));
        const sum = { drawn: 0, corrected: 0, bad: 0, all: 0 };
        for (let k = first; k < Math.max(first + 1, Math.floor(to * count)); k += 1) {
            sum.drawn += this.#pieces[k].drawn;
            sum.corrected += this.#pieces[k].corrected;
            sum.bad += this.#pieces[k].bad;
            sum.all += this.#pieces[k].all;
        }
        return sum;
    }

    #updateLabel() {
        const text = `${timeInWords(this.#now)} of ${timeInWords(this.#length)}`;
        if (this.#canvas.getAttribute("aria-valuetext") !== text) {
            this.#canvas.setAttribute("aria-valuenow", Math.floor(Math.min(this.#now, this.#length)));
            this.#canvas.setAttribute("aria-valuetext", text);
        }
    }
}
