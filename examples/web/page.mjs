// The player of the page: it opens, plays, shows and saves files.
import { MOST_LEAD_IN, HEIGHT, VERSION, WIDTH, load } from "../../lib/web/ribjasper.mjs";
import { TimeSlice } from "./time_slice.mjs";
import { AUDIO_SECTOR, entriesOf, filesOfDrop, isSound, itemsOf, soundOfImage, soundType, tracksOf } from "./items.mjs";
import { clock, packsOfStream, sourceOf } from "./sources.mjs";
import { Timeline } from "./timeline.mjs";
import { Transport } from "./transport.mjs";

// The bytes of the module, if they are embedded in the page.
const MODULE = undefined;

const STEP_SECONDS = 5;
// The browser reads a saved file after the click, so its URL stays valid for this many milliseconds.
const KEEP_SAVED = 60_000;
const HIDE_CONTROLS_AFTER = 3000;
// The greatest delay of the sound, in seconds, at which the picture does not jump back.
const JITTER = 0.2;

const byId = (id) => document.getElementById(id);

class Page {
    #canvas = byId("screen").getContext("2d");
    #image = new ImageData(WIDTH, HEIGHT);
    #line = new Timeline(byId("line"), (seconds) => this.jump(seconds));
    #transport = new Transport(() => this.#soundChanged(), () => this.#soundFailed());
    #items = [];
    #item = null;
    #source = null;
    #description = "";
    // The number of opened files. Results for an earlier file that arrive late are ignored.
    #opening = 0;
    // An object that identifies the running save, or null.
    #saving = null;
    // Whether the user wants the page to play, also while the next file is read.
    #wantsToPlay = false;
    #idle = 0;

    constructor(ribjasper) {
        this.ribjasper = ribjasper;
    }

    get now() {
        return Math.min(this.#transport.now, this.seconds);
    }

    get seconds() {
        return this.#source === null ? 0 : this.#transport.length;
    }

    get isPlaying() {
        return this.#transport.isRunning;
    }

    // ---- opening

    /** Opens files that are chosen together, each with its path, and plays or shows the first item. */
    async open(files) {
        await this.#try(async (opening) => {
            const { entries, wrong } = await entriesOf(files);
            const items = itemsOf(entries);
            if (opening !== this.#opening) {
                return;
            }
            const sounds = entries.filter(isSound);
            if (items.length === 0 && sounds.length === 1 && this.#source !== null) {
                await this.#setSound(sounds[0]);
                return;
            }
            if (items.length === 0) {
                throw new Error(wrong.length > 0 ? wrong.join("; ") : "the files have no graphics: no .cdg file, no subcode, no image");
            }
            this.#items = items;
            this.#listItems(wrong);
            const first = items.find((it) => it.why === "") ?? items[0];
            await this.#load(first, opening, wrong);
        });
    }

    async #try(work) {
        this.#opening += 1;
        const opening = this.#opening;
        try {
            await work(opening);
        } catch (error) {
            if (opening === this.#opening) {
                this.#showMessage(error.message, true);
            }
        } finally {
            if (opening === this.#opening) {
                this.#progress(null);
            }
        }
    }

    /** Plays or shows an item of the list. */
    choose(item) {
        return this.#try((opening) => this.#load(item, opening, []));
    }

    async #load(item, opening, wrong) {
        if (item.why !== "") {
            throw new Error([`${item.name} ${item.why}`, ...wrong].join("; "));
        }
        const onProgress = (share) => opening === this.#opening && this.#progress(`Reading ${item.name}`, share);
        onProgress(0);
        const { source, form, skip, blob } = await sourceOf(this.ribjasper, item.graphics, onProgress);
        const sound = opening === this.#opening ? await this.#soundOf(item, source, form, skip, blob) : null;
        if (opening !== this.#opening) {
            return;
        }
        this.#close();
        await source.start(new TimeSlice());
        if (opening !== this.#opening) {
            source.close();
            return;
        }
        this.#begin(item, source, sound, wrong);
        if (this.#wantsToPlay) {
            this.play();
        }
    }

    /** Closes the open source. */
    #close() {
        this.#transport.pause();
        this.#source?.close();
        this.#source = null;
        this.#saving = null;
        this.#showButtons();
    }

    /** The sound of an item: `{ blob, offset, note }`. The note is a text about the sound, for example why it cannot be played. */
    async #soundOf(item, source, form, skip, graphics) {
        const noSound = { blob: null, offset: undefined, note: "" };
        const isImage = form.unit > AUDIO_SECTOR;
        try {
            if (item.sound !== undefined) {
                const blob = await item.sound.blob();
                return { blob: new Blob([blob], { type: soundType(item.sound) }), offset: undefined, note: `sound: ${item.sound.name}` };
            }
            if (item.image === undefined && !isImage) {
                return noSound;
            }
            const { isAudio, isSwapped } = await tracksOf(item.sheet);
            const image = item.image === undefined ? graphics : await item.image.blob();
            const unit = item.image === undefined ? form.unit : AUDIO_SECTOR;
            const name = (item.image ?? item.graphics).name;
            if (!isAudio) {
                return { ...noSound, note: `${name} has data tracks, and its sound is not played` };
            }
            if (item.image !== undefined && (image.size % unit !== 0 || image.size / unit !== source.blocks)) {
                return { ...noSound, note: `${name} has another length than ${item.graphics.name}, and is not played` };
            }
            const timeSlice = new TimeSlice();
            const blob = await soundOfImage(image, unit, isImage ? skip : 0, isSwapped, async (share) => {
                this.#progress(`Reading the sound of ${name}`, share);
                await timeSlice.pause();
            });
            return { blob, offset: source.leadIn / source.rate, note: `sound: that of ${name}` };
        } catch (error) {
            return { ...noSound, note: `no sound: ${error.message}` };
        }
    }

    #begin(item, source, { blob, offset, note }, wrong) {
        this.#item = item;
        this.#source = source;
        this.#transport.open(source.count / source.rate, blob, offset);
        this.#description = [`${item.name}: ${source.form}, ${clock(source.count / source.rate)}`, source.description(), note, ...wrong]
            .filter((it) => it !== "").join("; ");
        byId("hint").hidden = true;
        byId("play").disabled = false;
        byId("save").disabled = !source.canSave;
        byId("lead-in").disabled = !source.hasDamage;
        byId("lead-in").value = source.leadIn;
        byId("screen").setAttribute("aria-label", `CD+G screen of ${item.name}`);
        document.title = `${item.name} in Ribjasper`;
        byId("keys").querySelectorAll("[data-of]").forEach((key) => {
            key.hidden = (key.dataset.of === "blocks") !== source.hasDamage;
        });
        this.#markItem();
        this.#showMessage(this.#description);
        this.#showButtons();
        this.#showLine();
        this.show(true);
    }

    async #setSound(entry) {
        const blob = new Blob([await entry.blob()], { type: soundType(entry) });
        const [seconds, wasPlaying] = [this.now, this.isPlaying];
        this.#transport.open(this.#transport.graphics, blob);
        this.#transport.seek(seconds);
        this.#description += `; sound: ${entry.name}`;
        this.#showMessage(this.#description);
        this.#showButtons();
        if (wasPlaying) {
            this.play();
        }
    }

    /** Reads the stream again, with a lead-in that the user has entered. */
    async setLeadIn(text) {
        const leadIn = Number(text);
        const source = this.#source;
        if (!source?.hasDamage || text === "" || !Number.isInteger(leadIn) || leadIn < 0 || leadIn > MOST_LEAD_IN) {
            byId("lead-in").value = source?.leadIn ?? 0;
            this.#showMessage(`the lead-in must be a whole number of blocks, at most ${MOST_LEAD_IN.toLocaleString("en")}`, true);
            return;
        }
        await this.#try(async (opening) => {
            const before = source.leadIn;
            const [item, wasPlaying] = [this.#item, this.isPlaying];
            this.pause();
            await source.read(new TimeSlice(), leadIn);
            if (opening !== this.#opening || source !== this.#source) {
                return;
            }
            await source.start(new TimeSlice());
            if (opening !== this.#opening || source !== this.#source) {
                return;
            }
            const moved = (leadIn - before) / source.rate;
            this.#transport.move(source.count / source.rate, moved);
            this.#description = `${item.name}: ${source.form}, ${clock(source.count / source.rate)}; ${source.description()}`;
            this.#showMessage(this.#description);
            byId("save").disabled = !source.canSave;
            this.#showLine();
            this.jump(0);
            if (wasPlaying) {
                this.play();
            }
        });
    }

    // ---- the list

    #listItems(wrong) {
        const list = byId("list");
        list.replaceChildren(...this.#items.map((item) => {
            const button = document.createElement("button");
            button.type = "button";
            const related = item.sound?.name ?? item.image?.name;
            button.textContent = item.why === "" ? `${item.graphics.folder}${item.name}${related === undefined ? "" : ` with ${related}`}`
                : `${item.graphics.folder}${item.name}: ${item.why}`;
            button.disabled = item.why !== "";
            button.addEventListener("click", () => this.choose(item));
            const row = document.createElement("li");
            row.append(button);
            return row;
        }), ...wrong.map((text) => {
            const row = document.createElement("li");
            row.textContent = text;
            return row;
        }));
        byId("files").hidden = this.#items.length + wrong.length < 2;
    }

    #markItem() {
        [...byId("list").querySelectorAll("button")].forEach((button, k) => {
            if (this.#items[k] === this.#item) {
                button.setAttribute("aria-current", "true");
            } else {
                button.removeAttribute("aria-current");
            }
        });
    }

    // ---- playing

    play() {
        if (this.#source === null || this.isPlaying) {
            return;
        }
        if (this.#transport.isAtEnd) {
            this.jump(0);
        }
        this.#wantsToPlay = true;
        this.#transport.play();
        this.#showButtons();
        this.#tick();
    }

    pause() {
        this.#wantsToPlay = false;
        this.#transport.pause();
        this.#showButtons();
    }

    toggle() {
        if (this.isPlaying) {
            this.pause();
            this.show(true);
        } else {
            this.play();
        }
    }

    /** Seeks to a second that the user has chosen. */
    jump(seconds) {
        if (this.#source === null) {
            return;
        }
        this.#transport.seek(seconds);
        this.show(true);
    }

    #tick() {
        if (!this.isPlaying) {
            return;
        }
        if (this.#transport.isAtEnd) {
            this.pause();
            this.show(true);
            return;
        }
        this.show(false);
        requestAnimationFrame(() => this.#tick());
    }

    #soundChanged() {
        this.#showLine();
        this.#showTime();
        this.#showButtons();
        if (this.isPlaying && document.hidden) {
            this.#tick();
        }
    }

    #soundFailed() {
        this.#showMessage(`${this.#description}; the browser cannot play the sound`, true);
        this.#showLine();
    }

    // ---- showing

    /** Shows the current picture. If the sound is slightly late during playback, the picture does not jump back. */
    show(isExact) {
        const source = this.#source;
        if (source === null) {
            this.#line.draw(0);
            return;
        }
        const position = Math.min(source.count, Math.floor(this.#transport.now * source.rate + 1e-6));
        const behind = source.position - position;
        if (isExact || behind < 0 || behind > JITTER * source.rate) {
            source.goTo(position);
            this.#paint();
        }
        this.#showTime();
        this.#line.draw(this.now);
    }

    #showTime() {
        byId("time").textContent = `${clock(this.now)} / ${clock(this.seconds)}`;
    }

    #paint() {
        const kind = byId("background").value;
        const { player } = this.#source.seeker;
        const options = { levels: kind === "levels", clear: kind === "border" ? [player.shown().border] : [] };
        const changed = player.update(this.#image, options);
        if (changed !== null) {
            this.#canvas.putImageData(this.#image, 0, 0, changed.x, changed.y, changed.width, changed.height);
        }
    }

    setBackground(kind) {
        byId("stage").classList.toggle("clear", kind !== "opaque");
        this.show(true);
    }

    #showLine() {
        this.#line.show(this.#source?.pieces ?? [], this.#transport.graphics, this.seconds);
    }

    #showButtons() {
        byId("play").textContent = this.isPlaying ? "Pause" : "Play";
        byId("volume").disabled = !this.#transport.hasSound;
        this.wake();
    }

    #showMessage(text, isWrong = false) {
        byId("message").textContent = text;
        byId("message").classList.toggle("wrong", isWrong);
    }

    #progress(text, share = 0) {
        byId("busy").hidden = text === null;
        if (text !== null) {
            byId("doing").textContent = text;
            byId("share").value = share;
        }
    }

    // ---- saving

    /** Saves the packs of a stream as a .cdg file, or cancels a running save. */
    async save() {
        if (this.#saving !== null) {
            this.#saving = null;
            return;
        }
        const [item, source] = [this.#item, this.#source];
        const name = `${item.name.replace(/\.[^.]*$/, "")}.cdg`;
        const saving = {};
        this.#saving = saving;
        byId("save").textContent = "Cancel saving";
        const onProgress = (share) => this.#progress(`Writing ${name}`, share);
        try {
            const blob = await packsOfStream(source, onProgress, () => this.#saving === saving);
            if (blob !== null) {
                download(blob, name);
            }
            this.#showMessageOf(item, blob === null ? `${name} is not saved` : `${name} is saved: ${blob.size} bytes`);
        } catch (error) {
            this.#showMessageOf(item, `${name} is not saved: ${error.message}`, true);
        }
        if (this.#item === item) {
            this.#saving = null;
            this.#progress(null);
        }
        byId("save").textContent = "Save as .cdg";
    }

    // Late messages about an earlier file do not replace messages about the next one.
    #showMessageOf(item, text, isWrong = false) {
        if (this.#item === item) {
            this.#showMessage(text, isWrong);
        }
    }

    // ---- controls

    set volume(share) {
        this.#transport.volume = share;
        byId("volume").setAttribute("aria-valuetext", `${Math.round(100 * share)} percent`);
    }

    set rate(rate) {
        this.#transport.rate = rate;
    }

    async fullScreen() {
        try {
            await (document.fullscreenElement === null ? byId("player").requestFullscreen() : document.exitFullscreen());
        } catch {
            this.#showMessage("the browser does not allow full screen here", true);
        }
    }

    /** Shows the controls again in full screen; they are hidden while the pointer does not move. */
    wake() {
        byId("player").classList.remove("idle");
        clearTimeout(this.#idle);
        if (document.fullscreenElement !== null && this.isPlaying) {
            this.#idle = setTimeout(() => byId("player").classList.add("idle"), HIDE_CONTROLS_AFTER);
        }
    }
}

function download(blob, name) {
    const link = document.createElement("a");
    link.href = URL.createObjectURL(blob);
    link.download = name;
    link.click();
    setTimeout(() => URL.revokeObjectURL(link.href), KEEP_SAVED);
}

function listenToControls(page) {
    byId("play").addEventListener("click", () => page.toggle());
    byId("save").addEventListener("click", () => page.save());
    byId("open").addEventListener("click", () => byId("file").click());
    byId("file").addEventListener("change", (event) => {
        const files = [...event.target.files].map((file) => ({ path: file.name, file }));
        // With an empty value, the user can choose the same file again.
        event.target.value = "";
        if (files.length > 0) {
            page.open(files);
        }
    });
    byId("volume").addEventListener("input", (event) => { page.volume = event.target.value / 100; });
    byId("speed").addEventListener("change", (event) => { page.rate = Number(event.target.value); });
    byId("background").addEventListener("change", (event) => page.setBackground(event.target.value));
    byId("lead-in").addEventListener("change", (event) => page.setLeadIn(event.target.value));
    byId("full").addEventListener("click", () => page.fullScreen());
    byId("screen").addEventListener("click", () => page.toggle());
    byId("full").hidden = !document.fullscreenEnabled;
    document.addEventListener("fullscreenchange", () => {
        byId("full").textContent = document.fullscreenElement === null ? "Full screen" : "Leave full screen";
        page.wake();
        page.show(true);
    });
    // The window handles these events, because the focused element may be hidden.
    for (const kind of ["pointermove", "pointerdown", "keydown", "focusin"]) {
        addEventListener(kind, () => page.wake(), true);
    }
}

function listenToWindow(page) {
    addEventListener("resize", () => page.show(true));
    matchMedia("(prefers-color-scheme: dark)").addEventListener("change", () => page.show(true));
    document.addEventListener("visibilitychange", () => page.show(false));
    addEventListener("dragover", (event) => {
        event.preventDefault();
        document.body.classList.add("dragged");
    });
    addEventListener("dragleave", () => document.body.classList.remove("dragged"));
    addEventListener("drop", async (event) => {
        event.preventDefault();
        document.body.classList.remove("dragged");
        const files = await filesOfDrop(event.dataTransfer);
        if (files.length > 0) {
            page.open(files);
        }
    });
    // Space and arrow keys work unless the focused control needs them.
    addEventListener("keydown", (event) => {
        const steps = new Map([["ArrowLeft", -STEP_SECONDS], ["ArrowRight", STEP_SECONDS]]);
        const isUsed = event.target.closest?.("button, input, select, a, summary") !== null;
        if (isUsed || event.ctrlKey || event.altKey || event.metaKey) {
            return;
        }
        if (event.key === " ") {
            event.preventDefault();
            page.toggle();
        } else if (steps.has(event.key)) {
            page.jump(page.now + steps.get(event.key));
        }
    });
}

async function start() {
    const bytes = MODULE === undefined ? undefined : Uint8Array.from(atob(MODULE), (letter) => letter.charCodeAt(0));
    const page = new Page(await load(bytes));
    byId("about").textContent = `Ribjasper ${VERSION}. Proved functions, compiled to WebAssembly, compute words, packs, pixels and ` +
        "counts; the counts are those of the command check. No data leaves this page.";
    listenToControls(page);
    listenToWindow(page);
    page.show(true);
    return page;
}

start().then((page) => { globalThis.page = page; }, (error) => {
    byId("message").textContent = `${error.message}. This browser may be too old: Chromium 133 and Firefox 134 run this page.`;
    byId("message").classList.add("wrong");
});
