// The time of playback: the time of the sound while the sound plays, and otherwise the time of a clock.

/** The time of playback in seconds. Either the graphics or the sound (if there is one) may be longer. */
export class Transport {
    #sound = null;
    #url = "";
    // The second of the sound at which the graphics begin.
    #offset = 0;
    // Whether the sound begins with the lead-in of the stream.
    #hasLeadIn = false;
    #soundEnded = true;
    #position = 0;
    #clockStart = 0;
    #isRunning = false;
    #rate = 1;
    #volume = 1;
    #failed;

    /** Calls `changed` when the length of the sound becomes known or the sound ends, and `failed` if the sound cannot be played. */
    constructor(changed, failed) {
        this.changed = changed;
        this.#failed = failed;
        /** The length of the graphics in seconds. */
        this.graphics = 0;
    }

    get isRunning() {
        return this.#isRunning;
    }

    get hasSound() {
        return this.#sound !== null;
    }

    get now() {
        if (!this.#isRunning) {
            return this.#position;
        }
        return this.#soundEnded ? this.#position + ((performance.now() - this.#clockStart) / 1000) * this.#rate
            : Math.max(0, this.#sound.currentTime - this.#offset);
    }

    /** The length of the sound after the beginning of the graphics, or 0 if it is not known. */
    get soundLength() {
        const length = this.#sound?.duration ?? 0;
        return Number.isFinite(length) ? Math.max(0, length - this.#offset) : 0;
    }

    get length() {
        return Math.max(this.graphics, this.soundLength);
    }

    /** Whether both graphics and sound have ended. */
    get isAtEnd() {
        return this.#soundEnded && this.now >= this.graphics;
    }

    /**
     * Stops, and prepares graphics of this length and an optional sound. If the sound begins with the lead-in of the stream,
     * `offset` is the length of the lead-in in seconds.
     */
    open(graphics, blob = null, offset = undefined) {
        this.pause();
        this.#drop();
        this.graphics = graphics;
        this.#position = 0;
        this.#offset = offset ?? 0;
        this.#hasLeadIn = offset !== undefined;
        if (blob === null) {
            return;
        }
        const sound = new Audio();
        this.#url = URL.createObjectURL(blob);
        sound.preload = "auto";
        sound.addEventListener("durationchange", () => this.#ifCurrent(sound, () => this.changed()));
        sound.addEventListener("ended", () => this.#ifCurrent(sound, () => this.#end()));
        sound.addEventListener("error", () => this.#ifCurrent(sound, () => {
            this.#continueWithoutSound();
            this.#failed();
        }));
        sound.src = this.#url;
        sound.volume = this.#volume;
        sound.defaultPlaybackRate = this.#rate;
        sound.playbackRate = this.#rate;
        // An audio element without controls is hidden.
        document.body.append(sound);
        this.#sound = sound;
        this.#soundEnded = false;
        this.seek(0);
    }

    // Late events of an earlier sound are ignored.
    #ifCurrent(sound, work) {
        if (sound === this.#sound) {
            work();
        }
    }

    #drop() {
        this.#sound?.pause();
        this.#sound?.remove();
        this.#sound?.removeAttribute("src");
        this.#sound = null;
        this.#soundEnded = true;
        URL.revokeObjectURL(this.#url);
    }

    #continueWithoutSound() {
        this.#position = this.now;
        this.#clockStart = performance.now();
        this.#drop();
    }

    /** The clock continues where the sound ended. */
    #end() {
        this.#position = Math.max(this.now, this.soundLength);
        this.#clockStart = performance.now();
        this.#soundEnded = true;
        this.changed();
    }

    play() {
        this.#isRunning = true;
        this.#clockStart = performance.now();
        this.#playSound();
    }

    #playSound() {
        if (this.#sound === null || this.#soundEnded) {
            return;
        }
        this.#sound.play().catch((error) => {
            // A damaged sound causes an error event instead. A sound that is paused at once also rejects, but has not failed.
            if (error.name === "NotAllowedError") {
                this.pause();
                this.changed();
            }
        });
    }

    pause() {
        this.#position = this.now;
        this.#isRunning = false;
        this.#sound?.pause();
    }

    seek(seconds) {
        this.#position = Math.max(0, Math.min(seconds, this.length));
        this.#clockStart = performance.now();
        if (this.#sound === null) {
            return;
        }
        const at = this.#position + this.#offset;
        const { duration } = this.#sound;
        this.#soundEnded = Number.isFinite(duration) && at >= duration;
        if (this.#soundEnded) {
            this.#sound.pause();
            return;
        }
        this.#sound.currentTime = at;
        if (this.#isRunning) {
            this.#playSound();
        }
    }

    /** Changes the length of the graphics, and moves their beginning in the sound by some seconds. */
    move(graphics, seconds) {
        this.graphics = graphics;
        if (this.#hasLeadIn) {
            this.#offset = Math.max(0, this.#offset + seconds);
        }
    }

    set rate(rate) {
        this.#position = this.now;
        this.#clockStart = performance.now();
        this.#rate = rate;
        if (this.#sound !== null) {
            this.#sound.defaultPlaybackRate = rate;
            this.#sound.playbackRate = rate;
        }
    }

    set volume(volume) {
        this.#volume = volume;
        if (this.#sound !== null) {
            this.#sound.volume = volume;
        }
    }
}
