// The picture at a time. The proved library draws it from the packs of a .cdg file.

const PACK = 24, PACKS_PER_SECOND = 300;

export class Screen {
  #player;
  #packs = new Uint8Array();
  #next = 0;

  static async load() {
    const screen = new Screen();
    const [{ load }, module] = await Promise.all([import("./ribjasper.mjs"), fetch("ribjasper.wasm")]);
    const library = await load(await module.arrayBuffer());
    screen.#player = library.player({ form: "packs" });
    return screen;
  }

  /** Replaces the packs after an edit, and starts again with an empty picture. */
  set packs(packs) {
    this.#packs = packs;
    this.#restart();
  }

  get packs() {
    return this.#packs;
  }

  #restart() {
    this.#player.begin({ form: "packs" });
    this.#next = 0;
  }

  /** Draws the packs up to a time in seconds. Returns whether the picture may have changed. */
  show(second) {
    const until = Math.max(0, Math.min(4 * Math.floor(second * PACKS_PER_SECOND / 4), Math.floor(this.#packs.length / PACK)));
    const isBack = until < this.#next;
    if (isBack) this.#restart();
    if (until > this.#next) this.#player.drawAll(this.#packs.subarray(PACK * this.#next, PACK * until));
    const mayDiffer = isBack || until !== this.#next;
    this.#next = until;
    return mayDiffer;
  }

  pixels() {
    return this.#player.screen();
  }

  image() {
    return new ImageData(new Uint8ClampedArray(this.#player.picture()), 300, 216);
  }
}
