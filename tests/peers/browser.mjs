// A headless Chromium, controlled over its debugging protocol.
import assert from "node:assert/strict";
import { spawn } from "node:child_process";
import { mkdirSync, writeFileSync } from "node:fs";
import { join, resolve } from "node:path";
import { pathToFileURL } from "node:url";

export const wait = (milliseconds) => new Promise((done) => { setTimeout(done, milliseconds); });

export class Browser {
    #socket;
    #waiting = new Map();
    #number = 0;
    #folder;
    /** The events that the browser reported: `{ method, params }`. */
    events = [];

    static async start(chromium, folder) {
        const profile = join(folder, "profile");
        mkdirSync(profile);
        const child = spawn(chromium, ["--headless", "--no-sandbox", "--disable-gpu", "--mute-audio", "--hide-scrollbars",
            "--autoplay-policy=no-user-gesture-required", "--remote-debugging-port=0", `--user-data-dir=${profile}`,
            "--window-size=1280,1000", "about:blank"], { stdio: ["ignore", "ignore", "pipe"] });
        const address = await new Promise((done, failed) => {
            let printed = "";
            child.stderr.on("data", (piece) => {
                printed += piece;
                const found = /DevTools listening on ws:\/\/([^/]+)\//.exec(printed);
                if (found) {
                    done(found[1]);
                }
            });
            child.on("exit", () => failed(new Error(printed)));
            setTimeout(() => failed(new Error(`Chromium does not answer: ${printed}`)), 60_000).unref();
        });
        const tabs = await (await fetch(`http://${address}/json/list`)).json();
        const browser = new Browser();
        browser.child = child;
        browser.#folder = folder;
        await browser.#connect(tabs.find((it) => it.type === "page").webSocketDebuggerUrl);
        await Promise.all(["Page", "DOM", "Runtime", "Network", "Accessibility"].map((it) => browser.send(`${it}.enable`)));
        return browser;
    }

    async #connect(address) {
        this.#socket = new WebSocket(address);
        await new Promise((done) => { this.#socket.addEventListener("open", done); });
        this.#socket.addEventListener("message", (event) => {
            const message = JSON.parse(event.data);
            if (message.id === undefined) {
                this.events.push(message);
                return;
            }
            const waiting = this.#waiting.get(message.id);
            this.#waiting.delete(message.id);
            if (message.error) {
                waiting?.failed(new Error(message.error.message));
            } else {
                waiting?.done(message.result);
            }
        });
    }

    send(method, params = {}) {
        this.#number += 1;
        const id = this.#number;
        this.#socket.send(JSON.stringify({ id, method, params }));
        return new Promise((done, failed) => { this.#waiting.set(id, { done, failed }); });
    }

    /** Evaluates an expression in the page. */
    async value(expression, userGesture = false) {
        const { result, exceptionDetails } = await this.send("Runtime.evaluate",
            { expression, awaitPromise: true, returnByValue: true, userGesture });
        assert.equal(exceptionDetails, undefined, JSON.stringify(exceptionDetails));
        return result.value;
    }

    /** Waits until an expression is true in the page. */
    async until(expression, seconds = 60) {
        for (let tries = 0; tries < 20 * seconds; tries += 1) {
            if (await this.value(expression)) {
                return;
            }
            await wait(50);
        }
        throw new Error(`timeout: ${expression} is still false; the page shows: ${await this.value("document.body.innerText")}`);
    }

    /** Waits for an event of the browser, and returns its parameters. */
    async event(method, seconds = 30) {
        for (let tries = 0; tries < 20 * seconds; tries += 1) {
            const found = this.events.find((it) => it.method === method);
            if (found) {
                return found.params;
            }
            await wait(50);
        }
        throw new Error(`timeout: the browser sent no ${method}`);
    }

    async visit(page) {
        await this.send("Page.navigate", { url: pathToFileURL(resolve(page)).href });
        await this.until("globalThis.page !== undefined");
    }

    /** Opens files with the file dialog of the page, and returns the message that the page shows afterwards. */
    async open(...files) {
        await this.value("document.getElementById('message').textContent = ''");
        const { root } = await this.send("DOM.getDocument");
        const { nodeId } = await this.send("DOM.querySelector", { nodeId: root.nodeId, selector: "#file" });
        await this.send("DOM.setFileInputFiles", { nodeId, files: files.map((it) => resolve(this.#folder, it)) });
        await this.until("document.getElementById('message').textContent !== ''");
        return this.value("document.getElementById('message').textContent");
    }

    async press(key, code = key, text = "") {
        const keys = new Map([["Enter", 13], ["Tab", 9], [" ", 32], ["ArrowLeft", 37], ["ArrowRight", 39], ["Home", 36], ["End", 35],
            ["PageUp", 33], ["PageDown", 34]]);
        const params = { key, code, windowsVirtualKeyCode: keys.get(key), text };
        await this.send("Input.dispatchKeyEvent", { type: text === "" ? "rawKeyDown" : "keyDown", ...params });
        await this.send("Input.dispatchKeyEvent", { type: "keyUp", ...params });
    }

    /** The coordinates of a point in an element: half its height, and a share of its width. */
    async place(id, share = 0.5) {
        const [x, y, width, height] = await this.value(`(() => {
            const box = document.getElementById(${JSON.stringify(id)}).getBoundingClientRect();
            return [box.x, box.y, box.width, box.height];
        })()`);
        return { x: x + share * width, y: y + height / 2 };
    }

    async click(id, share = 0.5) {
        await this.value(`document.getElementById(${JSON.stringify(id)}).scrollIntoView({ block: "center" })`);
        const at = { ...(await this.place(id, share)), button: "left", clickCount: 1 };
        await this.send("Input.dispatchMouseEvent", { type: "mousePressed", ...at });
        await this.send("Input.dispatchMouseEvent", { type: "mouseReleased", ...at });
    }

    async look(width, height, scheme) {
        await this.send("Emulation.setDeviceMetricsOverride", { width, height, deviceScaleFactor: 1, mobile: width < 600 });
        await this.send("Emulation.setEmulatedMedia", { features: [{ name: "prefers-color-scheme", value: scheme }] });
    }

    async photograph(name) {
        const { data } = await this.send("Page.captureScreenshot", { format: "png", captureBeyondViewport: false });
        writeFileSync(join(this.#folder, `${name}.png`), Buffer.from(data, "base64"));
    }

    stop() {
        this.#socket.close();
        this.child.kill();
    }
}
