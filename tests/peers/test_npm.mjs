// Tests the npm package in Node, in a bundle and in a page: its picture must equal the program's.
//
//     node tests/peers/test_npm.mjs FOLDER PICTURE [ESBUILD] [CHROMIUM]
//
// The package is installed in FOLDER, which also has a stream named `stream`. PICTURE is the program's pixmap after all blocks of
// this stream. ESBUILD and CHROMIUM are programs; a test whose program is missing or empty is skipped.
import assert from "node:assert/strict";
import { execFileSync } from "node:child_process";
import { createHash } from "node:crypto";
import { readFileSync, writeFileSync } from "node:fs";
import { createServer } from "node:http";
import { extname, join } from "node:path";

const [FOLDER, PICTURE, ESBUILD, CHROMIUM] = process.argv.slice(2);
const HEAD = "P6\n300 216\n255\n".length;
const expected = createHash("sha256").update(readFileSync(PICTURE).subarray(HEAD)).digest("hex");

/** The source of a function that computes the SHA-256 of the picture. Node, the bundle and the page run it. */
const DIGEST = `
async function digest(ribjasper, stream) {
    const player = ribjasper.player();
    player.feedAll(stream);
    const rgb = player.picture().filter((_, k) => k % 4 !== 3);
    const sum = new Uint8Array(await crypto.subtle.digest("SHA-256", rgb));
    return Array.from(sum, (byte) => byte.toString(16).padStart(2, "0")).join("");
}`;

function runNode(words) {
    return execFileSync(process.execPath, words, { cwd: FOLDER }).toString().trim();
}

writeFileSync(join(FOLDER, "in_node.mjs"), `import { load } from "ribjasper";
import { readFileSync } from "node:fs";
${DIGEST}
console.log(await digest(await load(), readFileSync("stream")));`);
assert.equal(runNode(["in_node.mjs"]), expected, "the picture in Node");
console.log("test_npm: the picture in Node equals the program's");

if (ESBUILD) {
    // The bundle is made for pages, but Node can run it: Node has all functions that it needs. `withoutBytes` checks that a call of
    // `load` without bytes can be bundled too.
    writeFileSync(join(FOLDER, "bundled.mjs"), `import { load } from "ribjasper";
import bytes from "ribjasper/ribjasper.wasm";
${DIGEST}
globalThis.picture = (stream) => load(bytes).then((it) => digest(it, stream));
globalThis.withoutBytes = () => load();`);
    const words = ["--bundle", "--format=esm", "--platform=browser", "--minify", "--loader:.wasm=binary", "--log-level=warning"];
    execFileSync(ESBUILD, [...words, "bundled.mjs", "--outfile=bundle.mjs"], { cwd: FOLDER });
    writeFileSync(join(FOLDER, "of_bundle.mjs"), `import "./bundle.mjs";
import { readFileSync } from "node:fs";
console.log(await globalThis.picture(readFileSync("stream")));`);
    assert.equal(runNode(["of_bundle.mjs"]), expected, "the picture of a bundle");
    console.log("test_npm: esbuild bundles the package, and the picture of the bundle equals the program's");
} else {
    console.log("test_npm: the bundle is skipped: no esbuild is given");
}

if (CHROMIUM) {
    writeFileSync(join(FOLDER, "page.html"), `<!doctype html><title>waiting</title>
<script type="importmap">{ "imports": { "ribjasper": "./node_modules/ribjasper/ribjasper.mjs" } }</script>
<script type="module">
import { load } from "ribjasper";
${DIGEST}
const stream = new Uint8Array(await (await fetch("stream")).arrayBuffer());
await fetch("result?" + await digest(await load(), stream).catch((error) => "error " + error));
</script>`);
    const kinds = { ".html": "text/html", ".mjs": "text/javascript", ".wasm": "application/wasm" };
    let report;
    const reported = new Promise((resolve) => { report = resolve; });
    const server = createServer((request, response) => {
        const { pathname, search } = new URL(request.url, "http://localhost");
        if (pathname === "/result") {
            report(search.slice(1));
            response.end();
            return;
        }
        try {
            const content = readFileSync(join(FOLDER, pathname));
            response.setHeader("Content-Type", kinds[extname(pathname)] ?? "application/octet-stream");
            response.end(content);
        } catch {
            response.statusCode = 404;
            response.end();
        }
    });
    await new Promise((resolve) => { server.listen(0, "127.0.0.1", resolve); });
    const { spawn } = await import("node:child_process");
    const page = `http://127.0.0.1:${server.address().port}/page.html`;
    const browser = spawn(CHROMIUM, ["--headless", "--no-sandbox", "--disable-gpu", `--user-data-dir=${join(FOLDER, "profile")}`, page],
        { stdio: "ignore" });
    const timeout = setTimeout(() => report("no answer within two minutes"), 120_000);
    const result = await reported;
    clearTimeout(timeout);
    browser.kill("SIGKILL");
    server.close();
    server.closeAllConnections();
    assert.equal(result, expected, "the picture in a page");
    console.log("test_npm: the picture in a page of Chromium equals the program's");
} else {
    console.log("test_npm: the page is skipped: no Chromium is given");
}
