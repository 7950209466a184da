// Makes the screenshot studio.png of docs: the page of the studio, with the song that is open at ADDRESS. FOLDER receives the file,
// and SECOND is the time of the song that is shown.
//
//     node --experimental-websocket desk/tests/studio_picture.mjs CHROMIUM ADDRESS FOLDER SECOND
import { Browser, wait } from "../../tests/peers/browser.mjs";

const [chromium, url, folder, second] = process.argv.slice(2);
const browser = await Browser.start(chromium, folder);
await browser.send("Page.navigate", { url });
await browser.until("document.body && document.body.dataset.ready === 'yes' && document.body.dataset.planned");
await browser.look(1280, 1080, "light");
await browser.value(`(() => {
    const { lines } = studio.state, line = lines.findLastIndex((one) => one.words[0].start <= ${second});
    const word = lines[line].words.findLastIndex((one) => one.start <= ${second});
    document.querySelectorAll("#lines button")[line].querySelectorAll("i")[word].click();
    document.getElementById("sound").currentTime = ${second};
    document.activeElement.blur();
})()`);
await wait(700);
await browser.photograph("studio");
browser.stop();
