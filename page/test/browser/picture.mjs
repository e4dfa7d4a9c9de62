// Takes README's picture: node --experimental-websocket test/browser/picture.mjs

import { writeFileSync } from "node:fs";
import { example } from "../runs.mjs";
import { Browser } from "./chromium.mjs";

const browser = await Browser.start();
await browser.size(1200, 900);
await browser.open(example("tutorial/lock.lot"), 246);
await browser.run("app.zoom(0.3, 12500); document.documentElement.classList.remove('dark'); app.skip(1)");
await browser.drawn();
const bottom = await browser.run("document.getElementById('shares').getBoundingClientRect().top + scrollY");
const picture = await browser.picture({ x: 0, y: 0, width: 1200, height: bottom, scale: 0.76 });
writeFileSync(new URL("../../picture.png", import.meta.url), picture);
await browser.stop();
