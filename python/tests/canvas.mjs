// Prints the pixels of images as a browser's canvas has them: node canvas.mjs FOLDER [firefox],
// else Chromium's. It prints a JSON object: for each file its rows of [red, green, blue, opacity],
// or null where the browser shows no image.
import {readdirSync, readFileSync} from 'node:fs';
import {join} from 'node:path';
import {Firefox, Tab} from '../../tests/page/firefox_browser.mjs';
import {Browser} from '../../tests/page/page_browser.mjs';

const TYPES = {
  png: 'image/png',
  apng: 'image/png',
  gif: 'image/gif',
  bmp: 'image/bmp',
  webp: 'image/webp',
  jpeg: 'image/jpeg'
};

async function pixelsOf(files) {
  const shown = async (url) => {
    const image = new Image();
    const isLoaded = await new Promise((go) => {
      image.onload = () => go(true);
      image.onerror = () => go(false);
      image.src = url;
    });
    if (!isLoaded) return null;
    const [width, height] = [image.naturalWidth, image.naturalHeight];
    const pen = Object.assign(document.createElement('canvas'), {width, height}).getContext('2d');
    let data;
    try {
      pen.drawImage(image, 0, 0);
      ({data} = pen.getImageData(0, 0, width, height));
    } catch {
      return null;  // Firefox loads some images that are broken, and some of no size
    }
    const dots =
        Array.from({length: width * height}, (_, at) => [...data.subarray(4 * at, 4 * at + 4)]);
    return Array.from({length: height}, (_, row) => dots.slice(row * width, (row + 1) * width));
  };
  return Object.fromEntries(await Promise.all(Object.entries(files
  ).map(async ([name, url]) => [name, await shown(url)])));
}

const folder = process.argv[2];
const kind = (name) => TYPES[name.split('-')[0]];
const url = (name) =>
    `data:${kind(name)};base64,${readFileSync(join(folder, name)).toString('base64')}`;
const files = Object.fromEntries(readdirSync(folder).filter(kind).map((name) => [name, url(name)]));
const browser = process.argv[3] === 'firefox' ? await Firefox.start(folder) : new Browser();
try {
  const page = browser instanceof Browser ? await browser.page() : new Tab(browser);
  console.log(JSON.stringify(await page.run(pixelsOf, files)));
} finally {
  await browser.close();
}
