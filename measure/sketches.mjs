// Photos in black and white: measure/sketches.mjs MODULE FOLDER. It makes ten pictures as a camera
// has them, with shading, blurred grounds and noise, whose subjects are about as light as what is
// around them; and of each what one threshold gives, and the best six that the page proposes by
// segments. FOLDER gets `threshold-NN.png` and `six-NN.png`, for somebody who has not seen this
// file to name what they show, and `subjects.txt`, which tells it. MODULE is nonobench.wasm. It
// fails unless seven of the ten have a unique sketch among their six.
import {mkdirSync, readFileSync, writeFileSync} from 'node:fs';
import {join} from 'node:path';
import {deflateSync} from 'node:zlib';
import '../page/test/limits.mjs';
import {load} from '../web/nonobench.mjs';

const {assessed} = await import('../page/engine/assessing.js');
const {crcOf} = await import('../page/formats/zip.js');
const {Maker} = await import('../page/import/making.js');
const {proposalFor} = await import('../page/import/proposing.js');
const {CANDIDATES, SEGMENTS, bestOf, docInTwo, rankedChoices} =
    await import('../page/import/segments.js');
const {thresholdFor} = await import('../page/import/tone.js');

const [WIDE, HIGH, FINE] = [120, 90, 3];  // units of the drawings below, and pixels a unit
const WANTED = 7;

// ---- photos: parts in turn, each over those before it, with a colour at each place

let state = 1;
const chance = () => (state = (state * 48271) % 2147483647) / 2147483647;
const waves = (x, y, by) =>
    Math.sin(x / by + 2 * Math.sin(y / by)) * Math.cos(y / (by * 0.8) - x / (by * 2.3));
const mixed = (one, other, share) =>
    one.map((sample, axis) => sample + (other[axis] - sample) * Math.max(0, Math.min(1, share)));
const plain = (...triple) => () => triple;
const faded = (from, to, top = 0, bottom = HIGH) => (_x, y) =>
    mixed(from, to, (y - top) / (bottom - top));
const lit = (triple, dark, cx, cy, r) => (x, y) =>
    mixed(triple, dark, Math.hypot(x - cx + r * 0.4, y - cy + r * 0.4) / (r * 2));
const rough = (triple, by, depth) => (x, y) =>
    triple.map((sample) => sample * (1 + depth * waves(x, y, by)));
const blurred = (one, other, by) => (x, y) => mixed(one, other, 0.5 + 0.5 * waves(x, y, by));
const oval = (cx, cy, rx, ry) => (x, y) => ((x - cx) / rx) ** 2 + ((y - cy) / ry) ** 2 <= 1;
const box = (left, top, right, bottom) => (x, y) =>
    x >= left && x < right && y >= top && y < bottom;
const all = () => true;
const below = (height) => (x, y) => y >= height(x);
const both = (one, other) => (x, y) => one(x, y) && other(x, y);
const without = (one, other) => (x, y) => one(x, y) && !other(x, y);

// The inside of a polygon, by the sides that a ray to the right crosses.
const shape = (...points) => (x, y) => points.reduce((isIn, [ax, ay], at) => {
  const [bx, by] = points[(at + 1) % points.length];
  return ay > y !== by > y && x < ax + ((y - ay) * (bx - ax)) / (by - ay) ? !isIn : isIn;
}, false);

const PHOTOS = {
  cat: [
    [all, blurred([96, 140, 74], [150, 176, 104], 17)],
    [below(() => 74), blurred([124, 106, 76], [150, 132, 96], 9)],
    [oval(78, 64, 26, 24), lit([214, 142, 70], [140, 78, 34], 78, 56, 26)],
    [
      shape([104, 74], [112, 40], [118, 42], [112, 78]),
      lit([200, 128, 60], [130, 72, 30], 110, 50, 20)
    ],
    [shape([30, 34], [34, 8], [50, 22]), rough([196, 122, 56], 4, 0.1)],
    [shape([56, 22], [72, 8], [76, 34]), rough([196, 122, 56], 4, 0.1)],
    [oval(53, 40, 24, 22), lit([226, 156, 84], [156, 92, 44], 53, 38, 24)],
    [oval(53, 51, 11, 9), lit([250, 236, 216], [214, 186, 160], 53, 50, 10)],
    [oval(44, 36, 4.6, 5), plain(206, 214, 96)],
    [oval(62, 36, 4.6, 5), plain(206, 214, 96)],
    [oval(44, 36, 1.9, 4.6), plain(16, 14, 12)],
    [oval(62, 36, 1.9, 4.6), plain(16, 14, 12)],
    [shape([50, 45], [56, 45], [53, 49]), plain(188, 92, 92)],
    [oval(64, 84, 10, 6), lit([250, 236, 216], [206, 176, 146], 64, 82, 8)],
    [oval(84, 84, 10, 6), lit([250, 236, 216], [206, 176, 146], 84, 82, 8)]
  ],
  lighthouse: [
    [all, faded([58, 72, 132], [250, 190, 120], 0, 62)],
    [oval(96, 54, 9, 9), plain(255, 240, 190)],
    [below(() => 62), faded([70, 92, 130], [30, 44, 78], 62, HIGH)],
    [shape([0, 66], [30, 60], [58, 64], [74, 78], [80, 90], [0, 90]), rough([58, 48, 46], 5, 0.35)],
    [
      shape([30, 62], [34, 22], [46, 22], [50, 62]),
      (x) => mixed([250, 244, 236], [150, 140, 146], (x - 32) / 18)
    ],
    [shape([33, 34], [33.6, 27], [46.4, 27], [47, 34]), plain(196, 44, 44)],
    [shape([31.6, 50], [32.4, 42], [47.6, 42], [48.4, 50]), plain(186, 40, 42)],
    [box(32, 18, 48, 22), plain(40, 36, 42)],
    [box(36, 10, 44, 18), plain(255, 232, 150)],
    [shape([34, 11], [40, 3], [46, 11]), plain(150, 30, 34)]
  ],
  house: [
    [all, faded([104, 160, 226], [196, 214, 232], 0, 60)],
    [below((x) => 30 + 7 * Math.sin(x / 9)), rough([84, 124, 62], 4, 0.3)],
    [below((x) => 66 + 2 * Math.sin(x / 12)), rough([132, 164, 84], 5, 0.15)],
    [box(36, 40, 88, 76), (x) => mixed([226, 196, 150], [190, 158, 116], (x - 36) / 52)],
    [shape([30, 42], [62, 14], [94, 42]), rough([178, 78, 60], 3, 0.15)],
    [box(76, 16, 82, 32), rough([150, 80, 66], 3, 0.2)],
    [box(56, 54, 68, 76), plain(92, 58, 40)],
    [box(42, 48, 52, 58), plain(72, 96, 120)],
    [box(72, 48, 82, 58), plain(72, 96, 120)],
    [shape([54, 90], [70, 90], [66, 76], [58, 76]), rough([186, 170, 140], 4, 0.1)]
  ],
  'sailing boat': [
    [all, faded([128, 166, 214], [190, 200, 214], 0, 58)],
    [below((x) => 44 + 5 * Math.sin(x / 17)), rough([96, 128, 130], 8, 0.1)],
    [below(() => 58), faded([60, 122, 150], [34, 84, 116], 58, HIGH)],
    [both(below(() => 58), (x, y) => waves(x * 2, y * 6, 9) > 0.72), plain(150, 196, 220)],
    [box(57, 8, 59, 66), plain(96, 66, 40)],
    [
      shape([60, 10], [60, 58], [92, 58]),
      (x) => mixed([238, 138, 58], [204, 104, 40], (x - 60) / 32)
    ],
    [
      shape([56, 16], [56, 58], [34, 58]),
      (x) => mixed([244, 214, 150], [206, 170, 104], (56 - x) / 22)
    ],
    [shape([28, 63], [96, 63], [84, 76], [40, 76]), rough([110, 66, 40], 5, 0.15)]
  ],
  mushroom: [
    [all, blurred([44, 66, 40], [92, 112, 66], 15)],
    [below((x) => 76 + 2 * Math.sin(x / 7)), rough([82, 64, 40], 4, 0.35)],
    [
      shape([52, 46], [70, 46], [74, 82], [48, 82]),
      (x) => mixed([244, 236, 216], [176, 164, 146], (x - 48) / 26)
    ],
    [both(oval(61, 46, 38, 34), (_x, y) => y < 50), lit([224, 54, 40], [140, 20, 26], 58, 30, 34)],
    [oval(46, 30, 5.5, 4.5), plain(250, 244, 232)],
    [oval(64, 22, 5, 4), plain(250, 244, 232)],
    [oval(80, 36, 5.5, 4.5), plain(244, 236, 226)],
    [oval(62, 40, 5, 4), plain(250, 244, 232)],
    [oval(33, 42, 4, 3.5), plain(250, 244, 232)]
  ],
  mug: [
    [all, blurred([112, 128, 96], [146, 150, 118], 21)],
    [below(() => 64), rough([146, 98, 62], 6, 0.15)],
    [
      without(oval(86, 46, 17, 16), oval(86, 46, 10, 9)),
      lit([60, 120, 176], [26, 66, 110], 86, 44, 16)
    ],
    [box(36, 22, 80, 74), (x) => mixed([96, 162, 214], [30, 76, 124], (x - 36) / 44)],
    [oval(58, 74, 22, 6), (x) => mixed([96, 162, 214], [30, 76, 124], (x - 36) / 44)],
    [oval(58, 22, 22, 6), plain(190, 214, 232)],
    [oval(58, 23, 18, 4.4), plain(60, 34, 22)],
    [shape([44, 14], [47, 4], [50, 14]), plain(226, 222, 220)],
    [shape([56, 13], [60, 2], [62, 13]), plain(226, 222, 220)]
  ],
  fish: [
    [all, faded([92, 178, 190], [40, 116, 140], 0, HIGH)],
    [both(below(() => 70), (x, y) => waves(x, y, 8) > 0), rough([146, 132, 92], 5, 0.2)],
    [
      shape([88, 44], [112, 24], [106, 44], [112, 66]),
      lit([250, 170, 60], [200, 96, 24], 100, 44, 20)
    ],
    [shape([46, 26], [62, 8], [76, 28]), lit([246, 150, 50], [190, 84, 24], 60, 20, 16)],
    [oval(56, 44, 36, 21), lit([252, 160, 48], [196, 78, 22], 56, 38, 34)],
    [both(oval(56, 44, 36, 21), box(46, 0, 53, 90)), plain(250, 246, 236)],
    [both(oval(56, 44, 36, 21), box(70, 0, 76, 90)), plain(250, 246, 236)],
    [oval(32, 39, 5, 5), plain(248, 248, 240)],
    [oval(31, 39, 2.4, 2.4), plain(10, 10, 14)],
    [shape([20, 50], [30, 51], [22, 54]), plain(120, 40, 20)],
    [shape([54, 62], [64, 62], [60, 76]), lit([246, 150, 50], [190, 84, 24], 60, 66, 10)]
  ],
  tree: [
    [all, faded([150, 184, 222], [206, 216, 222], 0, 40)],
    [below((x) => 28 + 9 * Math.sin(x / 22)), rough([96, 132, 92], 7, 0.2)],
    [below((x) => 58 + 4 * Math.sin(x / 15)), rough([142, 156, 92], 7, 0.12)],
    [below((x) => 74 + 2 * Math.sin(x / 9)), rough([120, 138, 70], 5, 0.2)],
    [shape([56, 80], [58, 40], [64, 40], [68, 80]), rough([86, 60, 44], 3, 0.25)],
    [shape([58, 52], [40, 36], [44, 34], [60, 46]), rough([86, 60, 44], 3, 0.2)],
    [oval(60, 26, 24, 18), lit([226, 130, 48], [160, 70, 30], 56, 20, 24)],
    [oval(42, 34, 16, 12), lit([232, 146, 56], [170, 80, 34], 38, 30, 15)],
    [oval(80, 34, 16, 12), lit([206, 112, 44], [150, 62, 30], 78, 30, 15)]
  ],
  duck: [
    [all, blurred([86, 128, 108], [118, 152, 132], 19)],
    [both(all, (x, y) => waves(x, y * 3, 12) > 0.85), plain(150, 178, 160)],
    [oval(68, 58, 34, 18), lit([186, 140, 104], [116, 78, 56], 64, 50, 30)],
    [shape([92, 52], [112, 40], [106, 60]), lit([150, 108, 80], [100, 68, 50], 100, 50, 14)],
    [oval(42, 32, 16, 16), lit([64, 122, 92], [24, 66, 52], 40, 28, 15)],
    [box(34, 44, 50, 50), plain(232, 230, 224)],
    [oval(72, 56, 16, 9), lit([208, 176, 146], [160, 124, 96], 70, 52, 14)],
    [shape([12, 36], [28, 30], [28, 40]), plain(228, 172, 50)],
    [oval(37, 28, 2.8, 2.8), plain(20, 16, 16)],
    [below(() => 74), faded([70, 132, 160], [40, 96, 130], 74, HIGH)]
  ],
  car: [
    [all, faded([150, 176, 206], [206, 214, 220], 0, 30)],
    [below((x) => 18 + 3 * Math.sin(x / 6)), rough([84, 116, 70], 5, 0.25)],
    [below(() => 58), rough([124, 120, 118], 6, 0.1)],
    [shape([34, 44], [44, 26], [78, 26], [90, 44]), lit([204, 44, 40], [140, 24, 30], 60, 30, 28)],
    [
      shape([10, 46], [34, 42], [90, 42], [110, 48], [110, 66], [10, 66]),
      faded([216, 52, 46], [130, 22, 28], 42, 66)
    ],
    [shape([41, 42], [48, 30], [59, 30], [59, 42]), plain(176, 206, 222)],
    [shape([63, 42], [63, 30], [76, 30], [84, 42]), plain(150, 186, 206)],
    [oval(32, 66, 10, 10), plain(28, 28, 32)],
    [oval(88, 66, 10, 10), plain(28, 28, 32)],
    [oval(32, 66, 4.5, 4.5), plain(196, 198, 204)],
    [oval(88, 66, 4.5, 4.5), plain(196, 198, 204)],
    [oval(13, 52, 2.4, 3), plain(250, 236, 170)]
  ]
};

// The pixels of a photo, each with some grain.
function photoOf(parts) {
  state = 7;
  const [width, height] = [WIDE * FINE, HIGH * FINE];
  const data = new Uint8ClampedArray(width * height * 4);
  for (let at = 0; at < width * height; at++) {
    const [x, y] = [(at % width) / FINE, Math.floor(at / width) / FINE];
    const colour = parts.findLast(([has]) => has(x, y))[1](x, y);
    data.set([...colour.map((one) => one + (chance() + chance() - 1) * 14), 255], at * 4);
  }
  return {width, height, data};
}

// ---- what the page makes of it

function sketchesOf(image) {
  const {columns, rows} = proposalFor(image);
  const [size, maker] = [[columns, rows], new Maker()];
  const part = {image, box: {x: 0, y: 0, width: image.width, height: image.height}};
  const threshold = thresholdFor(maker.cells(part, size, {}));
  const inColours = maker.doc(part, size, {colours: SEGMENTS});
  const choices = rankedChoices(inColours, CANDIDATES);
  return {
    one: maker.doc(part, size, {threshold}),
    some: choices.map((isInk) => docInTwo(inColours, isInk))
  };
}

// ---- sheets of pictures

const [SIDE, GAP] = [6, 12];  // pixels of a cell, and between pictures

function chunk(kind, bytes) {
  const body = Buffer.concat([Buffer.from(kind), bytes]);
  const [size, sum] = [Buffer.alloc(4), Buffer.alloc(4)];
  size.writeUInt32BE(bytes.length);
  sum.writeUInt32BE(crcOf(body));
  return Buffer.concat([size, body, sum]);
}

// A PNG of one byte a pixel, grey.
function pngOf(grey, width, height) {
  const head = Buffer.alloc(13);
  head.writeUInt32BE(width, 0);
  head.writeUInt32BE(height, 4);
  head.set([8, 0, 0, 0, 0], 8);
  const rows = Buffer.alloc((width + 1) * height);
  for (let row = 0; row < height; row++)
    rows.set(grey.subarray(row * width, (row + 1) * width), row * (width + 1) + 1);
  return Buffer.concat([
    Buffer.from('\x89PNG\r\n\x1a\n', 'latin1'),
    chunk('IHDR', head),
    chunk('IDAT', deflateSync(rows)),
    chunk('IEND', Buffer.alloc(0))
  ]);
}

// Pictures in rows of three.
function sheetOf(docs) {
  const {rows, columns} = docs[0];
  const [across, down] = [Math.min(3, docs.length), Math.ceil(docs.length / 3)];
  const [wide, high] = [columns * SIDE + GAP, rows * SIDE + GAP];
  const [width, height] = [across * wide + GAP, down * high + GAP];
  const grey = Buffer.alloc(width * height, 200);
  for (const [at, doc] of docs.entries()) {
    const [left, top] = [GAP + (at % 3) * wide, GAP + Math.floor(at / 3) * high];
    for (let y = 0; y < rows * SIDE; y++)
      for (let x = 0; x < columns * SIDE; x++)
        grey[(top + y) * width + left + x] =
            doc.picture[Math.floor(y / SIDE)][Math.floor(x / SIDE)] === '.' ? 255 : 0;
  }
  return pngOf(grey, width, height);
}

// ---- the run

const [module, folder] = process.argv.slice(2);
const engine = await load(readFileSync(module));
const asked = {
  call: async (_name, {puzzle, options}) => engine.assess(puzzle, options)
};
mkdirSync(folder, {recursive: true});
const subjects = [];
let met = 0;
console.log('| photo | threshold | best six |\n|---|---|---|');
for (const [at, [subject, parts]] of Object.entries(PHOTOS).entries()) {
  const {one, some} = sketchesOf(photoOf(parts));
  const judge = (doc) => assessed(asked, doc);
  const best = await bestOf(some, judge);
  const number = String(at + 1).padStart(2, '0');
  writeFileSync(join(folder, `threshold-${number}.png`), sheetOf([one]));
  writeFileSync(join(folder, `six-${number}.png`), sheetOf(best.map(({doc}) => doc)));
  subjects.push(`${number} ${subject}\n`);
  if (best.some(({said}) => said.verdict === 'unique')) met++;
  const words = best.map(({said}) => (said.open ? `${said.verdict} (${said.open})` : said.verdict));
  console.log(`| ${number} | ${(await judge(one)).verdict} | ${words.join(', ')} |`);
}
writeFileSync(join(folder, 'subjects.txt'), subjects.join(''));
console.log(`${met >= WANTED ? 'met' : 'MISSED'}: ${met} of ${
    subjects.length} photos have a unique sketch among the best six`);
process.exitCode = met >= WANTED ? 0 : 1;
