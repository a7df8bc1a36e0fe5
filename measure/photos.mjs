// How well the page's palettes stand for photos and drawings: measure/photos.mjs [COUNT ..]. It
// makes 20 pictures (portraits, flags, landscapes and drawings, with shading and noise), whose
// parts are known, and compares the colours that the page finds (COUNT 4, 6 and 8) with Pillow's
// median cut (Debian's python3-pil) and with k-means in Oklab. The error of a part is the root of
// the mean square distance in Oklab of its pixels to the nearest colour; that of a picture is the
// mean of its parts, so that a face counts as much as a sky. It fails where the page is not better
// in the median, or worse by a tenth anywhere. ROOT is the checkout that is measured (this one),
// FOLDER where the pictures are written as PPM (nowhere).
import {spawnSync} from 'node:child_process';
import {writeFileSync} from 'node:fs';
import {join, resolve} from 'node:path';
import {fileURLToPath, pathToFileURL} from 'node:url';
import {median} from './figures.mjs';

const root = resolve(process.env.ROOT ?? fileURLToPath(new URL('..', import.meta.url)));
const load = (name) => import(pathToFileURL(join(root, 'page', name)).href);
await load('test/limits.mjs');
const {oklabOf} = await load('document/colours.js');
const {paletteFor} = await load('import/quantise.js');
const {farness, nearestOf} = await load('import/spots.js');
const COUNTS = process.argv.length > 2 ? process.argv.slice(2).map(Number) : [4, 6, 8];
const SIDE = 100;     // pixels, as many as the page finds colours in
const LEAST = 0.004;  // of the area: a smaller part is not counted
const WORSE = 1.1;

// ---- pictures: parts in turn, each over those before it, with a colour at each place

let state = 1;
const chance = () => (state = (state * 48271) % 2147483647) / 2147483647;
const waves = (x, y, by) =>
    Math.sin(x / by + 2 * Math.sin(y / by)) * Math.cos(y / (by * 0.8) - x / (by * 2.3));
const mixed = (one, other, share) =>
    one.map((sample, axis) => sample + (other[axis] - sample) * Math.max(0, Math.min(1, share)));

// Colours: each gives the samples at a place of the picture.
const plain = (...triple) => () => triple;
// From one colour to another, by a share between 0 and 1 at each place.
const faded = (from, to, at) => (x, y) => mixed(from, to, at(x, y));
const down = (x, y) => y / SIDE;
const lit = (triple, dark, cx, cy, r) => (x, y) =>
    mixed(triple, dark, Math.hypot(x - cx + r * 0.4, y - cy + r * 0.4) / (r * 2));
const cloth = (triple) => (x, y) =>
    triple.map((sample) => sample * (0.86 + 0.14 * Math.sin(x / 7 + y / 31)));
const rough = (triple, by, depth) => (x, y) =>
    triple.map((sample) => sample * (1 + depth * waves(x, y, by)));

// Parts: each tells whether a place is in it.
const oval = (cx, cy, rx, ry) => (x, y) => ((x - cx) / rx) ** 2 + ((y - cy) / ry) ** 2 <= 1;
const box = (left, top, right, bottom) => (x, y) =>
    x >= left && x < right && y >= top && y < bottom;
const below = (height) => (x, y) => y >= height(x);
const all = () => true;

function portrait({wall, skin, shade, hair, shirt, eyes, lips}) {
  return [
    [all, wall],
    [oval(50, 42, 27, 33), hair],
    [oval(50, 108, 42, 36), shirt],
    [oval(50, 68, 10, 16), lit(skin, shade, 50, 66, 9)],
    [oval(50, 48, 19, 25), lit(skin, shade, 48, 46, 22)],
    [oval(50, 22, 22, 9), hair],
    [oval(42, 45, 3.2, 2.2), eyes],
    [oval(58, 45, 3.2, 2.2), eyes],
    [oval(50, 62, 6.5, 2.4), lips]
  ];
}

const PICTURES = {
  'portrait, sky': portrait({
    wall: faded([96, 156, 230], [214, 232, 250], down),
    skin: [232, 184, 152],
    shade: [150, 96, 74],
    hair: rough([62, 40, 26], 3, 0.3),
    shirt: rough([176, 40, 48], 9, 0.2),
    eyes: plain(40, 60, 90),
    lips: plain(190, 84, 84)
  }),
  'portrait, green': portrait({
    wall: rough([74, 110, 60], 6, 0.45),
    skin: [120, 78, 54],
    shade: [58, 34, 24],
    hair: rough([22, 18, 18], 4, 0.4),
    shirt: rough([235, 225, 205], 8, 0.08),
    eyes: plain(20, 16, 14),
    lips: plain(140, 66, 66)
  }),
  'portrait, grey': portrait({
    wall: faded([70, 72, 78], [170, 172, 176], down),
    skin: [246, 208, 184],
    shade: [190, 130, 108],
    hair: rough([204, 166, 96], 4, 0.2),
    shirt: rough([40, 60, 110], 7, 0.25),
    eyes: plain(70, 130, 170),
    lips: plain(206, 96, 104)
  }),
  'portrait, night': portrait({
    wall: faded([12, 14, 34], [44, 34, 66], down),
    skin: [214, 150, 110],
    shade: [70, 40, 40],
    hair: rough([120, 50, 30], 3, 0.35),
    shirt: rough([24, 96, 92], 7, 0.3),
    eyes: plain(30, 24, 20),
    lips: plain(170, 60, 70)
  }),
  'portrait, wood': portrait({
    wall: rough([150, 104, 60], 5, 0.25),
    skin: [226, 176, 140],
    shade: [140, 92, 70],
    hair: rough([180, 176, 172], 3, 0.15),
    shirt: rough([96, 120, 76], 8, 0.25),
    eyes: plain(60, 90, 60),
    lips: plain(184, 92, 88)
  }),
  'portrait, sea': portrait({
    wall: faded([30, 110, 150], [190, 220, 214], down),
    skin: [92, 58, 42],
    shade: [40, 24, 20],
    hair: rough([34, 26, 26], 3, 0.4),
    shirt: rough([246, 196, 40], 8, 0.12),
    eyes: plain(16, 12, 12),
    lips: plain(120, 50, 52)
  }),
  'flag, three': [
    [box(0, 0, 34, 100), cloth([0, 85, 164])],
    [box(34, 0, 67, 100), cloth([250, 250, 250])],
    [box(67, 0, 100, 100), cloth([239, 65, 53])]
  ],
  'flag, cross': [
    [all, cloth([0, 106, 167])],
    [box(30, 0, 44, 100), cloth([254, 204, 2])],
    [box(0, 43, 100, 57), cloth([254, 204, 2])]
  ],
  'flag, sun': [[all, cloth([252, 252, 252])], [oval(50, 50, 22, 22), cloth([188, 0, 45])]],
  'flag, many': [
    ...Array.from(
        {length: 10},
        (_, at
        ) => [box(0, at * 10, 100, at * 10 + 10), cloth(at % 2 ? [250, 248, 244] : [178, 34, 52])]
    ),
    [box(0, 0, 44, 50), cloth([60, 59, 110])],
    [oval(22, 25, 8, 8), cloth([255, 205, 40])]
  ],
  'flag, wind': [
    [all, faded([120, 170, 220], [200, 220, 240], down)],
    [box(18, 14, 22, 100), rough([90, 70, 50], 4, 0.2)],
    [box(22, 16, 84, 31), cloth([0, 140, 69])],
    [box(22, 31, 84, 46), cloth([244, 245, 240])],
    [box(22, 46, 84, 61), cloth([205, 33, 42])]
  ],
  'landscape, hills': [
    [all, faded([88, 150, 226], [224, 236, 246], down)],
    [below((x) => 46 + 10 * Math.sin(x / 13)), rough([92, 108, 132], 8, 0.15)],
    [below((x) => 64 + 6 * Math.sin(x / 9 + 2)), rough([86, 134, 58], 5, 0.25)],
    [below((x) => 84 + 3 * Math.sin(x / 5)), rough([180, 156, 84], 4, 0.2)],
    [box(62, 60, 72, 70), plain(190, 50, 40)],
    [oval(18, 16, 7, 7), plain(255, 236, 150)]
  ],
  'landscape, sunset': [
    [all, faded([46, 34, 92], [252, 170, 84], (x, y) => y / 66)],
    [oval(60, 58, 11, 11), plain(255, 226, 130)],
    [below((x) => 66 + 3 * Math.sin(x / 11)), rough([30, 26, 50], 6, 0.3)],
    [below(() => 80), rough([70, 58, 110], 3, 0.35)]
  ],
  'landscape, beach': [
    [all, faded([60, 160, 226], [180, 224, 244], (x, y) => y / 40)],
    [below(() => 40), faded([20, 96, 150], [90, 190, 190], (x, y) => (y - 40) / 28)],
    [below((x) => 68 + 3 * Math.sin(x / 12)), rough([232, 206, 150], 4, 0.08)],
    [oval(28, 80, 11, 6), plain(220, 40, 50)],
    [box(27, 62, 29, 92), plain(120, 80, 40)]
  ],
  'landscape, wood': [
    [all, rough([40, 74, 40], 4, 0.5)],
    [below(() => 78), rough([104, 80, 50], 4, 0.3)],
    ...[14, 38, 71].map((x) => [box(x, 0, x + 8, 84), rough([76, 56, 40], 3, 0.35)]),
    [oval(56, 74, 6, 4), plain(226, 40, 36)],
    [box(55, 76, 58, 83), plain(240, 230, 214)]
  ],
  'landscape, snow': [
    [all, faded([120, 164, 214], [208, 222, 238], down)],
    [(x, y) => y > 24 + Math.abs(x - 46) * 1.1, rough([120, 128, 146], 5, 0.25)],
    [
      (x, y) => y > 24 + Math.abs(x - 46) * 1.1 && y < 44 + 4 * Math.sin(x / 3),
      rough([240, 244, 250], 6, 0.05)
    ],
    [below((x) => 76 + 3 * Math.sin(x / 8)), rough([226, 234, 246], 7, 0.05)],
    [oval(78, 74, 7, 12), rough([34, 74, 50], 3, 0.3)],
    [box(20, 70, 32, 80), plain(150, 60, 40)]
  ],
  'landscape, city': [
    [all, faded([180, 196, 214], [240, 226, 206], down)],
    [box(8, 30, 28, 100), rough([130, 120, 116], 5, 0.15)],
    [box(32, 14, 50, 100), rough([88, 100, 122], 4, 0.2)],
    [box(54, 44, 76, 100), rough([176, 96, 70], 4, 0.15)],
    [box(80, 36, 96, 100), rough([204, 190, 160], 5, 0.1)],
    [below(() => 90), rough([60, 62, 66], 4, 0.15)],
    [oval(40, 88, 6, 4), plain(240, 196, 30)]
  ],
  'drawing, balloon': [
    [all, plain(190, 226, 246)],
    [oval(50, 38, 26, 28), lit([226, 60, 56], [150, 24, 40], 46, 34, 24)],
    [oval(50, 38, 9, 28), lit([250, 214, 80], [214, 150, 40], 48, 34, 24)],
    [box(43, 72, 57, 82), plain(130, 84, 46)],
    [below((x) => 90 + 2 * Math.sin(x / 9)), plain(96, 168, 84)]
  ],
  'drawing, fruit': [
    [all, plain(250, 244, 230)],
    [below(() => 66), plain(150, 104, 70)],
    [oval(34, 54, 17, 17), lit([216, 44, 40], [120, 16, 30], 32, 50, 15)],
    [oval(64, 56, 16, 15), lit([248, 160, 40], [200, 96, 20], 62, 52, 14)],
    [oval(52, 70, 13, 9), lit([140, 186, 60], [80, 120, 40], 50, 68, 11)],
    [box(33, 32, 36, 40), plain(90, 60, 36)]
  ],
  'drawing, robot': [
    [all, plain(236, 240, 244)],
    [box(28, 18, 72, 50), lit([120, 136, 152], [76, 88, 104], 50, 34, 30)],
    [box(22, 52, 78, 88), lit([60, 140, 170], [30, 84, 116], 50, 70, 34)],
    [oval(40, 34, 6, 6), plain(250, 230, 90)],
    [oval(60, 34, 6, 6), plain(250, 230, 90)],
    [box(40, 62, 60, 74), plain(226, 84, 60)],
    [box(30, 88, 42, 98), plain(50, 54, 62)],
    [box(58, 88, 70, 98), plain(50, 54, 62)]
  ],
};

// The pixels of a picture, with a little noise as a camera or a scanner makes it, and the number of
// the part that each is of.
function drawn(parts, grain) {
  state = 7;
  const data = new Uint8ClampedArray(SIDE * SIDE * 4);
  const numbers = new Uint8Array(SIDE * SIDE);
  for (let at = 0; at < numbers.length; at++) {
    const [x, y] = [at % SIDE, Math.floor(at / SIDE)];
    const part = parts.findLastIndex(([has]) => has(x, y));
    numbers[at] = part;
    data.set(
        [
          ...parts[part][1](
              x, y
          ).map((sample) => Math.round(sample + (chance() + chance() - 1) * grain)),
          255
        ],
        at * 4
    );
  }
  return {image: {width: SIDE, height: SIDE, data}, numbers};
}

// ---- palettes

const labsOf = ({data}) => Array.from(
    {length: SIDE * SIDE}, (_, at) => oklabOf(data[at * 4], data[at * 4 + 1], data[at * 4 + 2])
);

// Lloyd's algorithm on all pixels, whose first centres are drawn by their distance (k-means++).
function kMeans(labs, most) {
  state = 11;
  const centres = [labs[Math.floor(chance() * labs.length)]];
  while (centres.length < most) {
    const far = labs.map((lab) => farness(centres[nearestOf(centres, lab)], lab));
    let left = chance() * far.reduce((sum, one) => sum + one, 0);
    centres.push(labs[Math.max(0, far.findIndex((one) => (left -= one) <= 0))]);
  }
  for (let round = 0; round < 25; round++) {
    const sums = centres.map(() => [0, 0, 0, 0]);
    for (const lab of labs) {
      const sum = sums[nearestOf(centres, lab)];
      lab.forEach((one, axis) => {
        sum[axis] += one;
      });
      sum[3]++;
    }
    sums.forEach(([light, a, b, many], at) => {
      if (many) centres[at] = [light / many, a / many, b / many];
    });
  }
  return centres;
}

const PILLOW = `import sys
from PIL import Image
size = ${SIDE * SIDE * 3}
for line in sys.argv[1:]:
    image = Image.frombytes("RGB", (${SIDE}, ${SIDE}), sys.stdin.buffer.read(size))
    for count in map(int, line.split(",")):
        used = image.quantize(count, method=Image.Quantize.MEDIANCUT, dither=0)
        palette = used.getpalette()
        print(";".join(",".join(str(one) for one in palette[3 * at : 3 * at + 3]) for _, at in sorted(used.getcolors(), reverse=True)))
`;

// Pillow's palettes of all pictures, for each count.
function medianCuts(images) {
  const bytes =
      Buffer.concat(images.map(({data}) => Buffer.from(data.filter((_, at) => at % 4 < 3))));
  const done = spawnSync(
      process.env.PYTHON ?? '/usr/bin/python3',
      ['-c', PILLOW, ...images.map(() => COUNTS.join())],
      {input: bytes, encoding: 'utf8'}
  );
  if (done.status !== 0) throw new Error(done.stderr);
  const lines = done.stdout.trim().split('\n'
  ).map((line) => line.split(';').map((triple) => oklabOf(...triple.split(',').map(Number))));
  return images.map((_, at) => lines.slice(at * COUNTS.length, (at + 1) * COUNTS.length));
}

// ---- errors

function errorOf(labs, numbers, palette) {
  const sums = new Map();
  labs.forEach((lab, at) => {
    const sum = sums.get(numbers[at]) ?? [0, 0];
    sums.set(numbers[at], [sum[0] + farness(palette[nearestOf(palette, lab)], lab), sum[1] + 1]);
  });
  const parts = [...sums.values()].filter(
                                      ([, many]) => many >= LEAST * labs.length
  ).map(([sum, many]) => Math.sqrt(sum / many));
  return parts.reduce((sum, one) => sum + one, 0) / parts.length;
}

const pictures = Object.entries(PICTURES
).map(([name, parts]) => ({name, ...drawn(parts, name.startsWith('drawing') ? 3 : 14)}));
const cuts = medianCuts(pictures.map(({image}) => image));
const ratios = {
  cut: [],
  means: []
};
console.log(`| picture | colours | page | median cut | k-means |\n|---|---|---|---|---|`);
for (const [at, {name, image, numbers}] of pictures.entries()) {
  if (process.env.FOLDER)
    writeFileSync(join(process.env.FOLDER, `${name.replaceAll(/\W+/g, '-')}.ppm`), Buffer.concat([
      Buffer.from(`P6\n${SIDE} ${SIDE}\n255\n`),
      Buffer.from(image.data.filter((_, one) => one % 4 < 3))
    ]));
  const labs = labsOf(image);
  for (const [one, count] of COUNTS.entries()) {
    const own = paletteFor(image, count, {isExact: false}).map((triple) => oklabOf(...triple));
    const [page, cut, means] =
        [own, cuts[at][one], kMeans(labs, count)].map((palette) => errorOf(labs, numbers, palette));
    ratios.cut.push(page / cut);
    ratios.means.push(page / means);
    const mark = Math.max(page / cut, page / means) > WORSE ? ' !' : '';
    console.log(`| ${name} | ${count} | ${page.toFixed(4)}${mark} | ${cut.toFixed(4)} | ${
        means.toFixed(4)} |`);
  }
}
for (const [name, list] of Object.entries({'median cut': ratios.cut, 'k-means': ratios.means})) {
  const [middle, worst] = [median(list), Math.max(...list)];
  const isMet = middle < 1 && worst <= WORSE;
  if (!isMet) process.exitCode = 1;
  console.log(`${isMet ? 'met' : 'MISSED'}: error beside ${name}'s: ${
      middle.toFixed(2)} in the median, ${worst.toFixed(2)} at worst`);
}
