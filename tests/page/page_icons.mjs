// Icons in flat colours for tests, as lists of shapes in a square of 100 by 100, and their pixels
// with smooth edges.

const INK = {
  white: '255,255,255',
  paper: '250,246,235',
  black: '20,20,24',
  night: '28,34,66',
  red: '214,48,49',
  brick: '168,62,44',
  orange: '240,140,30',
  beak: '238,108,36',
  yellow: '250,208,60',
  sand: '232,211,168',
  green: '60,140,64',
  leaf: '120,180,72',
  teal: '22,150,150',
  sky: '150,205,240',
  blue: '40,90,200',
  violet: '120,80,190',
  pink: '240,160,180',
  brown: '120,74,40',
  grey: '140,145,152',
  silver: '200,204,210',
};
const circle = (colour, x, y, r) => ({colour, has: (a, b) => (a - x) ** 2 + (b - y) ** 2 <= r * r});
const oval = (colour, x, y, rx, ry) =>
    ({colour, has: (a, b) => ((a - x) / rx) ** 2 + ((b - y) / ry) ** 2 <= 1});
const box = (colour, left, top, right, bottom) =>
    ({colour, has: (a, b) => a >= left && a < right && b >= top && b < bottom});
const ring = (colour, x, y, r, wide) =>
    ({colour, has: (a, b) => Math.abs(Math.hypot(a - x, b - y) - r) <= wide / 2});
// Corners in turn: a point is inside where a ray from it crosses an odd number of sides. Most
// points lie outside of the box around it.
const shape = (colour, ...corners) => {
  const [left, top, right, bottom] = [Math.min, Math.max].flatMap(
      (most) => [0, 1].map((axis) => most(...corners.map((corner) => corner[axis])))
  );
  const isInside = (a, b) => corners.reduce((inside, [x, y], at) => {
    const [u, v] = corners[(at + 1) % corners.length];
    return (y > b) !== (v > b) && a < x + ((u - x) * (b - y)) / (v - y) ? !inside : inside;
  }, false);
  return {
    colour,
    has: (a, b) => a >= left && a <= right && b >= top && b <= bottom && isInside(a, b)
  };
};
const line = (colour, x, y, u, v, wide) => {
  const [dx, dy] = [
    ((v - y) * wide) / 2 / Math.hypot(u - x, v - y),
    (-(u - x) * wide) / 2 / Math.hypot(u - x, v - y)
  ];
  return shape(colour, [x + dx, y + dy], [u + dx, v + dy], [u - dx, v - dy], [x - dx, y - dy]);
};

/** The icons: the ground first ('clear' is transparent), then shapes, each over those before it. */
export const ICONS = {
  duck: [
    'clear',
    oval('brown', 45, 65, 34, 22),
    circle('green', 66, 34, 17),
    shape('beak', [80, 30], [97, 36], [80, 42]),
    oval('sand', 42, 70, 18, 9),
    circle('white', 70, 30, 4.5),
    circle('black', 71, 30, 2.4),
    shape('beak', [40, 86], [52, 86], [46, 96])
  ],
  house: [
    'sky',
    box('sand', 20, 45, 80, 90),
    shape('brick', [12, 46], [50, 14], [88, 46]),
    box('brown', 42, 62, 58, 90),
    box('blue', 26, 54, 37, 65),
    box('blue', 63, 54, 74, 65),
    box('green', 0, 90, 100, 100)
  ],
  fish: [
    'blue',
    oval('orange', 45, 50, 30, 18),
    shape('orange', [70, 50], [92, 34], [92, 66]),
    box('white', 40, 34, 47, 66),
    circle('white', 26, 45, 5),
    circle('black', 26, 45, 2.6)
  ],
  flag: [
    'paper',
    box('grey', 14, 8, 18, 96),
    box('red', 18, 12, 88, 28),
    box('white', 18, 28, 88, 44),
    box('blue', 18, 44, 88, 60),
    circle('yellow', 53, 36, 8)
  ],
  tree: [
    'white',
    box('brown', 45, 62, 55, 94),
    circle('green', 50, 40, 30),
    circle('leaf', 41, 32, 13),
    circle('red', 60, 48, 4.4),
    circle('red', 47, 56, 4.4),
    circle('red', 66, 33, 4.4)
  ],
  cherry: [
    'clear',
    circle('red', 32, 70, 17),
    circle('red', 66, 74, 17),
    line('green', 34, 56, 58, 18, 4),
    line('green', 64, 58, 58, 18, 4),
    oval('leaf', 72, 20, 15, 8),
    circle('pink', 27, 64, 4),
    circle('pink', 61, 68, 4)
  ],
  mug: [
    'paper',
    box('teal', 22, 30, 68, 84),
    ring('teal', 70, 54, 14, 7),
    oval('brown', 45, 30, 23, 6),
    box('white', 22, 50, 68, 58),
    ring('silver', 38, 14, 6, 3),
    ring('silver', 54, 12, 6, 3)
  ],
  rocket: [
    'night',
    shape('silver', [50, 6], [66, 40], [66, 74], [34, 74], [34, 40]),
    shape('red', [34, 56], [34, 78], [18, 84]),
    shape('red', [66, 56], [66, 78], [82, 84]),
    circle('sky', 50, 40, 8),
    shape('orange', [40, 75], [60, 75], [50, 97]),
    circle('yellow', 12, 20, 2),
    circle('yellow', 85, 14, 2),
    circle('yellow', 88, 52, 2)
  ],
  mushroom: [
    'clear',
    oval('red', 50, 40, 38, 26),
    box('sand', 38, 50, 62, 88),
    circle('white', 34, 34, 7),
    circle('white', 58, 26, 6),
    circle('white', 70, 42, 6),
    box('brown', 38, 62, 62, 66)
  ],
  boat: [
    'sky',
    box('blue', 0, 76, 100, 100),
    shape('brown', [16, 66], [84, 66], [72, 82], [28, 82]),
    shape('white', [48, 12], [48, 62], [16, 62]),
    shape('red', [52, 20], [52, 62], [80, 62]),
    box('black', 48.6, 8, 51.4, 66)
  ],
  owl: [
    'violet',
    oval('brown', 50, 56, 30, 36),
    circle('white', 38, 42, 11),
    circle('white', 62, 42, 11),
    circle('black', 38, 42, 5),
    circle('black', 62, 42, 5),
    shape('orange', [46, 50], [54, 50], [50, 60]),
    oval('sand', 50, 72, 16, 15)
  ],
  lighthouse: [
    'night',
    shape('white', [40, 30], [60, 30], [68, 90], [32, 90]),
    box('red', 37, 42, 63, 52),
    box('red', 35, 64, 65, 74),
    box('yellow', 42, 18, 58, 30),
    shape('red', [40, 18], [60, 18], [50, 8]),
    box('teal', 0, 90, 100, 100)
  ],
  bee: [
    'leaf',
    oval('yellow', 50, 56, 30, 20),
    box('black', 38, 36, 45, 76),
    box('black', 54, 36, 61, 76),
    oval('white', 42, 28, 10, 14),
    oval('white', 60, 28, 10, 14),
    circle('black', 76, 52, 3)
  ],
  snowman: [
    'sky',
    circle('white', 50, 70, 24),
    circle('white', 50, 34, 16),
    box('black', 38, 10, 62, 21),
    box('black', 32, 20, 68, 24),
    shape('orange', [50, 33], [50, 39], [66, 37]),
    box('red', 36, 46, 64, 52),
    circle('black', 45, 30, 2),
    circle('black', 55, 30, 2)
  ],
  traffic: [
    'clear',
    box('grey', 34, 6, 66, 80),
    box('black', 47, 80, 53, 98),
    circle('red', 50, 20, 10),
    circle('yellow', 50, 43, 10),
    circle('green', 50, 66, 10)
  ],
  apple: [
    'white',
    circle('red', 40, 58, 26),
    circle('red', 60, 58, 26),
    line('brown', 50, 36, 56, 12, 5),
    oval('green', 68, 20, 13, 7),
    circle('pink', 33, 50, 6)
  ],
  outline: [
    'white',
    circle('black', 50, 50, 42),
    circle('yellow', 50, 50, 39.4),
    circle('black', 36, 40, 5),
    circle('black', 64, 40, 5),
    oval('red', 50, 68, 16, 7)
  ],
  shades: [
    'paper',
    box('silver', 10, 10, 50, 50),
    box('grey', 50, 10, 90, 50),
    box('sky', 10, 50, 50, 90),
    box('blue', 50, 50, 90, 90),
    circle('night', 50, 50, 10)
  ],
  stripes: [
    'sand',
    ...[0, 1, 2, 3, 4, 5].map(
        (at) => box(at % 2 ? 'teal' : 'green', 8 + at * 14, 12, 15 + at * 14, 88)
    ),
    box('red', 44, 40, 56, 60)
  ],
  parrot: [
    'clear',
    oval('green', 46, 52, 22, 34),
    circle('red', 50, 26, 17),
    shape('black', [62, 20], [78, 30], [64, 36]),
    shape('blue', [30, 60], [46, 50], [42, 96]),
    circle('white', 55, 23, 4.6),
    oval('yellow', 56, 58, 8, 16)
  ],
};

const SAMPLES = 3;  // a side of each pixel
const drawings = new Map();

/**
 * An icon's pixels with so many a side, and the share of the area that each of its colours has
 * ('clear' is what is transparent).
 */
export function drawn(name, side) {
  const key = `${name} ${side}`;
  if (!drawings.has(key)) drawings.set(key, drawnAnew(ICONS[name], side));
  return drawings.get(key);
}

function drawnAnew([ground, ...shapes], side) {
  const inks = [...new Set([ground, ...shapes.map(({colour}) => colour)])];
  const triples = inks.map((ink) => (ink === 'clear' ? null : INK[ink].split(',').map(Number)));
  const wide = side * SAMPLES;
  const samples = new Uint8Array(wide * wide).fill(inks.indexOf(ground));
  const places = Array.from({length: wide}, (_, at) => ((at + 0.5) * 100) / wide);
  for (const one of shapes) {
    const number = inks.indexOf(one.colour);
    for (let row = 0, at = 0; row < wide; row++)
      for (let col = 0; col < wide; col++, at++)
        if (one.has(places[col], places[row])) samples[at] = number;
  }
  const data = new Uint8ClampedArray(side * side * 4);
  const counts = Array(inks.length).fill(0);
  for (let at = 0; at < side * side; at++) {
    const first = Math.floor(at / side) * SAMPLES * wide + (at % side) * SAMPLES;
    const sums = [0, 0, 0];
    let met = 0;
    for (let sample = 0; sample < SAMPLES * SAMPLES; sample++) {
      const number = samples[first + Math.floor(sample / SAMPLES) * wide + (sample % SAMPLES)];
      counts[number]++;
      if (!triples[number]) continue;
      met++;
      for (let axis = 0; axis < 3; axis++) sums[axis] += triples[number][axis];
    }
    for (let axis = 0; met && axis < 3; axis++) data[at * 4 + axis] = Math.round(sums[axis] / met);
    data[at * 4 + 3] = Math.round((met * 255) / SAMPLES ** 2);
  }
  const shares = inks.map(
      (ink, number) => [ink === 'clear' ? ink : INK[ink], counts[number] / samples.length]
  );
  return {image: {width: side, height: side, data}, shares: new Map(shares)};
}
