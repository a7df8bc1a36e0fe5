// Tests of palette files, of colours by name, and of colours as the colour-blind see them. Texts
// and colours are made by hand after the formats' descriptions and published tables. Run: node
// --test tests/page/page_colours.mjs
import assert from 'node:assert/strict';
import {test} from 'node:test';
import '../../page/test/limits.mjs';
import {emptyDoc} from '../../page/document/document.js';
import {COLOUR_NAMES, colourNamed} from '../../page/document/named.js';
import {nameOf, namesOf} from '../../page/document/names.js';
import {clashesWith, seenWith} from '../../page/document/vision.js';
import {
  PaletteFault,
  kindOfPalette,
  paletteText,
  readPalette
} from '../../page/formats/palettes.js';
import {withMore, withNearest} from '../../page/import/palettes.js';
import {DE} from '../../page/texts/de.js';
import {EN} from '../../page/texts/en.js';
import {FR} from '../../page/texts/fr.js';

const GPL =
    'GIMP Palette\nName: Sea\nColumns: 3\n# a comment\n  0   0 128\tnavy blue\n255 255 255\tUntitled\n 70 130 180\n';
const PAL = 'JASC-PAL\r\n0100\r\n2\r\n0 0 128\r\n255 255 255\r\n';
const HEX = '000080\n#FFFFFF\n\n4682b4\n';
const triples = (palette) => palette.colours.map(({triple}) => triple);

test('palette files of three kinds', () => {
  assert.deepEqual(readPalette(GPL), {
    name: 'Sea',
    kind: 'gpl',
    colours: [
      {triple: [0, 0, 128], name: 'navy blue'},
      {triple: [255, 255, 255], name: ''},
      {triple: [70, 130, 180], name: ''}
    ]
  });
  assert.deepEqual(triples(readPalette(PAL)), [[0, 0, 128], [255, 255, 255]]);
  assert.deepEqual(triples(readPalette(HEX)), [[0, 0, 128], [255, 255, 255], [70, 130, 180]]);
  assert.deepEqual(
      triples(readPalette('ff0000\r\nff0000\r\n00ff00')),
      [[255, 0, 0], [0, 255, 0]],
      'what is there twice counts once'
  );
  const named = (signs) =>
      readPalette(`GIMP Palette\n1 2 3\t${'n'.repeat(signs)}\n`).colours[0].name.length;
  assert.deepEqual([named(200), named(201), named(1e6)], [200, 0, 0], 'longer names are none');
  const blanks = ' '.repeat(5e5);
  assert.deepEqual(
      readPalette(`GIMP Palette\nName:${blanks}\u2028x\n1 2 3${blanks}\u2028x\n`).colours.length,
      1,
      'at once'
  );
  assert.deepEqual(
      [
        'GIMP Palette',
        'JASC-PAL\n0100',
        HEX,
        'P3 1 1',
        'width 3',
        '',
        '12345',
        '\ufeffGIMP Palette\n1 2 3'
      ].map(kindOfPalette),
      ['gpl', 'pal', 'hex', null, null, null, null, 'gpl']
  );
});

test('palette files that are not read name why', () => {
  const faults = {
    NoPalette: ['hello', 'JASC-PAL\n0200\n1\n1 2 3\n', 'ff00ff\nfg0000\n'],
    BadColour: [
      'GIMP Palette\n1 2\n',
      'GIMP Palette\n1 2 256\n',
      'GIMP Palette\n1 2 x red\n',
      'JASC-PAL\n0100\n1\n1,2,3\n'
    ],
    BadCount:
        ['JASC-PAL\n0100\n3\n1 2 3\n', 'JASC-PAL\n0100\n\n1 2 3\n', 'JASC-PAL\n0100\nx\n1 2 3\n'],
    NoColours: ['GIMP Palette\nName: x\n', 'JASC-PAL\n0100\n0\n'],
    TooMany: ['000000\n'.repeat(1025), `GIMP Palette\n${'\n'.repeat(2 ** 24)}1 2 3\n`],
  };
  for (const [kind, texts] of Object.entries(faults)) {
    for (const text of texts)
      assert.throws(
          () => readPalette(text),
          (fault) =>
              fault instanceof PaletteFault && fault.kind === kind && fault.message.length > 8,
          `${kind}: ${text.slice(0, 40)}`
      );
  }
  assert.throws(() => readPalette('GIMP Palette\n#\n1 2 3\n300 0 0\n'), /line 4 is not a colour/);
  assert.throws(() => readPalette('JASC-PAL\n0100\n3\n1 2 3\n'), /line 3/);
});

test('palette files as they are written, and read again', () => {
  const palette = {
    name: 'Two\nlines',
    colours: [{triple: [0, 0, 128], name: 'navy'}, {triple: [9, 200, 255], name: ''}]
  };
  assert.equal(
      paletteText(palette, 'gpl'),
      'GIMP Palette\nName: Two lines\nColumns: 0\n#\n  0   0 128\tnavy\n  9 200 255\tUntitled\n'
  );
  assert.equal(paletteText(palette, 'pal'), 'JASC-PAL\r\n0100\r\n2\r\n0 0 128\r\n9 200 255\r\n');
  assert.equal(paletteText(palette, 'hex'), '000080\n09c8ff\n');
  for (const kind of ['gpl', 'pal', 'hex'])
    assert.deepEqual(
        triples(readPalette(paletteText(palette, kind))), [[0, 0, 128], [9, 200, 255]], kind
    );
});

test('colours by name', () => {
  assert.equal(
      COLOUR_NAMES.length, 141
  );  // the 148 of CSS Color 4 without the seven that are spelt with grey
  const known = {
    tomato: [255, 99, 71],
    'Dark Slate Grey': [47, 79, 79],
    REBECCAPURPLE: [102, 51, 153],
    'light-goldenrod yellow': [250, 250, 210],
    '#0af': [0, 170, 255],
    '12ABef': [18, 171, 239],
    grey: [128, 128, 128],
    cyan: [0, 255, 255],
    magenta: [255, 0, 255]
  };
  for (const [text, triple] of Object.entries(known))
    assert.deepEqual(colourNamed(text), triple, text);
  for (const text of ['', 'tomatoes', '#12', '#12345', 'rgb(1,2,3)', '#gggggg'])
    assert.equal(colourNamed(text), null, text);
});

test('a picture takes colours of a palette', () => {
  const doc = {
    ...emptyDoc(3, 1),
    colours: [[255, 255, 255], [250, 10, 10], [240, 40, 40]],
    picture: ['.ab'],
    inks: [{}, {name: 'rose', sign: 'R'}, {}]
  };
  const palette = [[0, 0, 0], [252, 12, 12], [200, 60, 60], [250, 250, 250]].map(
      (triple, at) => ({triple, name: at === 1 ? 'red' : ''})
  );
  const near = withNearest(doc, palette);
  assert.deepEqual(
      [near.colours, near.inks, near.picture],
      [[[250, 250, 250], [252, 12, 12], [200, 60, 60]], [{}, {sign: 'R', name: 'red'}, {}], ['.ab']]
  );
  const more = withMore(doc, [
    {triple: [250, 10, 10], name: 'x'},
    {triple: [1, 2, 3], name: 'rose'},
    {triple: [4, 5, 6], name: 'ink'}
  ]);
  assert.deepEqual(
      [more.colours.slice(3), more.inks.slice(3)],
      [[[1, 2, 3], [4, 5, 6]], [{}, {name: 'ink'}]],
      'what it has is not added, and no name is there twice'
  );
});

test('greys are seen as they are with each kind of vision, and colours are not', () => {
  for (const kind of ['protan', 'deutan', 'tritan']) {
    for (const sample of [0, 60, 128, 255])
      for (const one of seenWith([sample, sample, sample], kind))
        assert.ok(Math.abs(one - sample) <= 1, `${kind}: ${sample}, ${one}`);
  }
  // Red and green become alike yellows without red or green cones, blue and green do not; without
  // blue cones it is the other way round.
  const spread = ([red, green, blue]) => Math.max(red, green, blue) - Math.min(red, green, blue);
  for (const kind of ['protan', 'deutan']) {
    const [red, green, blue] = [
      seenWith([200, 60, 40], kind),
      seenWith([110, 120, 40], kind),
      seenWith([40, 60, 220], kind)
    ];
    assert.ok(
        Math.abs(red[0] - red[1]) < 60 && Math.abs(green[0] - green[1]) < 60,
        `${kind}: ${red} ${green}`
    );
    assert.ok(spread(blue) > 120, `${kind}: ${blue}`);
  }
  assert.ok(spread(seenWith([200, 60, 40], 'tritan')) > 120);
});

test('colours that look alike to some are named, and only those', () => {
  const doc = {
    ...emptyDoc(5, 1),
    colours: [[255, 255, 255], [200, 90, 60], [120, 130, 50], [40, 60, 220], [0, 0, 0]],
    picture: ['abcd.']
  };
  assert.deepEqual(clashesWith(doc, 'tritan'), []);
  assert.deepEqual(clashesWith(doc, 'deutan'), [['a', 'b']]);
  assert.deepEqual(
      clashesWith({...doc, picture: ['accd.']}, 'deutan'),
      [],
      'of colours that no cell has nothing is said'
  );
  const near = {
    ...doc,
    colours: [[255, 255, 255], [200, 40, 40], [204, 42, 40], [40, 60, 220], [0, 0, 0]]
  };
  for (const kind of ['protan', 'deutan', 'tritan'])
    assert.deepEqual(clashesWith(near, kind), [], 'what looks alike to all is said elsewhere');
});

// Colours by what people who draw call them, by hand: those of CSS, skin, and the palettes of
// PICO-8, Material Design and Tango.
const CALLED = `
    8b4513 saddlebrown: brown; a0522d sienna: brown; d2691e chocolate: brown|dark orange; cd853f peru: light brown; d2b48c tan: tan; deb887 burlywood: tan; f5deb3 wheat: beige;
    f5f5dc beige: beige; faf0e6 linen: beige|white; ffe4c4 bisque: beige; ffdab9 peachpuff: beige; f4a460 sandybrown: light orange; daa520 goldenrod: gold|dark gold;
    b8860b darkgoldenrod: dark gold; ffd700 gold: gold; ffa500 orange: orange; ff8c00 darkorange: orange; ff7f50 coral: salmon|orange; ff6347 tomato: red|orange;
    ff4500 orangered: red|orange; fa8072 salmon: salmon; ffa07a lightsalmon: salmon|light orange; e9967a darksalmon: salmon; cd5c5c indianred: red|salmon|dark salmon;
    f0e68c khaki: khaki; bdb76b darkkhaki: khaki|dark khaki; 808000 olive: olive; 556b2f darkolivegreen: dark olive|dark green|olive; 6b8e23 olivedrab: olive|green;
    000080 navy: navy; 191970 midnightblue: navy; 00008b darkblue: navy; 008080 teal: teal; 008b8b darkcyan: teal; 800000 maroon: maroon; 8b0000 darkred: maroon|dark red;
    b22222 firebrick: red|dark red; dc143c crimson: red; ff0000 red: red; ffc0cb pink: pink|light pink; ffb6c1 lightpink: pink|light pink; ff69b4 hotpink: pink;
    ff1493 deeppink: pink|magenta; ff00ff magenta: magenta; 800080 purple: purple; 8b008b darkmagenta: purple; 4b0082 indigo: purple|dark purple; 663399 rebeccapurple: purple;
    8a2be2 blueviolet: purple; 9370db mediumpurple: purple|light purple; dda0dd plum: light purple; d8bfd8 thistle: light purple;
    e6e6fa lavender: lavender|very light purple|very light blue; 87ceeb skyblue: light blue; add8e6 lightblue: light blue; 00bfff deepskyblue: blue|light blue;
    1e90ff dodgerblue: blue; 4169e1 royalblue: blue; 4682b4 steelblue: blue; 0000ff blue: blue; 0000cd mediumblue: blue|dark blue; 40e0d0 turquoise: turquoise;
    48d1cc mediumturquoise: turquoise; 20b2aa lightseagreen: teal|turquoise; 00ffff cyan: cyan; e0ffff lightcyan: very light cyan|light cyan; ffff00 yellow: yellow;
    ffffe0 lightyellow: very light yellow; fffacd lemonchiffon: very light yellow|light yellow|beige; 00ff00 lime: green|lime; 7cfc00 lawngreen: lime|green;
    adff2f greenyellow: lime; 9acd32 yellowgreen: lime; 32cd32 limegreen: green; 008000 green: green; 228b22 forestgreen: green; 2e8b57 seagreen: green;
    3cb371 mediumseagreen: green; 006400 darkgreen: dark green; 90ee90 lightgreen: light green; 98fb98 palegreen: light green; 708090 slategray: grey; 808080 gray: grey;
    696969 dimgray: dark grey|grey; c0c0c0 silver: light grey; dcdcdc gainsboro: light grey|very light grey; 000000 black: black; ffffff white: white;
    ffccaa peach: beige|light orange; 4b5320 moss: dark olive|dark green; b7410e rust: brown|dark orange; cc7722 ochre: light brown|dark gold|dark orange;
    4b2e1e darkbrown: dark brown; 6f4e37 coffee: brown; fffdd0 cream: very light yellow|beige; e1ad01 mustard: gold|dark gold; 98ff98 mint: light green; 800020 burgundy: maroon;
    9c3b2f brick: brown|dark red; c8a2c8 lilac: light purple; 014d4e darkteal: dark teal`;
const CALLED_MORE = {
  'brown|dark brown': '653700',
  'beige': 'ffdbac',
  'tan|light orange': 'f1c27d',
  'tan': 'e0ac69 e9b96e',
  'light brown': 'c68642',
  'brown': '8d5524 ab5236 795548 8f5902',
  'navy': '1d2b53',
  'purple|dark purple|maroon|dark pink': '7e2553',
  'green': '008751 00e436 4e9a06',
  'dark grey|grey': '5f574f',
  'light grey': 'c2c3c7',
  'white|beige': 'fff1e8',
  'red|pink': 'ff004d',
  'orange': 'ffa300 ff5722',
  'yellow': 'ffec27',
  'blue|light blue': '29adff',
  'purple|grey|light purple': '83769c',
  'pink': 'ff77a8',
  'dark brown': '3e2723',
  'grey|blue': '607d8b',
  'gold': 'ffc107',
  'lime': 'cddc39',
  'gold|dark gold|olive': 'c4a000',
  'dark orange|brown': 'ce5c00',
  'light brown|dark gold': 'c17d11',
  'blue|dark blue': '204a87',
  'purple|dark purple': '5c3566',
  'dark red': 'a40000',
  'very dark grey|dark grey': '2e3436',
  'very dark grey': '2d2d2d',
};

test('colours are called as people who draw call them', () => {
  const tripleOf = (hex) => [0, 2, 4].map((at) => parseInt(hex.slice(at, at + 2), 16));
  const wanted = [...CALLED.matchAll(/([0-9a-f]{6}) [a-z]+: ([^;]+)/g
                  )].map(([, hex, names]) => [hex, names.trim()]);
  const more = Object.entries(CALLED_MORE
  ).flatMap(([names, hexes]) => hexes.split(' ').map((hex) => [hex, names]));
  assert.ok(wanted.length > 90 && more.length > 30);
  assert.deepEqual(
      [...wanted, ...more].map(
                              ([hex, names]) => [hex, nameOf(tripleOf(hex), 255), names]
      ).filter(([, is, names]) => !names.split('|').includes(is)),
      []
  );
  const called = (...hexes) =>
      namesOf({colours: [[255, 255, 255], ...hexes.map(tripleOf)]}).slice(1);
  assert.deepEqual(
      ['a52a2a', 'daabb0', '545170'].map((hex) => nameOf(tripleOf(hex), 255)),
      ['brown', 'light pink', 'dark purple']
  );
  assert.deepEqual(
      [called('2d5836', '183420'), called('1e4f20', '2a5f30'), called('0000ff', '2060f0')],
      [
        ['dark green', 'very dark green'],
        ['very dark green', 'dark green'],
        ['darker blue', 'lighter blue']
      ]
  );
  for (const table of [EN, DE, FR])
    assert.equal(
        new Set(table['document.hues'].split(', ')).size, 25, 'each language has a name for each'
    );
});

// ---- blues, and what real icons have

const tripleOfHex = (hex) => [0, 2, 4].map((at) => parseInt(hex.slice(at, at + 2), 16));

// A triple by hue in degrees, saturation and lightness in percent (CSS Color 4).
function hslTriple(hue, saturation, lightness) {
  const [s, l] = [saturation / 100, lightness / 100];
  return [0, 8, 4].map((turn) => {
    const k = (turn + hue / 30) % 12;
    return Math.round(255 * (l - s * Math.min(l, 1 - l) * Math.max(-1, Math.min(k - 3, 9 - k, 1))));
  });
}

test('hues from 200 to 235 are no purple, and no grey where they have some colour', () => {
  const wrong = [];
  for (let hue = 200; hue <= 235; hue += 5) {
    for (const saturation of [20, 25, 30, 35, 40, 50, 60, 80, 100]) {
      for (let lightness = 15; lightness <= 80; lightness += 5) {
        const name = nameOf(hslTriple(hue, saturation, lightness), 255);
        const isDull = saturation < 40 || lightness < 20;
        if (/purple|lavender|magenta|pink/.test(name) || (/grey/.test(name) && !isDull))
          wrong.push([hue, saturation, lightness, name]);
      }
    }
  }
  assert.deepEqual(wrong, []);
  for (const hex of ['4a6078', '3f4d6b', '495474', '3a5979', '6b7a99', '5c6b8a'])
    assert.match(nameOf(tripleOfHex(hex), 255), /blue/, hex);
});

// The palettes of icons of Debian's adwaita-icon-theme, over white in at most six colours, with
// what one calls them, by eye; and the colours of GNOME's palette by its own names.
const ICONS = {
  'address-book-new': '5c86b7 blue; 6997c9 blue|light blue; 7a8771 grey|green; b5c3bc light grey',
  'applications-games': '6b6c69 dark grey|grey; 90928d grey; c22727 red; cabdb7 light grey|beige',
  'applications-graphics':
      '446649 dark green; b44417 brown|dark orange; d4b25c gold|tan; d9c79f beige|tan',
  'applications-science':
      '689561 green; afb2a6 light grey; cfa842 gold|dark gold; d46a0d dark orange|orange',
  'battery-full': '69a742 green; 6c6e6c dark grey|grey; 97d170 light green|lime; abbba5 light grey',
  'camera-photo': '282d2f very dark grey; 575c5f dark grey; 837860 grey|brown; cecece light grey',
  'dialog-error':
      'be1b1b red|dark red; c2a5a5 light pink|light grey; ce1e1e red; d5cfcf light grey',
  'dialog-warning':
      '454036 very dark grey|dark grey; d57013 dark orange|orange; e8c79d beige|tan; f0a452 light orange|orange',
  'edit-clear': '8f918c grey; b8bbb4 light grey; d4d5d1 light grey|very light grey; fefefe white',
  'emblem-favorite':
      'c9210c red; cb452a red|dark orange; d3aaaa light pink; e58e5b salmon|light orange',
  'emblem-photos': '151007 black; 77b541 green|lime; b9b9ab light grey; e2be4f gold',
  'face-devilish':
      '5d231d dark brown; a21608 dark red|red; bb502d dark orange|brown; ebc464 gold|tan',
  'face-monkey': '5c4319 dark brown|brown; 9c6b1e light brown|brown; d8aa65 tan; e6c38b tan|beige',
  'face-smile':
      '4f3d20 dark brown; c26e0e brown|light brown|dark orange; e7a433 gold|orange; eee9d0 beige',
  'help-browser': 'd34a49 red; d9c4a2 beige|tan; e6ba7a tan|light orange; efa09f light pink|salmon',
  'mail-mark-important': '89807c grey; c91f1f red; cdaaa7 light pink; dbdcd8 very light grey',
  'preferences-desktop-wallpaper':
      '426422 dark green; 509211 green; 81827e grey; acaba1 light grey',
  'security-high': '6d625f dark grey|grey; a89f9c light grey|grey; d3322c red; d6c02d gold|yellow',
  'starred': '8a7413 olive|dark gold; d3b71c gold; e2daa1 beige|khaki; f4e25f yellow',
  'system-software-install':
      '956210 brown|light brown; d6a352 tan|gold|light orange; dfc499 beige|tan; ebe1d2 beige',
};
const GNOME = {
  blue: '99c1f1 62a0ea 3584e4 1c71d8 1a5fb4',
  green: '8ff0a4 57e389 33d17a 2ec27e 26a269',
  'yellow|gold': 'f9f06b f8e45c f6d32d f5c211 e5a50a',
  orange: 'ffbe6f ffa348 ff7800 e66100 c64600',
  red: 'f66151 ed333b e01b24 c01c28 a51d2d',
  purple: 'dc8add c061cb 9141ac 813d9c 613583',
  'brown|tan': 'cdab8f b5835a 986a44 865e3c 63452c',
};

test('palettes of icons are called as one calls them', () => {
  const icons = Object.values(ICONS
  ).flatMap((text) => text.split('; ').map((one) => [one.slice(0, 6), one.slice(7).split('|')]));
  assert.equal(Object.keys(ICONS).length, 20);
  assert.deepEqual(
      icons.map(
               ([hex, names]) => [hex, nameOf(tripleOfHex(hex), 255), names]
      ).filter(([, name, names]) => !names.includes(name)),
      []
  );
  for (const [hues, hexes] of Object.entries(GNOME))
    for (const hex of hexes.split(' '))
      assert.match(nameOf(tripleOfHex(hex), 255), new RegExp(`(^| )(${hues})$`), hex);
});
