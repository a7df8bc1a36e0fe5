// What the colours of a document are called: the same in the palette, in what the page says, in
// files and on paper.

import {phrase} from '../texts/phrase.js';
import {eightBits, lightness, oklabOf, plainHexOf, tripleOf} from './colours.js';
import {LETTERS} from './limits.js';

/** White and black as Web Paint-by-Number's XML has them from the start. */
export const XML_WHOLE = {
  ffffff: 'white',
  '000000': 'black'
};

// Colours as people say them: very light / light / plain / dark / very dark ones of each hue, in
// the order in which the texts name the hues.
const SHADES = {
  white: '//ffffff,fafaf5',
  black: '//000000,121212',
  grey: 'e8e8e8/c8c8c8,b0b4b8/8c8c8c,708090,7e788a,88808a/5c5c5c/2e2e2e,202020',
  red: '/ff7070/f01818,e5192f,ff4038,c82020,d34a49/a51212,b22222,a51d2d/3c0808',
  maroon: '//800010,7a0020',
  brown: '/b87c3c,c08850/8b4a1c,a0522d,993608,795548,c8662a,a52a2a/4a2c18,5c4319/24140a',
  beige: '//f5ead0,ffdfbc,f5deb3,f7efe4,dac7b3,e1d1a2',
  tan: '//d8b488,e4b070,c8a880',
  salmon: '//fa8072,e9967a,d86060',
  orange: '/ffb866,f4a460,ffa068/ff9500,ff7a18,ff5a1c/cc5500,d56c10',
  gold: '//ffcc10,e0b020,ffd700,ecc866,d4b25c,d6c02d/b8860b',
  yellow: 'ffffdc/fff59a/ffff10,ffec27,f8e45c',
  khaki: '//f0e68c,bdb76b,cccc98',
  olive: '/a8a850,c4c410/808000,7a8020/4b5320,3a3a08',
  lime: '/d8f888/a8e020,80ff20,c8dc30',
  green:
      'd8f8d8/98f098,a0d8a0/0c9a30,10e040,00ff30,228b22,408a50,58b858/0a5018,1e4830,2a5f30/062008,183420',
  turquoise: '/a8f0e4/40d8c8,40e0b8',
  teal: '/70b0b0/008585,1a9a94/0a4c50/082428',
  cyan: 'd8ffff/a0f4f8/00f4ff,00d8e8',
  blue:
      'dceafc,d0dcf0/a0d0f0,88b8f0,98acd8,a4b4d4,b8c0d8,9098e0/2060f0,0000ff,10a0ff,4880b8,3a6a98,4c68b8,5c6cd0,6b7a99,7888c0,4a5ac0/16389a,204878,4a5a78,3a5979,3f4d6b,2a3a58,384080/060830,141c30,202840',
  navy: '//00007c,1a1e5c,1d2b53',
  purple:
      '/c090e0,ccacd0,d0bcda,a890d0/800080,663399,7a3fd0,6a5acd,806098,86769c/4a1a70,503060,5a4870/200830,2c1c38',
  lavender: '//d8d0f8,e6e6fa',
  magenta: '/ff98ff/ff00ff,d810b0',
  pink: 'ffe4ec/ffb8c8,daabb0/ff70b0,ff2f92,e080a0/c03878,a84870',
};
const [MORE, MOST] = [
  2,
  0.006
];  // a name fits nearly as well as the nearest one up to so many times its square of a distance,
    // and up to such a square
const NAMES = phrase('document.hues').split(', ');
const WHOLE = {
  ffffff: NAMES[0],
  '000000': NAMES[1]
};
const shadedName = (name, step) =>
    [phrase('document.veryLight', {name}),
     phrase('document.light', {name}),
     name,
     phrase('document.dark', {name}),
     phrase('document.veryDark', {name})][step];

// The names of two light, and of two dark colours of each hue.
const STEPS = NAMES.flatMap(
    (hue) => [[0, 1], [3, 4]].map((pair) => pair.map((step) => shadedName(hue, step)))
);

// What has a name, in Oklab: made when it is first asked for.
let known = null;
const knownColours = () => Object.values(SHADES).flatMap(
    (shades, at) => shades.split('/').flatMap(
        (hexes, step) => hexes.split(',').filter(Boolean
        ).map((hex) => ({name: shadedName(NAMES[at], step), lab: oklabOf(...tripleOf(`#${hex}`))}))
    )
);

// The names of the known colours that look most like one, the nearest first, and those alone that
// are nearly as near; hue and chroma count more than lightness.
function nearestNames([light, red, yellow]) {
  known ??= knownColours();
  const far = ({lab}) =>
      (lab[0] - light) ** 2 + 2.5 * ((lab[1] - red) ** 2 + (lab[2] - yellow) ** 2);
  const near = known.map(
                        (one) => ({name: one.name, far: far(one)})
  ).sort((one, other) => one.far - other.far);
  return near.filter(
      (one, at) => (at === 0 || one.far <= Math.min(MOST, MORE * near[0].far)) &&
          near.findIndex(({name}) => name === one.name) === at
  );
}

const named = new Map();  // what was asked for, by samples

function plainNames(triple, maxval) {
  const [red, green, blue] = eightBits(triple, maxval);
  const key = [red, green, blue].join();
  if (!named.has(key)) named.set(key, nearestNames(oklabOf(red, green, blue)));
  return named.get(key);
}

/** A plain name for a colour. */
export const nameOf = (triple, maxval) => plainNames(triple, maxval)[0].name;

// Plain names of colours: of those whose nearest is the same, each has another one that fits nearly
// as well, where there is one, but for the one that it fits best.
function plainOf(triples, names) {
  const fits = triples.map((triple) => plainNames(triple, 255));
  const plain = fits.map(([{name}], at) => (names[at] ? '' : name));
  const lead = ([one, other]) => (other ? other.far / one.far : Infinity);
  for (const at of [...plain.keys()].sort((one, other) => lead(fits[one]) - lead(fits[other]))) {
    const isAlone = plain.filter((name) => name === plain[at]).length < 2;
    if (plain[at] && !isAlone)
      plain[at] =
          fits[at].find(({name}) => ![...names, ...plain].includes(name))?.name ?? plain[at];
  }
  return plain;
}

// What tells colours of one name apart, the lightest first: two light or dark ones by two steps,
// unless one is another's.
function distinctName(name, at, count, others) {
  if (count === 1) return name;
  if (count > 2) return `${name} ${at + 1}`;
  const steps = STEPS.find((pair) => pair.includes(name));
  if (steps && !steps.some((step) => others.includes(step))) return steps[at];
  return at ? phrase('document.darker', {name}) : phrase('document.lighter', {name});
}

/**
 * The names of a document's colours, no two the same: its own, those of white and black as a
 * whole, and plain ones, told apart.
 */
export function namesOf({colours, maxval = 255, inks = []}, whole = WHOLE) {
  const triples = colours.map((triple) => eightBits(triple, maxval));
  const hexes = triples.map(plainHexOf);
  const own =
      hexes.map((hex, at) => (inks[at]?.name === XML_WHOLE[hex] ? '' : inks[at]?.name ?? ''));
  const names = own.map((name, at) => (own.indexOf(name) === at ? name : ''));
  for (const [at, hex] of hexes.entries())
    if (whole[hex] && !names.includes(whole[hex])) names[at] ||= whole[hex];
  const plain = plainOf(triples, names);
  for (const [at, name] of plain.entries()) {
    if (!name) continue;
    const alike = [...plain.keys()].filter(
                                       (one) => plain[one] === name
    ).sort((one, other) => lightness(triples[other]) - lightness(triples[one]) || one - other);
    let distinct = distinctName(
        name, alike.indexOf(at), alike.length, [...own, ...plain.filter((one) => one !== name)]
    );
    if (!whole[hexes[at]] && Object.values(whole).includes(distinct) && names.includes(distinct))
      distinct = phrase(distinct === WHOLE.ffffff ? 'document.darker' : 'document.lighter', {name});
    while (names.includes(distinct)) distinct = `${distinct} (${LETTERS[at]})`;
    names[at] = distinct;
  }
  return names;
}
