// Two colours by segments: of an image in some colours each one is drawn, as ink, or left, as
// paper. The choices are ranked by the contrast of the edges that they keep.

import {oklabOf} from '../document/colours.js';
import {LETTERS} from '../document/limits.js';
import {withoutSpecks} from './cells.js';
import {farness, nearestOf} from './spots.js';

const PAPER = [255, 255, 255];
const INK = [0, 0, 0];
const APART = 1 / 24;  // of the cells: two choices that differ in fewer look the same, or one blank

/** The colours of a document as the image has them. */
export const segmentsOf = (doc) => doc.sources ?? doc.colours;

const numbersOf = ({picture}) =>
    Int8Array.from([...picture.join('')], (letter) => LETTERS.indexOf(letter));

// How much contrast stands between the cells of each two colours: the steps of Oklab from one side
// of their edges to the other.
function contrastsOf(doc) {
  const {rows, columns} = doc;
  const numbers = numbersOf(doc);
  const labs = segmentsOf(doc).map((triple) => oklabOf(...triple));
  const sums = labs.map(() => new Float64Array(labs.length));
  const meet = (one, other) => {
    const [low, high] = [Math.min(one, other), Math.max(one, other)];
    if (low !== high) sums[low][high] += Math.sqrt(farness(labs[low], labs[high]));
  };
  for (let at = 0; at < numbers.length; at++) {
    if (at % columns < columns - 1) meet(numbers[at], numbers[at + 1]);
    if (at < (rows - 1) * columns) meet(numbers[at], numbers[at + columns]);
  }
  return sums;
}

// The contrast of the edges between ink and paper.
const keptBy = (isInk, contrasts) => contrasts.reduce(
    (sum, row, one) =>
        sum + row.reduce((all, edge, other) => all + (isInk[one] === isInk[other] ? 0 : edge), 0),
    0
);

// Of a choice and its opposite the one whose ink is darker; what is transparent is paper.
function inDark(isInk, {isClear}, lights) {
  if (isClear) return isInk[0] ? isInk.map((one) => !one) : isInk;
  const mean = (side) => {
    const own = lights.filter((_, at) => isInk[at] === side);
    return own.reduce((sum, light) => sum + light, 0) / own.length;
  };
  return mean(true) < mean(false) ? isInk : isInk.map((one) => !one);
}

const cellsApart = (one, other, areas) =>
    areas.reduce((sum, area, at) => sum + (one[at] === other[at] ? 0 : area), 0);

/**
 * At most so many choices for a document in several colours, as lists of whether each of its
 * colours is ink: those first that keep most contrast. No two of them look the same.
 */
export function rankedChoices(doc, most) {
  const count = doc.colours.length;
  const [numbers, contrasts] = [numbersOf(doc), contrastsOf(doc)];
  const areas = doc.colours.map((_, at) => numbers.filter((one) => one === at).length);
  const lights = segmentsOf(doc).map((triple) => oklabOf(...triple)[0]);
  // One of each choice and its opposite: the last colour is paper.
  const all = Array.from({length: 2 ** (count - 1) - 1}, (_, bits) => {
    const isInk = doc.colours.map((_one, at) => ((bits + 1) >> at) % 2 === 1);
    return {isInk: inDark(isInk, doc, lights), kept: keptBy(isInk, contrasts)};
  });
  const [taken, blank] = [[], doc.colours.map(() => false)];
  const isApart = (isInk) => [blank, ...taken].every((other) => {
    const cells = cellsApart(isInk, other, areas);
    return Math.min(cells, numbers.length - cells) >= numbers.length * APART;
  });
  for (const {isInk} of all.sort((one, other) => other.kept - one.kept))
    if (taken.length < most && isApart(isInk)) taken.push(isInk);
  return taken.length ? taken : all.slice(0, 1).map(({isInk}) => isInk);
}

/**
 * Whether each colour of a document is ink, as the nearest one of `sides` is, a map from triples as
 * texts; without any, by the first choice.
 */
export function sidesNear(doc, sides) {
  if (!sides.size) return rankedChoices(doc, 1)[0] ?? [];
  const known = [...sides.values()];
  const places = [...sides.keys()].map((key) => oklabOf(...key.split(',').map(Number)));
  return segmentsOf(doc).map((triple) => known[nearestOf(places, oklabOf(...triple))]);
}

/**
 * The document in two colours of one in several: the cells of those that are ink are drawn,
 * without patches of at most `specks` cells.
 */
export function docInTwo(doc, isInk, {specks = 0} = {}) {
  const drawn = Int8Array.from(numbersOf(doc), (one) => Number(Boolean(isInk[one])));
  const cells = withoutSpecks(drawn, doc.columns, specks);
  const picture = Array.from(
      {length: doc.rows},
      (_, row) =>
          Array
              .from(
                  cells.subarray(row * doc.columns, (row + 1) * doc.columns), (one) => LETTERS[one]
              )
              .join('')
  );
  const {rows, columns} = doc;
  return {rows, columns, maxval: 255, colours: [PAPER, INK], picture, givens: new Set()};
}

/** Into how many colours an image is cut. */
export const SEGMENTS = 6;

/** How many choices are judged for the best six. */
export const CANDIDATES = 16;
/** How many of them are shown. */
export const SHOWN = 6;

/**
 * The best six of some documents that come ranked, each with what `judge` says of it: those with
 * one solution first. Where `judge` gives null it was stopped: then those so far.
 */
export async function bestOf(docs, judge, told = (_one) => {}) {
  const [best, others] = [[], []];
  for (const doc of docs) {
    const said = await judge(doc);
    if (!said) return best;
    const one = {doc, said};
    if (said.verdict !== 'unique') {
      others.push(one);
      continue;
    }
    best.push(one);
    told(one);
    if (best.length === SHOWN) break;
  }
  for (const one of others.slice(0, SHOWN - best.length)) {
    best.push(one);
    told(one);
  }
  return best;
}
