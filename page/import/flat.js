// Few colours for flat art, such as icons: its own colours as they are, and of too many those first
// become one that a solver may take for one another, then those that look most alike, by their
// distance in Oklab, by the area that each has, and by how much of that is edges alone.

import {oklabOf} from '../document/colours.js';
import {coloursTooNear} from '../document/near.js';
import {isTransparent} from './images.js';
import {farness, keyOf, nearestOf, once, spotsOf, weightOf} from './spots.js';

const FLAT_COLOURS = 32;  // so many of the most used colours have ..
const FLAT_PART = 0.4;    // .. this part of the pixels at least, the most used colour aside
const SAME_FAR = 0.02;    // in Oklab: nearer colours look the same
const MOST_GROUPS = 400;
// of the area: such a colour goes last. Half of what is promised, since only some pixels are looked
// at
const GUARDED = 0.01;
const WIDE = 0.04;          // of the area: a single colour that has so much is no smoothed edge
const SPECK = 0.002;        // of the area: less of a colour is none
const EDGE_WEIGHT = 1 / 8;  // of a pixel whose colour lies between those beside it
const DETOUR = 1.25;        // how much longer the way over such a colour is, at most

// Near black Oklab takes steps for large that nobody sees: its lightness by Ottosson's toe.
const [TOE, FOOT] = [0.206, 0.03];
const RISE = (1 + TOE) / (1 + FOOT);
function toed(light) {
  const part = RISE * light - TOE;
  return (part + Math.sqrt(part * part + 4 * FOOT * RISE * light)) / 2;
}

/** The place of a triple in Oklab, with steps near black as they look. */
export function placeOfTriple(triple) {
  const [light, a, b] = oklabOf(...triple);
  return [toed(light), a, b];
}

/** Whether few colours have most of an image. */
export function isFlat(image) {
  return once(image, 'flat', () => {
    const weights = spotsOf(image).map((spot) => spot.weight).sort((a, b) => b - a);
    const rest = weights.slice(1).reduce((sum, weight) => sum + weight, 0);
    return weights.slice(1, FLAT_COLOURS + 1).reduce((sum, weight) => sum + weight, 0) >=
        rest * FLAT_PART;
  });
}

// Colours that look the same as one group, which has the triple of its most used one. `of` has the
// group of each colour.
function gathered(image) {
  const [groups, places] = [[], []];
  const of = new Map();
  for (const {triple, weight} of [...spotsOf(image)].sort((a, b) => b.weight - a.weight)) {
    const place = placeOfTriple(triple);
    let at = nearestOf(places, place);
    if (!places.length ||
        (farness(places[at], place) > SAME_FAR ** 2 && places.length < MOST_GROUPS)) {
      groups.push({triple, place, area: 0, edges: 0, exact: weight});
      at = places.push(place) - 1;
    }
    groups[at].area += weight;
    of.set((triple[0] << 16) | (triple[1] << 8) | triple[2], at);
  }
  return {groups, of};
}

// The group of each pixel, or -1.
function groupNumbers({data}, of) {
  const numbers = new Int16Array(data.length / 4);
  for (let at = 0; at < data.length; at += 4)
    numbers[at / 4] = isTransparent(data, at) ? -1 : of.get(keyOf(data, at));
  return numbers;
}

// Whether a group's colour lies between those of two others: as where an edge was smoothed.
function isBetween(groups, one, at, other) {
  if (one < 0 || other < 0 || one === at || other === at || one === other) return false;
  const far = (a, b) => Math.sqrt(farness(groups[a].place, groups[b].place));
  return far(one, at) + far(at, other) <= DETOUR * far(one, other);
}

// The groups of an image: `{triple, place, area, edges}` in pixels, those first that have the most.
function groupsOf(image) {
  return once(image, 'groups', () => {
    const {groups, of} = gathered(image);
    const numbers = groupNumbers(image, of);
    const {width, height} = image;
    for (let row = 0, at = 0; row < height; row++) {
      for (let col = 0; col < width; col++, at++) {
        if (numbers[at] < 0) continue;
        const isAcross = col > 0 && col < width - 1 &&
            isBetween(groups, numbers[at - 1], numbers[at], numbers[at + 1]);
        if (isAcross ||
            (row > 0 && row < height - 1 &&
             isBetween(groups, numbers[at - width], numbers[at], numbers[at + width])))
          groups[numbers[at]].edges++;
      }
    }
    const total = weightOf(groups.map(({area}) => ({weight: area})));
    for (const group of groups)
      if (group.exact >= total * WIDE) group.edges = 0;
    return groups.sort((a, b) => b.area - a.area);
  });
}

// Groups as they are merged: `weight` by area and edges, `isGuarded` for a colour with some area of
// its own.
function weighed(groups) {
  const total = groups.reduce((sum, group) => sum + group.area, 0);
  const kept = groups.filter(
      (group) => (group.edges <= group.area / 2 && group.area >= total * SPECK) ||
          group.area - group.edges >= total * GUARDED
  );
  return kept.map((group) => ({
                    ...group,
                    weight: Math.sqrt(group.area - group.edges * (1 - EDGE_WEIGHT)),
                    isGuarded: group.area - group.edges >= total * GUARDED
                  }));
}

// In which turn a pair is merged: first what a solver may take for one another, last what is
// guarded.
const turnOf = (stays, goes) => (goes.alike.has(stays) ? 0 : goes.isGuarded ? 2 : 1);

// The pair that is merged next: what stays and what goes, or null.
function cheapest(groups) {
  let best = null;
  for (const [at, one] of groups.entries()) {
    for (let to = at + 1; to < groups.length; to++) {
      const other = groups[to];
      const [stays, goes] = other.weight > one.weight ? [other, one] : [one, other];
      const turn = turnOf(stays, goes);
      if (best && turn > best.turn) continue;
      const cost = farness(one.place, other.place) *
          ((one.weight * other.weight) / (one.weight + other.weight));
      if (!best || turn < best.turn || cost < best.cost) best = {stays, goes, cost, turn};
    }
  }
  return best;
}

// Groups with `least`: to how few colours they are made before this one goes into another one. Of
// two the one stays as it is that weighs more; 1 is of what never goes.
function mergedDown(groups) {
  for (const group of groups)
    Object.assign(group, {
      least: 1,
      alike: new Set(groups.filter((other) => coloursTooNear(group.triple, other.triple)))
    });
  let left = groups;
  for (let pair = cheapest(left); pair; pair = cheapest(left)) {
    const {stays, goes} = pair;
    goes.least = left.length;
    stays.weight += goes.weight;
    left = left.filter((group) => group !== goes);
  }
  return groups;
}

const triplesOf = (groups, most) =>
    groups.filter(({least}) => least <= most).map(({triple}) => triple);

/** At most so many of the own colours of flat art, the most used first. */
export const flatPalette = (image, most) =>
    triplesOf(once(image, 'merged', () => mergedDown(weighed(groupsOf(image)))), most);

/** How many colours flat art has of some area each; 0 where an image is none. */
export function countFlat(image, least = 0.01) {
  if (!isFlat(image)) return 0;
  const total = weightOf(spotsOf(image));
  return weighed(groupsOf(image)).filter((group) => group.area >= total * least).length;
}

/**
 * For a palette from a file: its triples that an image uses most, at most so many, of those that
 * are like ones the better used.
 */
export function nearestPalette(image, triples, most) {
  const places = triples.map(placeOfTriple);
  const groups = triples.map((triple, at) => ({triple, place: places[at], area: 0, edges: 0}));
  for (const {triple, weight} of spotsOf(image))
    groups[nearestOf(places, placeOfTriple(triple))].area += weight;
  return triplesOf(mergedDown(weighed(groups.filter((group) => group.area > 0))), most);
}
