// Few colours for a photo: a little k-means (Lloyd), begun with what is salient, one after the
// other, and some times with colours that are drawn (k-means++, Arthur and Vassilvitskii, 2007).
// What stands best for the parts of the image is taken.

import {chances} from '../base/chance.js';
import {farness, nearestOf, once, spotsOf, weightOf} from './spots.js';

const KMEANS_ROUNDS = 16;
const POWERS = [1, 0.5];   // of the area of a part that looks alike
const LEAST_PART = 0.004;  // of the area: a smaller part is none
const AROUND = 0.1 ** 2;   // within that of Oklab colours look alike
const APART = 0.05 ** 2;   // within that of its leader a colour is of a part
const DRAWS = 6;
const FARTHEST = 9;  // of a place from none
const BIN = 0.025;   // a side of the boxes of Oklab in which colours are taken as one

const meanOf = (spots, field) => {
  const weight = weightOf(spots);
  return [0, 1, 2].map(
      (axis) => spots.reduce((sum, spot) => sum + spot.weight * spot[field][axis], 0) / weight
  );
};

// Like colours as one spot, with how much of the image looks like it: the areas of others by how
// near they are.
function gatheredSpots(spots) {
  const bins = new Map();
  for (const spot of spots) {
    const [light, one, two] = spot.lab;
    const key = Math.round(light / BIN) * 65536 + (Math.round(one / BIN) + 128) * 256 +
        Math.round(two / BIN) + 128;
    if (bins.has(key))
      bins.get(key).push(spot);
    else
      bins.set(key, [spot]);
  }
  const gathered = [...bins.values()].map(
      (bin) => ({lab: meanOf(bin, 'lab'), triple: meanOf(bin, 'triple'), weight: weightOf(bin)})
  );
  return gathered.map(
      (spot) => ({
        ...spot,
        area: gathered.reduce(
            (sum, {lab, weight}) => sum + weight * Math.max(0, 1 - farness(spot.lab, lab) / AROUND),
            0
        )
      })
  );
}

// Spots whose weights together, of a part that looks alike, are a power of its area: a wide sky
// shall not take all colours.
const weighedBy = (spots, power) =>
    spots.map((spot) => ({...spot, weight: spot.weight / spot.area ** (1 - power)}));

const farFrom = (labs, lab) =>
    labs.reduce((least, place) => Math.min(least, farness(place, lab)), FARTHEST);

function groupedAround(centres, spots) {
  const groups = centres.map(() => []);
  for (const spot of spots) groups[nearestOf(centres, spot.lab)].push(spot);
  return groups;
}

// Groups around those spots, one after the other, that are salient: by the root of the area that
// looks like them times the contrast to what is taken.
function salientGroups(spots, most) {
  const taken = [];
  while (taken.length < most) {
    let best = {salience: 0, lab: null};
    for (const {lab, area} of spots) {
      const salience = Math.sqrt(area) * farFrom(taken, lab);
      if (salience > best.salience) best = {salience, lab};
    }
    if (!best.lab) break;
    taken.push(best.lab);
  }
  return groupedAround(taken, spots).filter((group) => group.length);
}

// Groups around spots that are drawn, each by its weight times the distance to those before it.
function drawnGroups(spots, most, chance) {
  const taken = [];
  while (taken.length < most) {
    const shares = spots.map(({lab, weight}) => weight * farFrom(taken, lab));
    let left = chance() * shares.reduce((sum, one) => sum + one, 0);
    taken.push(spots[Math.max(0, shares.findIndex((one) => (left -= one) <= 0))].lab);
  }
  return groupedAround(taken, spots).filter((group) => group.length);
}

// The parts of an image by their colours: around the spot that most looks like, what is near to it;
// then so on with what is left.
function partsOf(spots) {
  const [leaders, parts] = [[], []];
  const total = weightOf(spots);
  for (const spot of [...spots].sort((one, other) => other.area - one.area)) {
    const at = leaders.length ? nearestOf(leaders, spot.lab) : -1;
    if (at >= 0 && farness(leaders[at], spot.lab) < APART)
      parts[at].push(spot);
    else
      parts[leaders.push(spot.lab) - 1] = [spot];
  }
  return parts.filter((part) => weightOf(part) >= total * LEAST_PART);
}

// How badly places stand for the parts of an image, each of which counts the same.
const missOf = (parts, labs) => parts.reduce(
    (sum, part) => sum +
        Math.sqrt(
            part.reduce((all, {lab, weight}) => all + weight * farFrom(labs, lab), 0) /
            weightOf(part)
        ),
    0
);

// Groups of spots around centres that move.
function movedGroups(spots, begun) {
  let groups = begun;
  for (let round = 0; round < KMEANS_ROUNDS; round++) {
    const centres = groups.map((group) => meanOf(group, 'lab'));
    const kept = groupedAround(centres, spots).filter((group) => group.length);
    const isStill = kept.length === groups.length &&
        kept.every((group, at) => group.length === groups[at].length);
    groups = kept;
    if (isStill) break;
  }
  return groups;
}

// The groups of spots that stand best for an image: of some that are begun in two ways, by some
// weights. The same image has the same.
function bestGroups(spots, most) {
  const parts = partsOf(spots);
  const chance = chances(1);
  let best = {miss: Infinity, groups: []};
  for (const weighed of POWERS.map((power) => weighedBy(spots, power))) {
    for (const begun
             of [salientGroups(weighed, most),
                 ...Array.from({length: DRAWS}, () => drawnGroups(weighed, most, chance))]) {
      const groups = movedGroups(weighed, begun);
      const miss = missOf(parts, groups.map((group) => meanOf(group, 'lab')));
      if (miss < best.miss) best = {miss, groups};
    }
  }
  return best.groups;
}

/** At most so many triples that stand well for a photo's colours. */
export function photoPalette(image, most) {
  const spots = once(image, 'gathered', () => gatheredSpots(spotsOf(image)));
  if (!spots.length) return [];
  const groups = bestGroups(spots, most).sort((a, b) => weightOf(b) - weightOf(a));
  const triples = groups.map((group) => meanOf(group, 'triple').map(Math.round));
  return [...new Map(triples.map((triple) => [triple.join(), triple])).values()];
}
