// Colours as people see them who have two kinds of cones, by the matrices of Machado, Oliveira and
// Fernandes (2009) on light.

import {clamp} from '../base/words.js';
import {LIGHT_OF, eightBits, sampleOf} from './colours.js';
import {nearPairs} from './near.js';

/** The three kinds: without cones for long, for middle, and for short waves. */
export const VISIONS = {
  protan: [
    [0.152286, 1.052583, -0.204868],
    [0.114503, 0.786281, 0.099216],
    [-0.003882, -0.048116, 1.051998]
  ],
  deutan: [
    [0.367322, 0.860646, -0.227968],
    [0.280085, 0.672501, 0.047413],
    [-0.01182, 0.04294, 0.968881]
  ],
  tritan: [
    [1.255528, -0.076749, -0.178779],
    [-0.078411, 0.930809, 0.147602],
    [0.004733, 0.691367, 0.3039]
  ],
};

/** A triple of eight bits as it is seen with one kind of vision. */
export function seenWith(triple, kind) {
  const light = triple.map((sample) => LIGHT_OF[sample]);
  return VISIONS[kind].map(
      (row) => sampleOf(clamp(row.reduce((sum, part, at) => sum + part * light[at], 0), 0, 1))
  );
}

/** A document in the colours that are seen with one kind of vision. */
export const docSeenWith = (doc, kind) => ({
  ...doc,
  maxval: 255,
  colours: doc.colours.map((triple) => seenWith(eightBits(triple, doc.maxval), kind))
});

/** The pairs of letters that look alike with one kind of vision, and do not else. */
export function clashesWith(doc, kind) {
  const always = new Set(nearPairs(doc).map(String));
  return nearPairs(docSeenWith(doc, kind)).filter((pair) => !always.has(String(pair)));
}
