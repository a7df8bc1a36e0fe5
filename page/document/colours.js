// Colours as the screen has them.

/** A triple as eight-bit samples. */
export const eightBits = (triple, maxval) =>
    triple.map((sample) => Math.round((sample * 255) / maxval));
export const cssOf = (triple, maxval) => `rgb(${eightBits(triple, maxval).join(' ')})`;
export const hexOf = (triple, maxval) =>
    '#' + eightBits(triple, maxval).map((sample) => sample.toString(16).padStart(2, '0')).join('');
export const tripleOf = (hex) => [1, 3, 5].map((at) => parseInt(hex.slice(at, at + 2), 16));

/** Black or white, whichever is read more easily on a colour. */
export function inkOn(triple, maxval) {
  const [red, green, blue] = eightBits(triple, maxval).map((sample) => LIGHT_OF[sample]);
  return 0.2126 * red + 0.7152 * green + 0.0722 * blue > 0.18 ? '#000' : '#fff';
}

/** Whether two triples are the same, and whether one is among others. */
export const isSame = (one, other) => one.join() === other.join();
export const isAmong = (triples, triple) => triples.some((one) => isSame(one, triple));

export const plainHexOf = (triple) =>
    triple.map((sample) => sample.toString(16).padStart(2, '0')).join('');

// Light of a sample from 0 to 1, and back (IEC 61966-2-1, sRGB).
export const LIGHT_OF = Float64Array.from({length: 256}, (_, sample) => {
  const value = sample / 255;
  return value <= 0.04045 ? value / 12.92 : ((value + 0.055) / 1.055) ** 2.4;
});

/** The sample of a light. */
export const sampleOf = (light) =>
    Math.round(255 * (light <= 0.0031308 ? light * 12.92 : 1.055 * light ** (1 / 2.4) - 0.055));

/**
 * A triple of eight bits in Oklab (Ottosson, 2020), where equal steps look equal.
 * @returns {[number, number, number]}
 */
export function oklabOf(red, green, blue) {
  const [r, g, b] = [LIGHT_OF[red], LIGHT_OF[green], LIGHT_OF[blue]];
  const l = Math.cbrt(0.4122214708 * r + 0.5363325363 * g + 0.0514459929 * b);
  const m = Math.cbrt(0.2119034982 * r + 0.6806995451 * g + 0.1073969566 * b);
  const s = Math.cbrt(0.0883024619 * r + 0.2817188376 * g + 0.6299787005 * b);
  return [
    0.2104542553 * l + 0.793617785 * m - 0.0040720468 * s,
    1.9779984951 * l - 2.428592205 * m + 0.4505937099 * s,
    0.0259040371 * l + 0.7827717662 * m - 0.8086757660 * s,
  ];
}

/**
 * How light a triple looks, from 0 to 255.
 * @param {ArrayLike<number>} triple
 */
export const lightness = (triple) => 255 * oklabOf(triple[0], triple[1], triple[2])[0];

/**
 * A light tint of a triple of eight bits, on which black is read easily: the darker the triple,
 * the more white is in it.
 */
export function tintOf(triple) {
  const share = 0.2 + 0.45 * (lightness(triple) / 255) ** 4;
  return triple.map((sample) => Math.round(255 - (255 - sample) * share));
}
