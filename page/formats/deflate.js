// Bytes deflated, without a head, and back: by the browser's own streams.

import {phrase} from '../texts/phrase.js';

/** Pieces of bytes as one. */
export function joined(pieces) {
  const all = new Uint8Array(pieces.reduce((sum, piece) => sum + piece.length, 0));
  let at = 0;
  for (const piece of pieces) {
    all.set(piece, at);
    at += piece.length;
  }
  return all;
}

/** Bytes, deflated. */
export const deflated = async (bytes) =>
    new Uint8Array(await new Response(
                       new Blob([bytes]).stream().pipeThrough(new CompressionStream('deflate-raw'))
    ).arrayBuffer());

/** What was deflated. Throws where the bytes are damaged, or come to more than `most`. */
export async function inflated(raw, most) {
  const reader =
      new Blob([raw]).stream().pipeThrough(new DecompressionStream('deflate-raw')).getReader();
  const pieces = [];
  let size = 0;
  try {
    for (;;) {
      const {done, value} = await reader.read();
      if (done) return joined(pieces);
      size += value.length;
      if (size > most) throw new RangeError(phrase('formats.moreBytes', {most}));
      pieces.push(value);
    }
  } finally {
    reader.cancel().catch(() => {});
  }
}
