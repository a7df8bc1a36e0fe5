// A puzzle in the fragment of an address, as `#play=...` or `#edit=...`: its XML without clues,
// deflated, with a checksum, in the 64 signs that no address escapes.

import {FileFault} from '../document/limits.js';
import {phrase} from '../texts/phrase.js';
import {deflated, inflated, joined} from './deflate.js';
import {webpbnText} from './webpbn.js';
import {readWebpbn} from './webpbn_reading.js';
import {crcOf} from './zip.js';

const MOST_TEXT = 1 << 20;  // bytes of XML that a link may come to

const sumOf = (bytes) => new Uint8Array(new Uint32Array([crcOf(bytes)]).buffer);
const toSigns = (bytes) => btoa(Array.from(bytes, (byte) => String.fromCharCode(byte)).join(''))
                               .replaceAll('+', '-')
                               .replaceAll('/', '_')
                               .replaceAll('=', '');

function fromSigns(signs) {
  if (!/^[A-Za-z0-9_-]+$/.test(signs) || signs.length % 4 === 1)
    throw new FileFault(phrase('formats.linkDamaged'));
  return Uint8Array.from(
      atob(signs.replaceAll('-', '+').replaceAll('_', '/')), (sign) => sign.charCodeAt(0)
  );
}

// The bytes that stand in a link, where its checksum is theirs.
async function bytesOf(signs) {
  const packed = fromSigns(signs);
  const bytes = await inflated(packed.subarray(4), MOST_TEXT).catch(() => null);
  if (!bytes || sumOf(bytes).some((byte, at) => byte !== packed[at]))
    throw new FileFault(phrase('formats.linkDamaged'));
  return bytes;
}

/** The fragment, with its '#', that opens a document to be solved ('play') or changed ('edit'). */
export async function fragmentOf(doc, kind) {
  const text = webpbnText(doc).replace(/>\n\s*</g, '><');
  const bytes = new TextEncoder().encode(text);
  return `#${kind}=${toSigns(joined([sumOf(bytes), await deflated(bytes)]))}`;
}

/**
 * What a fragment opens, `{ kind, doc }`, or null where it names no puzzle. Throws a FileFault
 * where it is damaged.
 */
export async function readFragment(fragment) {
  const found = /^#(play|edit)=(.*)$/.exec(fragment);
  if (!found) return null;
  const [, kind, signs] = found;
  const {doc} = readWebpbn(new TextDecoder().decode(await bytesOf(signs)));
  if (!doc) throw new FileFault(phrase('formats.linkNoPicture'));
  return {kind, doc};
}
