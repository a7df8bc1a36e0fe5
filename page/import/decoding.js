// Image files as pixels: the size is read from the head of a file, and the browser reads the rest
// of it, made smaller where it is large. It draws SVG drawings as it draws an image of a page,
// without scripts and without other files.

import {FileFault} from '../document/limits.js';
import {penOf} from '../draw/small.js';
import {built} from '../engine/client.js';
import {phrase} from '../texts/phrase.js';
import {sizeOfImage} from './images.js';

export const MOST_IMAGE = 1 << 28;  // bytes of a file
export const HEAD = 1 << 20;        // bytes that are read here: the size is in them
export const IMAGES = new Set(['png', 'jpeg', 'gif', 'webp', 'bmp', 'avif', 'svg', 'heic', 'tiff']);
const NOT_DRAWN = {
  heic: 'HEIC',
  tiff: 'TIFF'
};                           // which no browser but Apple's draws
const MOST_SVG = 1 << 24;    // bytes
const LONGEST = 20000;       // ms that the browser may take for a drawing
const MOST_DECODED = 100e6;  // pixels of an image file, which the browser unpacks
// pixels a side that a larger one is made smaller to: more than the dialog works on
const MOST_SIDE = 2048;

/** Refuses a file of more than `most` bytes. */
export function mustHold({size}, most) {
  if (size > most) throw new FileFault(phrase('import.more', {mib: most / 2 ** 20}));
}

/**
 * How an image of that size is decoded: a large one smaller, by its width alone, so that a photo
 * that is turned keeps its shape.
 * @param {number[]} size
 * @returns {ImageBitmapOptions}
 */
function decoding(size) {
  const [width, height] = size;
  if (width < 1 || height < 1) throw new FileFault(phrase('formats.pictureNoPixels'));
  if (width * height > MOST_DECODED)
    throw new FileFault(phrase('import.picturePixelsMostAll', {width, height, most: MOST_DECODED}));
  const scale = MOST_SIDE / Math.max(width, height);
  return scale < 1 ? {resizeWidth: Math.max(1, Math.round(width * scale)), resizeQuality: 'high'} :
                     {};
}

// The pixels of a drawing, with `most` a side at most. They come from a frame without rights, which
// does all that is done with it: in browsers such as Chromium that is a process of its own, and
// ends with the frame.
async function imageOfSvg(text, most) {
  const frame = Object.assign(
      document.createElement('iframe'),
      {sandbox: 'allow-scripts', srcdoc: `<script>${built().drawing}</script>`, hidden: true}
  );
  const heard = new AbortController();
  /** @type {any} */
  const image = await new Promise((give) => {
    setTimeout(give, LONGEST, 'formats.thereTooManyElements');
    addEventListener(
        'message', ({source, data}) => source === frame.contentWindow && give(data), heard
    );
    frame.onload = () => frame.contentWindow.postMessage({text, most}, '*');
    document.body.append(frame);
  });
  heard.abort();
  frame.remove();
  if (!image?.data) throw new FileFault(phrase(image ?? 'import.browserDoesNotRead', {}));
  return image;
}

/**
 * The pixels of an image file, made smaller to MOST_SIDE, as the browser decodes it: {width,
 * height, data}. `head` are its first bytes, and a size there that is too large is refused before
 * that.
 */
export async function imageOfFile(file, head, kind) {
  if (NOT_DRAWN[kind]) throw new FileFault(phrase('import.saveAsPng', {kind: NOT_DRAWN[kind]}));
  if (kind === 'svg') {
    mustHold(file, MOST_SVG);
    return imageOfSvg(new TextDecoder().decode(await file.arrayBuffer()), MOST_SIDE);
  }
  const size = sizeOfImage(head, kind);
  if (!size) throw new FileFault(phrase('import.sizeNotToldBeginning'));
  const options = decoding(size);
  let bitmap;
  try {
    bitmap = await createImageBitmap(
        file.type ? file : new Blob([file], {type: `image/${kind}`}), options
    );
  } catch {
    throw new FileFault(phrase('import.browserDoesNotRead'));
  }
  const scale = Math.min(
      1, MOST_SIDE / Math.max(bitmap.width, bitmap.height)
  );  // where the browser did not make it smaller
  const pen = penOf(
      Math.max(1, Math.round(bitmap.width * scale)), Math.max(1, Math.round(bitmap.height * scale))
  );
  pen.imageSmoothingQuality = 'high';
  pen.drawImage(bitmap, 0, 0, pen.canvas.width, pen.canvas.height);
  bitmap.close();
  const {data} = pen.getImageData(0, 0, pen.canvas.width, pen.canvas.height);
  return {width: pen.canvas.width, height: pen.canvas.height, data};
}
