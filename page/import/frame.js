// Draws one drawing, in a frame without rights that the page ends when it takes too long. It
// answers its pixels, null where the browser does not read it, or the name of a phrase that says
// why it is refused.

import {readyDrawing} from './drawing.js';

addEventListener('message', ({data: {text, most}}) => {
  const answer = (image) => parent.postMessage(image, '*');
  const drawing = readyDrawing(text, most);
  if (!drawing?.text) return answer(drawing);
  const {width, height} = drawing;
  const image = new Image(width, height);
  image.onerror = () => answer(null);
  image.onload = () => {
    const pen = new OffscreenCanvas(width, height).getContext('2d');
    try {
      pen.drawImage(image, 0, 0, width, height);
      answer({width, height, data: pen.getImageData(0, 0, width, height).data});
    } catch {
      answer(null);
    }
  };
  image.src = URL.createObjectURL(new Blob([drawing.text], {type: 'image/svg+xml'}));
});
