// What a board is drawn on: the pen of a canvas, or SVG as text. Both know the same few shapes, in
// the units of who draws.

const MIDDLE = 0.36;  // of a digit's size, from its foot to its middle

/** The pen of a canvas. */
export class CanvasSurface {
  constructor(pen) {
    this.pen = pen;
  }

  rect(x, y, width, height, fill) {
    this.pen.fillStyle = fill;
    this.pen.fillRect(x, y, width, height);
  }

  /** A rectangle with round corners; its edge lies within it. */
  chip(x, y, width, height, {fill, edge = null, weight = 1, radius = 0}) {
    const {pen} = this;
    const half = edge ? weight / 2 : 0;
    pen.beginPath();
    pen.roundRect(
        x + half, y + half, Math.max(0, width - 2 * half), Math.max(0, height - 2 * half), radius
    );
    pen.fillStyle = fill;
    pen.fill();
    if (!edge) return;
    pen.strokeStyle = edge;
    pen.lineWidth = weight;
    pen.stroke();
  }

  polygon(corners, {fill, edge, weight}) {
    const {pen} = this;
    pen.beginPath();
    corners.forEach(([x, y], at) => (at ? pen.lineTo(x, y) : pen.moveTo(x, y)));
    pen.closePath();
    [pen.fillStyle, pen.strokeStyle, pen.lineWidth] = [fill, edge, weight];
    pen.fill();
    pen.stroke();
  }

  line(x1, y1, x2, y2, ink, weight) {
    const {pen} = this;
    pen.strokeStyle = ink;
    pen.lineWidth = weight;
    pen.beginPath();
    pen.moveTo(x1, y1);
    pen.lineTo(x2, y2);
    pen.stroke();
  }

  disc(x, y, radius, fill) {
    this.pen.beginPath();
    this.pen.arc(x, y, radius, 0, 7);
    this.pen.fillStyle = fill;
    this.pen.fill();
  }

  /** A text around its middle; `anchor` is 'middle', 'start' or 'end'. */
  text(text, x, y, {size, ink, family, weight = 400, anchor = 'middle'}) {
    const {pen} = this;
    pen.font = `${weight} ${size}px ${family}`;
    pen.textAlign = {middle: 'center', start: 'left', end: 'right'}[anchor];
    pen.textBaseline = 'alphabetic';
    pen.fillStyle = ink;
    pen.fillText(text, x, y + MIDDLE * size);
  }

  /** Draws what `draw` does fainter. */
  faded(share, draw) {
    this.pen.globalAlpha = share;
    draw();
    this.pen.globalAlpha = 1;
  }
}

const FOR_TEXT = {
  '&': '&amp;',
  '<': '&lt;',
  '>': '&gt;',
  '"': '&quot;'
};
const escaped = (text) =>
    String(text).replace(
                    /[\u0000-\u0008\u000b\u000c\u000e-\u001f\ufffe\uffff]/g, ' '
    ).replace(/[&<>"]/g, (sign) => FOR_TEXT[sign]);
const rounded = (value) =>
    (typeof value === 'number' ? String(Math.round(value * 100) / 100) : escaped(value));

/** SVG, as a text. All its texts are of the family of the drawing. */
export class SvgSurface {
  constructor() {
    this.parts = [];
  }

  put(name, attributes, content = null) {
    const words = Object.entries(attributes)
                      .filter(([, value]) => value !== null && value !== undefined)
                      .map(([key, value]) => ` ${key}="${rounded(value)}"`);
    this.parts.push(
        content === null ? `<${name}${words.join('')}/>` :
                           `<${name}${words.join('')}>${escaped(content)}</${name}>`
    );
  }

  rect(x, y, width, height, fill) {
    this.put('rect', {x, y, width, height, fill});
  }

  chip(x, y, width, height, {fill, edge = null, weight = 1, radius = 0}) {
    const half = edge ? weight / 2 : 0;
    this.put('rect', {
      x: x + half,
      y: y + half,
      width: width - 2 * half,
      height: height - 2 * half,
      rx: radius || null,
      fill,
      stroke: edge,
      'stroke-width': edge ? weight : null
    });
  }

  polygon(corners, {fill, edge, weight}) {
    this.put('polygon', {
      points: corners.map((corner) => corner.map((one) => rounded(one)).join()).join(' '),
      fill,
      stroke: edge,
      'stroke-width': weight
    });
  }

  line(x1, y1, x2, y2, ink, weight) {
    this.put('line', {x1, y1, x2, y2, stroke: ink, 'stroke-width': weight});
  }

  disc(x, y, radius, fill) {
    this.put('circle', {cx: x, cy: y, r: radius, fill});
  }

  text(text, x, y, {size, ink, weight = 400, anchor = 'middle'}) {
    this.put(
        'text',
        {
          x,
          y: y + size * MIDDLE,
          'font-size': size,
          'font-weight': weight === 400 ? null : weight,
          'text-anchor': anchor === 'start' ? null : anchor,
          fill: ink
        },
        text
    );
  }

  faded(share, draw) {
    this.parts.push(`<g opacity="${rounded(share)}">`);
    draw();
    this.parts.push('</g>');
  }

  /** The whole drawing; `size` is its width and height with a unit, where it has one. */
  drawing(width, height, {family, size = null}) {
    const room = size ? ` width="${escaped(size.width)}" height="${escaped(size.height)}"` : '';
    return `<svg xmlns="http://www.w3.org/2000/svg" viewBox="0 0 ${rounded(width)} ${
        rounded(height)}"${room} font-family="${escaped(family)}" role="img">\n${
        this.parts.join('\n')}\n</svg>\n`;
  }
}
