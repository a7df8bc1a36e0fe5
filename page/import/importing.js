// A picture into a puzzle: a dialog with the image, the part that is taken, the size in cells, the
// colours, and what comes of it, drawn anew at each change, with its verdict.

import {fieldOf, hasFingers, make} from '../base/elements.js';
import {verdictRank} from '../base/names.js';
import {capital, clamp} from '../base/words.js';
import {MOST_CELLS, MOST_COLOURS} from '../document/limits.js';
import {COLOUR_NAMES} from '../document/named.js';
import {iconOf} from '../draw/icons.js';
import {drawSmall, penOf, penWith} from '../draw/small.js';
import {kindOfPalette} from '../formats/palettes.js';
import {openDoc} from '../library/open.js';
import {phrase} from '../texts/phrase.js';
import {sayWith} from '../view/actions.js';
import {openDialog} from '../view/dialogs.js';
import {keepMade} from './adjusting.js';
import {Alike} from './alike.js';
import {contactSheet, sizesFor} from './contacts.js';
import {Source} from './cropping.js';
import {cutSheet} from './cutting.js';
import {isFlat} from './flat.js';
import {isTransparent, scaledTo} from './images.js';
import {Inks} from './inks.js';
import {Judging, judgedText} from './judging.js';
import {Maker} from './making.js';
import {docApart, proposalFor, withoutMargin} from './proposing.js';
import {SEGMENTS} from './segments.js';
import {thresholdFor, toned} from './tone.js';
import {Turning} from './turning.js';

// The texts of fields, by their names.
const LABELS = {
  left: phrase('import.left'),
  top: phrase('import.top'),
  wide: capital(phrase('formats.width')),
  high: capital(phrase('formats.height')),
  columns: phrase('view.columns'),
  rows: phrase('view.rows'),
  keeps: phrase('import.keepProportions'),
  sharp: phrase('import.pixelArtOnePixel'),
  two: phrase('import.twoColoursLightness'),
  turned: phrase('import.twoColoursSegments'),
  segments: phrase('import.segments'),
  inverted: phrase('import.drawLightParts'),
  lines: phrase('import.lineArtAreaDark'),
  dither: phrase('import.dithering'),
  colours: phrase('import.howManyBackground'),
  threshold: phrase('import.darkBelow'),
  area: phrase('import.percentCell'),
  brightness: phrase('import.brightness'),
  contrast: phrase('import.contrast'),
  specks: phrase('import.removeSpecksUpSo'),
};
// pixels a side that the dialog works on; a larger part is made smaller first
const MOST_WORKED = 480;
const MOST_MIDDLE = 960;  // pixels a side of a copy of the image
const SLOW_MS = 40;       // where the last preview took longer, a sketch comes first
const SKETCH_REST = 150;  // milliseconds without a change before the preview follows a sketch
// Pixels of the two pictures in the dialog.
function shownSide() {
  if (matchMedia('(min-width: 1500px) and (min-height: 900px)').matches) return 480;
  return matchMedia('(min-width: 1240px) and (min-height: 700px)').matches ? 400 : 320;
}
const MOST_SPECK = 12;
const MOST_SEGMENTS = 8;
const AROUND = 0.008;  // of a photo's longer side: how far around a click its colour is a mean

class Importing {
  left;
  top;
  wide;
  high;
  columns;
  rows;  // fields of numbers
  keeps;
  sharp;
  two;
  turned;
  inverted;
  lines;
  dither;  // boxes to tick
  colours;
  segments;
  threshold;
  area;
  brightness;
  contrast;
  specks;  // sliders

  constructor(image) {
    this.proposal = proposalFor(image);
    this.full = image;
    this.canvas = penWith(image).canvas;
    this.middle = this.smaller(MOST_MIDDLE
    );                   // what large parts are taken of: to make all of a photo smaller takes long
    this.worked = null;  // the part that is taken, no larger than the dialog works on
    this.crop =
        {x: 0, y: 0, width: image.width, height: image.height};  // in pixels of the full image
    this.maker = new Maker();
    this.inks = new Inks(() => this.change('inks'), (by) => {
      this.colours.value = Number(this.colours.value) + by;
    });
    this.turning = new Turning(() => this.change('turning'), () => this.showBest());
    this.judged = (found) => {
      const icon = verdictRank(found.word) < 0 ? [] : [iconOf(found.word)];
      this.verdict.dataset.verdict = found.word;
      this.verdict.replaceChildren(...icon, judgedText(found));
    };
    this.judging = new Judging(this.judged);
    this.alike = new Alike(() => this.inks.merge());
    this.source = new Source(image, this.middle.canvas, shownSide(), {
      take: (part) => this.take(part),
      pick: (place) => this.pick(place)
    });
    this.doc = null;
    this.isWaiting = false;  // for the document of the last change
    this.isSheet = false;    // that is to be cut into several puzzles
    Object.assign(this, {frame: 0, timer: 0, spent: 0});
    this.make();
    this.change();
    this.colours.value =
        docApart(
            this.proposal.colours,
            (colours) => this.maker.doc(this.part(), this.size, {...this.options(), colours})
        ).colours;
    this.showFields();
  }

  field(name, attributes) {
    const input = make('input', {type: 'number', required: true, ...attributes});
    input.addEventListener('input', () => this.change(name));
    input.addEventListener('change', () => {
      [this.columns.value, this.rows.value] = this.size;
    });
    this[name] = input;
    return fieldOf(LABELS[name], input);
  }

  tick(name, checked = false) {
    this[name] = make('input', {type: 'checkbox', checked});
    this[name].addEventListener('input', () => this.change(name));
    return make('label', {}, this[name], LABELS[name]);
  }

  slider(name, min, max, value) {
    this[name] = make('input', {type: 'range', min, max, value, id: `import-${name}`});
    const shown = make('output', {}, String(value));
    this[name].addEventListener('input', () => this.change(name));
    return Object.assign(fieldOf(LABELS[name], this[name], shown), {
      show: () => {
        shown.value = this[name].value;
      }
    });
  }

  make() {
    this.preview =
        make('canvas', {id: 'import-preview', 'aria-label': phrase('import.puzzle'), role: 'img'});
    this.facts = make('p', {role: 'status', class: 'faint', id: 'import-facts'});
    this.verdict = make('p', {role: 'status', id: 'import-verdict'});
    this.content = make(
        'div',
        {class: 'importing'},
        make(
            'div',
            {class: 'pictures'},
            make(
                'figure',
                {},
                this.source.canvas,
                make(
                    'figcaption',
                    {},
                    hasFingers() ? phrase('import.tapToKeep') : phrase('import.dragOverImageSelect')
                )
            ),
            make('figure', {}, this.preview, this.facts, this.verdict, this.alike.element)
        ),
        make('div', {class: 'choices'}, this.sizes(), this.inkChoices(), this.lights()),
        this.parts(),
        make('datalist', {id: 'colour-names'}, ...COLOUR_NAMES.map((name) => make('option', {
                                                                     value: name
                                                                   })))
    );
  }

  parts() {
    const {width, height} = this.full;
    return make(
        'fieldset',
        {class: 'parts'},
        make('legend', {}, phrase('import.partImagePixels')),
        this.field('left', {min: '0', max: width - 1, value: 0}),
        this.field('top', {min: '0', max: height - 1, value: 0}),
        this.field('wide', {min: '1', max: width, value: width}),
        this.field('high', {min: '1', max: height, value: height}),
        make(
            'div',
            {class: 'group'},
            make(
                'button',
                {type: 'button', onclick: () => this.take({x: 0, y: 0, width, height})},
                phrase('import.wholeImage')
            ),
            make(
                'button',
                {
                  type: 'button',
                  id: 'import-trim',
                  onclick: () => this.take(withoutMargin(this.full))
                },
                phrase('import.trimMargin')
            ),
            make(
                'button',
                {type: 'button', id: 'import-sprites', onclick: () => this.leaveForSprites()},
                phrase('import.sheetOfSprites')
            )
        )
    );
  }

  sizes() {
    const {columns, rows, sharp} = this.proposal;
    const several = make(
        'button',
        {type: 'button', id: 'import-contacts', onclick: () => this.showContacts()},
        phrase('import.severalSizes')
    );
    return make(
        'fieldset',
        {},
        make('legend', {}, phrase('import.cells')),
        this.field(
            'columns',
            {min: '1', max: MOST_CELLS, value: columns, id: 'import-columns', autofocus: true}
        ),
        this.field('rows', {min: '1', max: MOST_CELLS, value: rows, id: 'import-rows'}),
        this.tick('keeps', true),
        this.tick('sharp', sharp),
        several
    );
  }

  async showContacts() {
    const docOf = (size, colours) => this.maker.doc(
        this.part(), size, {...this.options(false), sharp: this.isSharp(size), colours}
    );
    const taken = await contactSheet(
        sizesFor(this.crop, this.size),
        docOf,
        {size: this.size, colours: Number(this.colours.value)}
    );
    if (!taken) return;
    this.sharp.checked = this.isSharp(taken.size);
    [this.columns.value, this.rows.value] = taken.size;
    this.colours.value = taken.colours;
    this.two.checked = this.turned.checked = false;
    this.change();
  }

  inkChoices() {
    const count = this.slider('colours', 2, MOST_COLOURS, this.proposal.colours);
    const threshold = this.slider('threshold', 1, 255, 128);
    const area = this.slider('area', 5, 95, 30);
    const segments = this.slider('segments', 2, MOST_SEGMENTS, SEGMENTS);
    this.sliders = [count, threshold, area, segments];
    this.parted = {
      colours: [count, this.inks.element],
      two: [threshold, this.tick('inverted'), this.tick('lines'), area],
      turned: [segments, this.turning.element]
    };
    this.ofArea = area;
    // What comes and goes with a tick is last, so that nothing moves under the pointer.
    return make(
        'fieldset',
        {},
        make('legend', {}, phrase('view.colours')),
        this.tick('two'),
        make('div', {class: 'group'}, this.tick('turned'), this.turning.button),
        ...Object.values(this.parted).flat()
    );
  }

  lights() {
    const all = [
      this.slider('brightness', -100, 100, 0),
      this.slider('contrast', -100, 100, 0),
      this.tick('dither'),
      this.slider('specks', 0, MOST_SPECK, 0)
    ];
    this.sliders.push(...all.filter((one) => one.show));
    return make('fieldset', {}, make('legend', {}, phrase('import.lightDots')), ...all);
  }

  leaveForSprites() {
    this.isSheet = true;
    this.content.closest('dialog').close();
  }

  take({x, y, width, height}) {
    [this.left.value, this.top.value, this.wide.value, this.high.value] = [x, y, width, height];
    this.change('left');
  }

  // Locks the colour of the image at a place, as the palette has it.
  pick([x, y]) {
    const {full} = this;
    if (this.isTwo || isTransparent(full.data, (y * full.width + x) * 4)) return;
    const points = this.maker.points(this.part(), this.options());
    const around = isFlat(points) ? 0 : Math.round(Math.max(full.width, full.height) * AROUND);
    const [left, top] = [Math.max(0, x - around), Math.max(0, y - around)];
    const box = {
      x: left,
      y: top,
      width: Math.min(full.width, x + around + 1) - left,
      height: Math.min(full.height, y + around + 1) - top
    };
    const {data} = toned(scaledTo(full, box, 1, 1), this.options());
    this.inks.keep([...data.subarray(0, 3)]);
  }

  readCrop() {
    const {width, height} = this.full;
    const whole = (input, least, most, usual) =>
        clamp(Math.round(input.value === '' ? usual : Number(input.value)), least, most);
    const [x, y] = [whole(this.left, 0, width - 1, 0), whole(this.top, 0, height - 1, 0)];
    this.crop = {
      x,
      y,
      width: whole(this.wide, 1, width - x, width),
      height: whole(this.high, 1, height - y, height)
    };
  }

  // ---- what comes of it

  /** Takes a change of a field over; what is shown follows in the browser's next frame. */
  change(name = null) {
    this.readCrop();
    const side = (input) => clamp(Math.round(Number(input.value)) || 1, 1, MOST_CELLS);
    if (this.keeps.checked && name !== null) {
      const ratio = this.crop.height / this.crop.width;
      if (name === 'rows')
        this.columns.value = clamp(Math.round(side(this.rows) / ratio), 1, MOST_CELLS);
      else if (['columns', 'keeps', 'left', 'top', 'wide', 'high'].includes(name))
        this.rows.value = clamp(Math.round(side(this.columns) * ratio), 1, MOST_CELLS);
    }
    const dots = this.dots();
    if (dots && this.sharp.checked &&
        (name === 'sharp' || (this.keeps.checked && ['left', 'top', 'wide', 'high'].includes(name))
        ))
      [this.columns.value, this.rows.value] = dots;  // a part of pixel art keeps its dots
    this.size = [side(this.columns), side(this.rows)];
    if (dots && ['columns', 'rows'].includes(name))
      this.sharp.checked = this.size.join() === dots.join();
    if (name === 'two' || name === 'turned') this.chooseTwo(name);
    if (name === 'two' && this.two.checked)
      this.threshold.value = thresholdFor(
          this.maker.cells(this.part(), this.size, {...this.options(), sharp: this.sharp.checked})
      );
    this.showFields();
    this.isWaiting = true;
    this.frame ||= requestAnimationFrame(() => {
      this.frame = 0;
      if (!this.isWaiting) return;
      if (this.spent > SLOW_MS)
        this.sketch();
      else
        this.show();
    });
  }

  // How many dots of pixel art the part has each way; null for other images.
  dots() {
    const {dot} = this.proposal;
    return dot && [
      this.crop.width,
      this.crop.height
    ].map((length) => clamp(Math.round(length / dot), 1, MOST_CELLS));
  }

  // Whether each cell of a size is one pixel: of pixel art, where it has a cell for each dot.
  isSharp(size) {
    return this.sharp.checked && (this.dots() ?? size).join() === size.join();
  }

  showFields() {
    const shown = this.two.checked ? 'two' : this.turned.checked ? 'turned' : 'colours';
    for (const one of this.sliders) one.show();
    for (const [name, parts] of Object.entries(this.parted))
      for (const part of parts) part.hidden = name !== shown;
    this.ofArea.hidden ||= !this.lines.checked;
    this.dither.disabled = this.isTwo;
  }

  get isTwo() {
    return this.two.checked || this.turned.checked;
  }

  /** Shows the fields as they were left, and judges what they give. */
  resume() {
    this.isSheet = false;
    if (!this.judging.judge.isEnded) return;
    this.judging = new Judging(this.judged);
    this.change();
  }

  /** The document as the fields have it now, also where the next frame has not come yet. */
  finished() {
    if (this.isWaiting) this.show();
    return this.doc;
  }

  // The image with so many pixels a side at most.
  smaller(most) {
    const scale = Math.min(1, most / Math.max(this.full.width, this.full.height));
    if (scale === 1) return {canvas: this.canvas, scale};
    const pen = penOf(
        Math.max(1, Math.round(this.full.width * scale)),
        Math.max(1, Math.round(this.full.height * scale))
    );
    pen.imageSmoothingQuality = 'high';
    pen.drawImage(this.canvas, 0, 0, pen.canvas.width, pen.canvas.height);
    return {canvas: pen.canvas, scale};
  }

  // The part that is taken, as an image and a box in it; a large one is made smaller by the
  // browser.
  part() {
    const {x, y, width, height} = this.crop;
    const factor = MOST_WORKED / Math.max(width, height);
    if (factor >= 1) return {image: this.full, box: this.crop};
    const key = JSON.stringify(this.crop);
    if (this.worked?.key === key) return this.worked;
    const box = {
      x: 0,
      y: 0,
      width: Math.max(1, Math.round(width * factor)),
      height: Math.max(1, Math.round(height * factor))
    };
    const pen = penOf(box.width, box.height);
    pen.imageSmoothingQuality = 'high';
    const {canvas, scale} = Math.max(width, height) * this.middle.scale >= MOST_WORKED ?
        this.middle :
        {canvas: this.canvas, scale: 1};
    pen.drawImage(
        canvas, x * scale, y * scale, width * scale, height * scale, 0, 0, box.width, box.height
    );
    this.worked = {
      key,
      box,
      image: {
        width: box.width,
        height: box.height,
        data: pen.getImageData(0, 0, box.width, box.height).data
      }
    };
    return this.worked;
  }

  // Of the two ways to two colours one holds.
  chooseTwo(name) {
    if (this[name].checked) this[name === 'two' ? 'turned' : 'two'].checked = false;
  }

  // The document that `make` gives for options: of segments that in two colours.
  made(make, isSketch = false) {
    if (!this.turned.checked) return make(this.options());
    const [doc, specks] = [make(this.segmentOptions()), {specks: Number(this.specks.value)}];
    return isSketch ? this.turning.sketchOf(doc, specks) : this.turning.docOf(doc, specks);
  }

  segmentOptions() {
    const {sharp, brightness, contrast} = this.options(false);
    return {sharp, brightness, contrast, colours: Number(this.segments.value)};
  }

  // Lets the user choose among the best six, and takes that.
  showBest() {
    const doc = this.maker.doc(this.part(), this.size, this.segmentOptions());
    return this.turning.askBest(doc, {specks: Number(this.specks.value)}, () => {
      this.turned.checked = true;
      this.change('turned');
    });
  }

  options(isTwo = this.two.checked) {
    const value = (name) => Number(this[name].value);
    const common = {
      sharp: this.sharp.checked,
      brightness: value('brightness'),
      contrast: value('contrast'),
      specks: value('specks')
    };
    if (isTwo)
      return {
        ...common,
        threshold: value('threshold'),
        inverted: this.inverted.checked,
        area: this.lines.checked ? value('area') : 0
      };
    return {
      ...common,
      ...this.inks.options,
      colours: value('colours'),
      dither: this.dither.checked
    };
  }

  // A preview of single pixels at once, where the machine is slow; the one that counts follows when
  // the user rests.
  sketch() {
    const begun = performance.now();
    clearTimeout(this.timer);
    this.timer = setTimeout(() => this.isWaiting && this.show(), SKETCH_REST);
    const part = {image: this.full, box: this.crop};
    this.doc = this.made((options) => this.maker.sketch(part, this.size, options), true);
    this.judging.wait();
    this.draw();
    this.preview.dataset.ms = (performance.now() - begun).toFixed(1);
  }

  show() {
    const begun = performance.now();
    const isFirst = !this.timer;  // no sketch of it was drawn
    clearTimeout(this.timer);
    Object.assign(this, {isWaiting: false, timer: 0});
    this.doc = this.made((options) => this.maker.doc(this.part(), this.size, options));
    this.draw();
    this.spent = performance.now() - begun;
    if (isFirst) this.preview.dataset.ms = this.spent.toFixed(1);
    this.judging.ask(this.doc);
  }

  draw() {
    drawSmall(this.preview, this.doc, this.source.most);
    this.source.draw(this.crop);
    this.inks.show(this.doc);
    this.turning.show();
    this.alike.show(this.doc);
    this.facts.textContent = phrase(
        'import.cellsColoursBackground',
        {columns: this.doc.columns, rows: this.doc.rows, colours: this.doc.colours.length}
    );
  }
}

let atHand = null;             // what the open dialog makes
const MOST_PALETTE = 1 << 16;  // bytes

/**
 * Has the open dialog take the colours of a palette file; answers whether there is one, and the
 * file is one.
 */
export async function takesPalette(file) {
  if (!atHand || file.size > MOST_PALETTE || !kindOfPalette(await file.text())) return false;
  await atHand.inks.read(file);
  return true;
}

// Asks for what is to be made of an image: its document, or null.
async function docAsked(importing, title, button) {
  atHand = importing;
  importing.resume();
  const doc = await openDialog({
    title,
    content: importing.content,
    wide: true,
    buttons: [{name: button, value: () => importing.finished(), main: true}]
  });
  importing.judging.end();
  if (atHand === importing) atHand = null;
  return doc;
}

/** Lets the user make a puzzle of an image; answers whether one was opened. */
export async function importImage(image, name) {
  const importing = new Importing(image);
  const doc = await docAsked(
      importing, phrase('import.turnImageIntoPuzzle', {name}), phrase('import.createPuzzle')
  );
  const cut = () => cutSheet(image, importing.canvas, name);
  if (importing.isSheet) return cut();
  if (!doc || !(await openDoc(doc, {name, isSaved: false}))) return false;
  keepMade(async () => {
    const other = await docAsked(
        importing, phrase('import.adjustTitle', {name}), phrase('import.replacePicture')
    );
    return importing.isSheet ? void cut() : other;
  });
  sayWith(
      phrase('import.madeFromImageVerdict', {name}), '', 'trim'
  );  // where it has an empty margin
  return true;
}
