// The dialog that cuts a sheet of sprites into puzzles: its grid as it was found, or as the user
// gives it, over the image.

import {make} from '../base/elements.js';
import {clamp} from '../base/words.js';
import {MOST_CELLS} from '../document/limits.js';
import {phrase} from '../texts/phrase.js';
import {openDialog} from '../view/dialogs.js';
import {eachInTurn, withProgress} from '../view/progress.js';
import {MOST_AT_ONCE} from './beside.js';
import {docByItself, docProposed} from './proposing.js';
import {Row} from './rows.js';
import {showRows} from './several.js';
import {cutOut, fieldsOf, gridOf, shownOf, spritesOf} from './sprites.js';

const MOST_FIELDS = 64;  // a side
const SHOWN = {
  width: 560,
  height: 360
};  // pixels of the screen
const FIRST = {
  columns: 4,
  rows: 4,
  gap: 0,
  margin: 0
};  // where no grid is found

export class Cutting {
  constructor(image, canvas) {
    this.image = image;
    this.source = canvas;
    this.shown = shownOf(image);
    this.sprites = [];  // their fields: they are cut out when the grid is as wanted
    this.grid = gridOf(image, this.shown);
    const found = this.grid ? phrase('import.gridFound') : phrase('import.gridNotFound');
    this.grid ??= FIRST;
    const field = (name, text, least, most) => {
      const input = make('input', {
        type: 'number',
        min: least,
        max: most,
        value: this.grid[name],
        required: true,
        id: `cut-${name}`
      });
      input.addEventListener('input', () => {
        this.grid =
            {...this.grid, [name]: clamp(Math.round(Number(input.value)) || least, least, most)};
        this.show();
      });
      return make('label', {}, text, input);
    };
    this.canvas =
        make('canvas', {id: 'cut-sheet', role: 'img', 'aria-label': phrase('import.sheet')});
    this.count = make('p', {role: 'status', id: 'cut-count'});
    const most = Math.floor(Math.min(image.width, image.height) / 4);
    this.content = make(
        'div',
        {class: 'importing cutting'},
        make('p', {class: 'faint'}, found),
        this.canvas,
        make(
            'div',
            {class: 'group'},
            field('columns', phrase('view.columns'), 1, MOST_FIELDS),
            field('rows', phrase('view.rows'), 1, MOST_FIELDS),
            field('gap', phrase('import.gap'), 0, most),
            field('margin', phrase('import.margin'), 0, most)
        ),
        this.count
    );
    this.show();
  }

  show() {
    const {width, height} = this.image;
    this.sprites = spritesOf(this.image, this.grid, this.shown);
    const scale = Math.min(SHOWN.width / width, SHOWN.height / height);
    const by = scale > 1 ? Math.floor(scale) : scale;
    Object.assign(this.canvas, {width: Math.round(width * by), height: Math.round(height * by)});
    const pen = this.canvas.getContext('2d');
    pen.imageSmoothingEnabled = by < 1;
    pen.drawImage(this.source, 0, 0, this.canvas.width, this.canvas.height);
    pen.strokeStyle = '#d0338f';
    for (const field of fieldsOf(this.image, this.grid))
      pen.strokeRect(
          field.x * by + 0.5, field.y * by + 0.5, field.width * by - 1, field.height * by - 1
      );
    const [sprite] = this.sprites;
    this.count.textContent = phrase(
        'import.spritesOf',
        {sprites: this.sprites.length, width: sprite?.width ?? 0, height: sprite?.height ?? 0}
    );
  }
}

// A sprite pixel by pixel where it can be, else as the dialog for pictures proposes it. No file has
// it by itself.
const docOfSprite = (sprite) => ({
  ...((sprite.width <= MOST_CELLS && sprite.height <= MOST_CELLS && docByItself(sprite)) ||
      docProposed(sprite)),
  isMade: true
});

/**
 * The rows of the sprites of a sheet, one after the other, up to where the user stops it or a
 * table has no more.
 */
export async function rowsOfSprites(image, sprites, name, progress) {
  const taken = sprites.slice(0, MOST_AT_ONCE);
  const rows = await eachInTurn(
      taken,
      progress,
      (field, at) => new Row(`${name} ${at + 1}`, docOfSprite(cutOut(image, field)))
  );
  return sprites.length > taken.length && rows.length === taken.length ?
      [...rows, new Row(name, null, phrase('import.othersLeftOut', {most: MOST_AT_ONCE}))] :
      rows;
}

/**
 * Lets the user cut a sheet, given as an image and as a canvas, and shows its puzzles in a table.
 */
export async function cutSheet(image, canvas, name) {
  const cutting = new Cutting(image, canvas);
  const isCut = await openDialog({
    title: phrase('import.cutSheet', {name}),
    content: cutting.content,
    wide: true,
    buttons: [{
      name: phrase('import.cut'),
      value: true,
      main: true,
      test: () => (cutting.sprites.length ? '' : phrase('import.noSprites'))
    }],
  });
  if (!isCut) return false;
  const rows = await withProgress(
      phrase('import.cutSheet', {name}),
      (progress) => rowsOfSprites(image, cutting.sprites, name, progress)
  );
  return rows.length > 0 && showRows(rows);
}
