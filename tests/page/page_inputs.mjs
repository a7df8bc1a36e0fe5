// The same acts by mouse, by fingers or by keys alone: buttons, fields, menus, tools, strokes over
// cells. By keys a control is reached with Tab, as a user reaches it, so one that Tab does not
// reach fails.
import {MOST_WAIT, pause} from './page_browser.mjs';

const ARROWS = {
  down: 'ArrowDown',
  up: 'ArrowUp',
  right: 'ArrowRight',
  left: 'ArrowLeft'
};
const times = (count, key) => Array(Math.max(0, count)).fill(key);
const waysBetween = ([row, col], [toRow, toCol]) =>
    [...times(toRow - row, ARROWS.down),
     ...times(row - toRow, ARROWS.up),
     ...times(toCol - col, ARROWS.right),
     ...times(col - toCol, ARROWS.left)];

/** What a user does by one kind of input: 'mouse', 'touch' or 'keys'. */
export class User {
  constructor(page, trial, input) {
    Object.assign(this, {page, trial, input, byKeys: input === 'keys'});
  }

  async tabTo(selector) {
    for (let step = 0; step < 160; step++) {
      if (await this.page.run(
              (wanted) => document.activeElement?.matches(wanted) ?? false, selector
          ))
        return;
      await this.page.press('Tab');
    }
    throw new Error(`Tab does not reach ${selector}`);
  }

  // Opens what an element is in, as a menu or a swatch; says whether there was something to open.
  async opens(selector) {
    const closed = await this.page.run(
        (wanted) =>
            document.querySelector(wanted)?.closest('[popover]:not(:popover-open)')?.id ?? '',
        selector
    );
    if (!closed) return false;
    await this.press(
        closed === 'swatch' ? '#palette [aria-checked="true"]' : `[popovertarget="${closed}"]`
    );
    await this.page.until((id) => document.getElementById(id).matches(':popover-open'), closed);
    return closed !== 'swatch';
  }

  /** Presses a button. */
  async press(selector) {
    if (await this.opens(selector) && this.byKeys) return this.arrowTo(selector);
    await this.page.until(
        (wanted) => document.querySelector(wanted)?.checkVisibility({visibilityProperty: true}),
        selector
    );
    if (this.input === 'mouse') {
      await pause(120);  // no hand is quicker, and the header has the file's name by then
      return this.page.click(selector);
    }
    if (this.input === 'touch') {
      await this.page.middle(selector
      );  // it is scrolled into view, and a finger comes when that is drawn
      await pause(120);
      return this.page.tap(selector);
    }
    await this.tabTo(selector);
    return this.page.press('Enter');
  }

  /**
   * Takes one stroke back, by its key or its button. A finger's click comes some time behind it.
   */
  async undo() {
    const strokes = await this.page.run(() => bench.past.length);
    if (this.byKeys)
      await this.page.press('Control+z');
    else
      await this.press('#quick [data-action="undo"]');
    await this.page.until((before) => bench.past.length < before, strokes);
    return this.trial.settled();
  }

  // Goes through an open menu to an entry, and takes it.
  async arrowTo(entry) {
    for (let step = 0; step < 40; step++) {
      if (await this.page.run((wanted) => document.activeElement?.matches(wanted) ?? false, entry))
        return this.page.press('Enter');
      await this.page.press('ArrowDown');
    }
    throw new Error(`the arrows do not reach ${entry}`);
  }

  /** Types into a field in place of what stands there. */
  async fill(selector, text) {
    await this.opens(selector);
    if (this.byKeys)
      await this.tabTo(selector);
    else
      await this.press(selector);
    await this.page.until((wanted) => document.activeElement?.matches(wanted), selector);
    if (this.input === 'touch') await pause(350);  // a finger's click comes some time behind it
    await this.page.press('Control+a', ...text);
  }

  /**
   * Takes an option of a choice; the browser's own list of options is not drawn where there is no
   * screen.
   */
  async choose(selector, value) {
    if (this.byKeys) await this.tabTo(selector);
    await this.page.run((wanted, option) => {
      const choice = document.querySelector(wanted);
      choice.value = option;
      choice.dispatchEvent(new Event('change'));
    }, selector, value);
    while (this.byKeys && await this.page.run(() => document.activeElement.matches('select')))
      await this.page.press('Tab');  // a choice takes letters itself
  }

  /** An entry of a menu. */
  async menu(place, id) {
    await this.press(`#menus [popovertarget="menu-${place}"]`);
    const entry = `#menu-${place} [data-action="${id}"]`;
    if (!this.byKeys) return this.press(entry);
    await this.page.until(
        (one) => document.getElementById(one).contains(document.activeElement),
        `menu-${place}`
    );  // no hand is quicker
    return this.arrowTo(entry);
  }

  /** Chooses a tool by its button, or by its key. */
  async tool(name) {
    if (this.byKeys)
      await this.page.press(await this.page.run(
          (wanted) =>
              document.querySelector(`[data-tool="${wanted}"]`).getAttribute('aria-keyshortcuts'),
          name
      ));
    else
      await this.press(`[data-tool="${name}"]`);
    return this.page.until(
        (wanted) => tools.name === wanted, name
    );  // a finger's click comes some time behind it
  }

  /** Chooses a colour of the palette by its button, or by its number. */
  async colour(letter) {
    if (this.byKeys)
      await this.page.press(String('.abcdefgh'.indexOf(letter)));
    else if (await this.page.run((wanted) => tools.colour !== wanted, letter))
      await this.press(`#palette [data-letter="${letter}"]`);  // the chosen one would open
    return this.page.until((wanted) => tools.colour === wanted, letter);
  }

  /** Goes with the arrows to a cell, rows and columns from 1. */
  async goTo(row, col) {
    if (!await this.page.run(() => document.activeElement?.matches('.cell') ?? false))
      await this.tabTo('.cell');
    await this.page.press(
        ...waysBetween(await this.page.run(() => [cursor.row + 1, cursor.col + 1]), [row, col])
    );
  }

  /** A stroke of the chosen tool from cell to cell, or on one cell alone. */
  async stroke(from, to = from) {
    if (this.byKeys) {
      await this.goTo(...from);
      const isDot = ['pencil', 'pin', 'bucket', 'recolour', 'wand', 'why'].includes(
          await this.page.run(() => tools.name)
      );
      if (isDot && from.join() !== to.join()) {
        await this.page.hold('Shift', true);
        await this.page.press(...waysBetween(from, to).map((key) => `Shift+${key}`));
        await this.page.hold('Shift', false);
      } else {
        await this.page.press('Enter', ...(isDot ? [] : [...waysBetween(from, to), 'Enter']));
      }
    } else {
      const [one, other] = [await this.trial.cell(...from), await this.trial.cell(...to)];
      if (this.input === 'mouse')
        await this.page.drag([one, other]);
      else
        await this.page.touch([one, other]);
    }
    return this.trial.settled();
  }

  /** Ticks a box, or takes its tick away. */
  async tick(selector) {
    if (!this.byKeys) return this.press(selector);
    await this.tabTo(selector);
    return this.page.press(' ');
  }

  /** Marks cells in Play by a colour, rows and columns from 1. */
  async mark(letter, cells) {
    const {page} = this;
    if (this.byKeys)
      await page.press(letter);
    else
      await this.press(`#play-palette [data-letter="${letter}"]`);
    for (const [row, col] of cells) {
      const spot = await page.run((r, c) => {
        const box = document.getElementById('play-field').getBoundingClientRect();
        return [box.left + (c - 0.5) * play.side, box.top + (r - 0.5) * play.side];
      }, row, col);
      if (this.input === 'mouse')
        await page.drag([spot]);
      else if (this.input === 'touch')
        await page.touch([spot]);
      else
        await page.press(
            ...waysBetween(await page.run(() => [play.at.row + 1, play.at.col + 1]), [row, col]),
            'Enter'
        );
    }
  }

  /** Lets the browser's chooser of files have some files. */
  async chooseFile(act, ...paths) {
    await this.page.send('Page.setInterceptFileChooserDialog', {enabled: true});
    const chooser = new Promise((go) => {
      this.page.hears = (method, params) => {
        if (method === 'Page.fileChooserOpened') go(params);
      };
    });
    await act();
    const {backendNodeId} = await Promise.race([
      chooser,
      pause(MOST_WAIT).then(() => {
        throw new Error('no chooser of files opened');
      })
    ]);
    await this.page.send('DOM.setFileInputFiles', {files: paths, backendNodeId});
  }
}
