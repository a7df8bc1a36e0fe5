// What runs for some time: a dialog that tells how far it is, with a button that stops it. What
// ends soon shows none.

import {make} from '../base/elements.js';
import {phrase} from '../texts/phrase.js';
import {openDialog} from './dialogs.js';

const AFTER = 400;  // milliseconds until it is shown
const REST = 50;    // milliseconds of work until the browser may draw

/** In place of a Progress where nobody waits or stops it. */
export const UNSEEN = {
  isStopped: false,
  goesOn: async (_text) => true,
  held: (engine) => engine
};

/** What comes of items, one after the other, up to where `progress` does not go on. */
export async function eachInTurn(items, progress, make) {
  const made = [];
  for (const [at, item] of items.entries()) {
    if (!(await progress.goesOn(phrase('import.ofAll', {count: at, all: items.length})))) break;
    made.push(await make(item, at));
  }
  return made;
}

export class Progress {
  isStopped = false;
  isEnded = false;
  rested = performance.now();

  constructor(title, text = '') {
    this.line = make('p', {role: 'status', class: 'progress'}, text);
    this.timer = setTimeout(() => this.show(title), AFTER);
  }

  async show(title) {
    await openDialog(
        {title, content: this.line, buttons: [{name: phrase('view.stop'), value: null, main: true}]}
    );
    if (this.isEnded) return;
    this.isStopped = true;
    this.engine?.end('stopped');
  }

  /**
   * An engine that works here: it ends where the user stops that, and at once where that was
   * before.
   */
  held(engine) {
    this.engine = engine;
    if (this.isStopped) engine.end('stopped');
    return engine;
  }

  /** Tells how far it is; answers whether to go on. */
  async goesOn(text) {
    this.line.textContent = text;
    if (performance.now() - this.rested > REST) {
      await new Promise((go) => setTimeout(go));
      this.rested = performance.now();
    }
    return !this.isStopped;
  }

  end() {
    this.isEnded = true;
    clearTimeout(this.timer);
    this.line.closest('dialog')?.close();
  }
}

/** Does work that tells a Progress how far it is, until it ends. */
export async function withProgress(title, work, text = '') {
  const progress = new Progress(title, text);
  return work(progress).finally(() => progress.end());
}
