// The library in the browser's storage: as many pictures as there is room for. Nothing goes but
// what its user takes away.

import {FileFault} from '../document/limits.js';
import {phrase} from '../texts/phrase.js';
import {cardOf, newId, readCard, readRecord} from './records.js';
import {reasonOf} from './shelf.js';

const RECORD = 'work:';
const CARD = 'card:';
// milliseconds between a stroke and its record: it is drawn first, and of quick strokes the last
// one counts
const REST = 50;

/**
 * Keeps records on a shelf: of each document the last one, one write at a time. `said`
 * hears {kind: 'kept' | 'failed', why, record}.
 */
export class Keeper {
  constructor(shelf, said) {
    this.shelf = shelf;
    this.said = said;
    this.waiting = null;
    this.made = [];  // what was made before its turn
    this.writing = null;
    this.wake = null;  // ends a rest
  }

  /** Whether all that was handed in is on the shelf. */
  get isDone() {
    return !this.waiting && !this.writing;
  }

  /**
   * Keeps {record, facts}, made by `make` when it is its turn; of those that wait the last one
   * counts. What `mayRest` is made and written a moment later, or with the next that may not.
   */
  note(make, mayRest = false) {
    this.waiting = make;
    if (!mayRest) this.wake?.();
    this.writing ??= this.write(mayRest).finally(() => {
      this.writing = null;
    });
    return this.writing;
  }

  /** Makes at once what waits: what it is made of goes. */
  hurry() {
    if (this.waiting) this.made.push(this.waiting());
    this.waiting = null;
    this.wake?.();
  }

  async write(mayRest) {
    if (mayRest)
      await new Promise((go) => {
        this.wake = go;
        setTimeout(go, REST);
      });
    this.wake = null;
    while (this.waiting || this.made.length) {
      if (!this.made.length) this.hurry();
      const made = this.made.shift();
      if (made) await this.put(made.record, made.facts);
    }
  }

  /** Keeps a record with its card; says whether it is kept. */
  async put(record, facts = {}) {
    try {
      await this.shelf.putAll(
          [[RECORD + record.id, record], [CARD + record.id, cardOf(record, facts)]]
      );
      this.said(
          {kind: this.shelf.lasts ? 'kept' : 'failed', why: this.shelf.lasts ? '' : 'none', record}
      );
      return true;
    } catch (fault) {
      this.said({kind: 'failed', why: reasonOf(fault), record});
      return false;
    }
  }

  /** The cards of all records, the newest first. One that is missing is made of its record. */
  async cards() {
    const {keys, values} = await this.shelf.listed(CARD);
    const ids = keys.map(String).filter(
                                    (key) => key.startsWith(RECORD)
    ).map((key) => key.slice(RECORD.length));
    const cards =
        await Promise.all(ids.map((id) => readCard(values.get(CARD + id)) ?? this.cardAnew(id)));
    return cards.filter(Boolean).sort((a, b) => b.when - a.when);
  }

  // A card of a record that has none, or a damaged one; null where the record is damaged too.
  async cardAnew(id) {
    const value = await this.shelf.get(RECORD + id).catch(() => null);
    try {
      return readRecord(value) ? readCard(cardOf(value)) : null;
    } catch {
      return null;
    }  // what JSON cannot write
  }

  /**
   * What takes, of some cards, the first whose picture is a document, as `textOf` tells it; null
   * where none is. Each record is read once.
   */
  takerOf(cards, textOf) {
    const [unread, known] =
        [new Map(), new Map()];  // cards by their cells, and by the texts of their records
    const put = (map, key, card) => map.set(key, map.get(key) ?? []).get(key).push(card);
    for (const card of cards) put(unread, card.doc.picture.join(), card);
    return async (doc) => {
      const [rows, text] = [doc.picture.join(), textOf(doc)];
      const alike = unread.get(rows) ?? [];
      unread.delete(rows);
      for (const card of alike) {
        const record = await this.record(card.id);
        if (record) put(known, textOf(record.doc), card);
      }
      const card = known.get(text)?.shift() ?? null;
      if (!known.get(text)?.length) known.delete(text);
      return card;
    };
  }

  /** A record, read, or null where it is none. */
  async record(id) {
    return readRecord(await this.shelf.get(RECORD + id).catch(() => null));
  }

  // A picture as it is on the shelf: what `restore` puts there.
  async entry(id) {
    return {record: await this.shelf.get(RECORD + id), card: await this.shelf.get(CARD + id)};
  }

  /** Takes a picture away; resolves to what `restore` brings back. */
  async drop(id) {
    const gone = await this.entry(id);
    await this.shelf.drop(RECORD + id, CARD + id);
    return gone;
  }

  /** Puts a picture on the shelf; one that is there meanwhile is newer, and stays. */
  async restore({record, card}) {
    if (!record) throw new FileFault(phrase('library.pictureLibraryDamagedCould'));
    const keys = [RECORD + record.id, CARD + record.id];
    await this.shelf.change(
        keys, ([newer]) => (newer ? [] : [[keys[0], record], [keys[1], card ?? cardOf(record)]])
    );
  }

  /** Gives a picture a name that its user chose; what is kept of it meanwhile stays. */
  async rename(id, name) {
    const keys = [RECORD + id, CARD + id];
    await this.shelf.change(
        keys,
        ([record, card]) =>
            (record ?
                 [
                   [keys[0], {...record, name, isNamed: true}],
                   [keys[1], {...(card ?? cardOf(record)), name}]
                 ] :
                 [])
    );
  }

  /** A copy of a picture, with its strokes, under another name; resolves to its id. */
  async duplicate(id, name) {
    const {record, card} = await this.entry(id);
    const own = {id: newId(), name, when: Date.now(), isSaved: false};
    await this.restore({
      record: record && {...record, ...own},
      card: card &&
          {
            ...card, ...own
          }
    });
    return own.id;
  }
}
