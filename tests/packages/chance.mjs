// Pictures, lines and marred texts by chance, the same for the same seed: what compare.mjs asks
// besides what stands in files.

/** Chance from a seed. */
export class Chance {
  constructor(seed) {
    this.state = seed >>> 0;
  }

  /** A number from 0 on below n. */
  below(n) {
    this.state = (this.state + 0x6d2b79f5) >>> 0;
    let x = Math.imul(this.state ^ (this.state >>> 15), this.state | 1);
    x = (x + Math.imul(x ^ (x >>> 7), x | 61)) ^ x;
    return ((x ^ (x >>> 14)) >>> 0) % n;
  }

  oneOf(items) {
    return items[this.below(items.length)];
  }

  /** A picture of some colours, white first. */
  picture() {
    const [rows, columns] = [0, 1].map(() => 1 + this.below(this.oneOf([4, 9, 16])));
    const colours = 1 + this.below(this.oneOf([2, 3, 5]));
    const triples = [
      '255 255 255',
      ...Array.from({length: colours}, (_, at) => `${at * 40} ${255 - at * 30} ${at}`)
    ];
    const dense = 2 + this.below(4);
    const cells = Array.from(
        {length: rows * columns}, () => (this.below(dense) === 0 ? triples[0] : this.oneOf(triples))
    );
    return {text: `P3\n${columns} ${rows}\n255\n${cells.join('\n')}\n`, rows, columns};
  }

  /** A line of a session on a picture of that size; some are refused. */
  line({rows, columns}) {
    const place = (lines) => 1 + this.below(lines + (this.below(9) === 0 ? 2 : 0));
    const row = () => place(rows), column = () => place(columns);
    const colour = () => this.oneOf(['.', 'a', 'b', 'c', 'd']);
    return this.oneOf([
      () => `paint ${row()} ${column()} ${colour()}`,
      () => `paint ${row()} ${column()} ${colour()}`,
      () => `fill ${row()} ${column()} ${row()} ${column()} ${colour()}`,
      () => `recolour ${colour()} ${colour()}`,
      () => `insert ${this.oneOf(['row', 'column'])} ${row()}`,
      () => `delete ${this.oneOf(['row', 'column'])} ${row()}`,
      () => `swap row ${row()} ${row()}`,
      () => `swap column ${column()} ${column()}`,
      () => `colour add ${this.below(256)} ${this.below(256)} ${this.below(300)}`,
      () => `colour set ${colour()} ${this.below(256)} 7 9`,
      () => `pin ${row()} ${column()}`,
      () => `unpin ${row()} ${column()}`,
      () => 'undo',
      () => 'undo',
      () => 'redo',
      () => 'clues',
      () => 'map',
      () => 'verdict',
      () => 'verdict',
      () => 'report',
      () => `why ${row()} ${column()} ${colour()}`,
      () => 'certify',
      () => 'write ppm',
      () => 'write non',
      () => `allow ${this.below(50)}`,
      () => 'allow off',
      () => this.oneOf(
          ['', '  ', 'paint', 'verdict now', 'x'.repeat(300), 'why 1 1', '\r', 'paint 1 1 é']
      ),
    ])();
  }

  /** The text with one byte changed, put in or left out. */
  marred(text) {
    const at = this.below(text.length + 1);
    return text.slice(0, at) + this.oneOf(['', ' ', '0', '9', '\n', 'x', '#']) +
        text.slice(at + this.below(2));
  }
}
