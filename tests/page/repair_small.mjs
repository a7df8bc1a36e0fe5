// Tests of repairs on small pictures, against brute force over all pictures of their size. The
// session they ask is a stand-in that answers by brute force, too. Run: node --test
// tests/page/repair_small.mjs
import assert from 'node:assert/strict';
import {test} from 'node:test';
import {Board, cellsOf} from '../../page/repair/board.js';
import {clueOf} from '../../page/repair/lines.js';
import {Narrowing} from '../../page/repair/narrowing.js';
import {elsewhere, placesOf} from '../../page/repair/places.js';
import {give, mix, repair} from '../../page/repair/repair.js';
import {haveSameClue} from '../../page/repair/witness.js';

const LETTERS = '.abc';
function random(seed) {
  let state = seed;
  return (below) => (state = (state * 48271) % 2147483647) % below;
}

// Where line logic ends on a picture's cells, some of them given; and its map.
const settled = ({rows, columns}, cells, givens = []) =>
    new Narrowing(new Board({rows, columns, cells, rule: false}), {givens}).settle();
const mapOf = ({masks, board: {rows, columns}}) =>
    Array
        .from(
            {length: rows},
            (_, row) => Array
                            .from(
                                masks.subarray(row * columns, (row + 1) * columns),
                                (mask) => (mask & (mask - 1) ? '?' : LETTERS[31 - Math.clz32(mask)])
                            )
                            .join('')
        )
        .join('\n');

/** All pictures of a size over so many colours, by the text of their clues. */
class AllPictures {
  constructor(rows, columns, colours) {
    Object.assign(
        this, {rows, columns, colours, count: colours ** (rows * columns), byClues: new Map()}
    );
    for (let code = 0; code < this.count; code++) {
      const key = this.cluesOf(this.cells(code));
      if (!this.byClues.has(key)) this.byClues.set(key, []);
      this.byClues.get(key).push(code);
    }
  }

  cells(code) {
    return Uint8Array.from(
        {length: this.rows * this.columns},
        (_, at) => Math.floor(code / this.colours ** at) % this.colours
    );
  }

  cluesOf(cells) {
    const lines = [];
    for (let row = 0; row < this.rows; row++)
      lines.push(clueOf(cells.subarray(row * this.columns, (row + 1) * this.columns)));
    for (let column = 0; column < this.columns; column++)
      lines.push(clueOf(cells.filter((_, at) => at % this.columns === column)));
    return JSON.stringify(lines);
  }

  /** The other pictures with a picture's clues and the colours of its given cells. */
  others(cells, givens = []) {
    return this.byClues.get(this.cluesOf(cells))
        .map((code) => this.cells(code))
        .filter(
            (other) => other.some((colour, at) => colour !== cells[at]) &&
                givens.every((at) => other[at] === cells[at])
        );
  }

  isUnique(cells, givens) {
    return this.others(cells, givens).length === 0;
  }

  isByLines(cells, givens = []) {
    return settled(this, cells, givens).openCells().length === 0;
  }
}

const rowsOf = ({columns}, cells) => [...cells].map(
                                                   (colour) => LETTERS[colour]
).join('').match(new RegExp(`.{${columns}}`, 'g'));

/** A session's texts, by brute force. */
function sessionOf(all, cells) {
  const shown = cells.slice();
  const pins = new Set();
  const index = (words) => (Number(words[1]) - 1) * all.columns + Number(words[2]) - 1;
  const calls = {
    paint: (words) => {
      shown[index(words)] = LETTERS.indexOf(words[3]);
      return 'ok';
    },
    pin: (words) => {
      pins.add(index(words));
      return 'ok';
    },
    unpin: (words) => {
      pins.delete(index(words));
      return 'ok';
    },
    allow: () => 'ok',
    map: () => mapOf(settled(all, shown, pins)),
    verdict: () => {
      const far = (one) =>
          one.reduce((count, colour, at) => count + (colour === shown[at] ? 0 : 1), 0);
      const [other] = all.others(shown, [...pins]).sort((one, two) => far(two) - far(one));
      return other ? ['ambiguous', ...rowsOf(all, other)].join('\n') : 'unique';
    },
  };
  const session = (lines) =>
      lines.map((line) => `${calls[line.split(' ')[0]](line.split(' '))}\n`).join('');
  session.shown = shown;
  return session;
}

const small = new AllPictures(4, 4, 2);
const three = new AllPictures(3, 3, 3);

function boardOf(all, cells, more = {}) {
  return new Board({rows: all.rows, columns: all.columns, cells, ...more});
}

async function repairsOf(all, cells, goal, more = {}) {
  const found = [];
  const board = boardOf(all, cells, more);
  const result = await repair({board, goal, say: sessionOf(all, cells), seconds: Infinity}, {
    found: (one) => found.push(one.cells)
  });
  return {found, result, board};
}

function painted(cells, changes) {
  const other = cells.slice();
  for (const {index, colour} of changes) other[index] = colour;
  return other;
}

// All sets of at most `most` changes of different cells that the board allows and that keep the
// damage rule.
function* changesOf(board, most, from = 0, taken = []) {
  if (taken.length > 0) yield taken;
  if (taken.length === most) return;
  for (let at = from; at < board.moves.length; at++) {
    const [code] = board.moves[at].codes;
    if (taken.some(({index}) => index === code >> 4)) continue;
    yield* changesOf(board, most, at + 1, [...taken, {index: code >> 4, colour: code & 15}]);
  }
}

// The least number of changes up to three by which brute force reaches the goal, or null.
function leastByBruteForce(all, board, isGoal) {
  let least = null;
  for (const changes of changesOf(board, 3)) {
    if (least !== null && changes.length >= least) continue;
    const cells = painted(board.cells, changes);
    const isNeat = !board.rule || changes.every(({index}) => !board.makesLone(cells, index));
    if (isNeat && isGoal(cells)) least = changes.length;
  }
  return least;
}

function someCells(all, next, isWanted) {
  for (;;) {
    const cells = all.cells(next(all.count));
    if (isWanted(cells)) return cells;
  }
}

for (const [name, all, seed] of [['two colours', small, 3], ['three colours', three, 4]]) {
  test(`${name}: the smallest repair is brute force's, and each one is unique`, async () => {
    const next = random(seed);
    let [mended, none] = [0, 0];
    for (let turn = 0; turn < 150; turn++) {
      const cells = someCells(all, next, (one) => !all.isUnique(one));
      const rule = turn % 2 === 0;
      const {found, result, board} = await repairsOf(all, cells, 'unique', {rule});
      for (const changes of found) assert.ok(all.isUnique(painted(cells, changes)));
      const least = leastByBruteForce(all, board, (one) => all.isUnique(one));
      if (least !== null)
        assert.equal(result.best, least, rowsOf(all, cells).join('/'));
      else
        assert.ok(result.best === null || result.best > 3);
      assert.ok(
          result.proved < Math.min(least ?? 4, result.best ?? 4) || least === null,
          'what is said of smaller ones holds'
      );
      if (least === null)
        none++;
      else
        mended++;
    }
    assert.ok(mended > 20, `${mended} mended, ${none} not`);
  });
}

test('one cell may end two witnesses that share no line', async () => {
  // Of each of these some second pictures differ from it in cells whose lines are all different;
  // one cell ends them all.
  for (const rows
           of [['a.a.', '...a', '.a..', 'a...'],
               ['..a.', '.aaa', '.a..', 'a...'],
               ['.aa.', '...a', '..a.', 'a...']]) {
    const {result, board} = await repairsOf(small, cellsOf(rows), 'unique', {rule: false});
    assert.equal(leastByBruteForce(small, board, (one) => small.isUnique(one)), 1);
    assert.deepEqual([result.best, result.proved], [1, 0], rows.join('/'));
  }
});

test(
    'a repaint is seen as much whether its cells were changed together or one by one',
    async () => {
      const rows = ['.aa.', 'a..a', 'a..a', '.aa.'];  // left and right are the same
      const painsOf = async (mirror) => {
        const pains = new Map();
        const board = boardOf(small, cellsOf(rows), {rule: false, mirror});
        await repair(
            {board, goal: 'unique', say: sessionOf(small, cellsOf(rows)), seconds: Infinity},
            {found: ({cells, pain}) => pains.set(JSON.stringify(cells), pain)}
        );
        return pains;
      };
      const [together, apart] = [await painsOf('x'), await painsOf(null)];
      const both = [...together.keys()].filter((cells) => apart.has(cells));
      assert.ok(both.length > 0, `${[...together.keys()]} and ${[...apart.keys()]}`);
      for (const cells of both) assert.equal(together.get(cells), apart.get(cells), cells);
    }
);

test('for line logic, too', async () => {
  const next = random(8);
  for (let turn = 0; turn < 25; turn++) {
    const cells = someCells(small, next, (one) => !small.isByLines(one));
    const {found, result, board} = await repairsOf(small, cells, 'lines');
    for (const changes of found)
      assert.ok(
          small.isByLines(painted(cells, changes)) && small.isUnique(painted(cells, changes))
      );
    const least = leastByBruteForce(small, board, (one) => small.isByLines(one));
    if (least !== null && least <= 2)
      assert.equal(result.best, least, rowsOf(small, cells).join('/'));
    assert.ok(result.proved < (least ?? 4) || least === null, 'what is said of smaller ones holds');
  }
});

test('the fewest cells to be given are brute force\'s', async () => {
  const next = random(21);
  for (const goal of ['unique', 'lines']) {
    const isGoal = (cells, givens) =>
        (goal === 'lines' ? small.isByLines(cells, givens) : small.isUnique(cells, givens));
    for (let turn = 0; turn < 25; turn++) {
      const cells = someCells(small, next, (one) => !isGoal(one, []));
      const {given, isLeast} = await give(
          {board: boardOf(small, cells), goal, say: sessionOf(small, cells), seconds: Infinity}
      );
      assert.ok(isGoal(cells, given));
      const fewer = sets(16, given.length - 1).some((some) => isGoal(cells, some));
      if (isLeast) assert.equal(fewer, false, rowsOf(small, cells).join('/'));
      if (given.length <= 3) assert.equal(isLeast, true);
    }
  }
});

test(
    'behind a beginning of repaints, the fewest cells to be given are brute force\'s',
    async () => {
      const next = random(41);
      let tried = 0;
      for (const goal of ['unique', 'lines']) {
        const isGoal = (cells, givens) =>
            (goal === 'lines' ? small.isByLines(cells, givens) : small.isUnique(cells, givens));
        for (let turn = 0; turn < 20; turn++) {
          const cells = someCells(small, next, (one) => !isGoal(one, []));
          const {result} = await repairsOf(small, cells, goal, {rule: turn % 2 === 0});
          for (const one of result.near) {
            const begun = painted(cells, one.cells);
            assert.ok(
                one.cells.length >= 1 && one.cells.length <= 4 && !isGoal(begun, []),
                'a beginning misses the goal'
            );
            const found = [];
            const session = sessionOf(small, cells);
            await mix(
                {
                  board: boardOf(small, cells),
                  goal,
                  near: [one],
                  bound: 9,
                  say: session,
                  seconds: Infinity
                },
                {found: (mixed) => found.push(mixed)}
            );
            assert.deepEqual(session.shown, cells, 'the session is as before');
            const least =
                [1, 2, 3, 4].find((count) => sets(16, count).some((some) => isGoal(begun, some)));
            if (goal === 'unique' && least)
              assert.equal(found.at(-1)?.given.length, least, rowsOf(small, begun).join('/'));
            for (const mixed of found)
              assert.ok(isGoal(begun, mixed.given) && mixed.given.length >= least);
            tried += found.length;
          }
        }
      }
      assert.ok(tried > 40, `${tried} mixtures`);
    }
);

test('each mixture has fewer changes than the one before, and than the bound', async () => {
  const next = random(43);
  for (let turn = 0; turn < 40; turn++) {
    const cells = someCells(small, next, (one) => !small.isUnique(one));
    const {result} = await repairsOf(small, cells, 'unique', {rule: false});
    let most = 2 + next(4);
    await mix(
        {
          board: boardOf(small, cells),
          goal: 'unique',
          near: result.near,
          bound: most,
          say: sessionOf(small, cells),
          seconds: Infinity
        },
        {
          found({cells: changes, given}) {
            assert.ok(
                given.length > 0 && changes.length > 0 && changes.length + given.length < most
            );
            assert.ok(small.isUnique(painted(cells, changes), given));
            most = changes.length + given.length;
          },
        }
    );
  }
});

// All sets of so many of the first numbers.
function sets(below, count, from = 0) {
  if (count === 0) return [[]];
  const found = [];
  for (let at = from; at < below; at++)
    for (const rest of sets(below, count - 1, at + 1)) found.push([at, ...rest]);
  return found;
}

test('locked cells and colours, and givens, are left as they are', async () => {
  const next = random(31);
  for (let turn = 0; turn < 20; turn++) {
    const cells = someCells(three, next, (one) => !three.isUnique(one) && new Set(one).size === 3);
    const lockedCells = [next(9), next(9)];
    const {found} =
        await repairsOf(three, cells, 'unique', {lockedCells, lockedColours: [2], rule: false});
    for (const changes of found) {
      for (const {index, colour} of changes)
        assert.ok(!lockedCells.includes(index) && colour !== 2 && cells[index] !== 2);
    }
  }
});

test('a symmetric picture stays so where that is asked', async () => {
  const cells = cellsOf(['a..a', '.aa.', '.aa.', 'a..a']);
  for (const mirror of ['x', 'y']) {
    const {found, result} = await repairsOf(small, cells, 'unique', {mirror, rule: false});
    assert.ok(found.length > 0 && result.best !== null);
    for (const changes of found) {
      const rows = rowsOf(small, painted(cells, changes));
      const turned =
          mirror === 'x' ? rows.map((row) => [...row].reverse().join('')) : [...rows].reverse();
      assert.deepEqual(turned, rows);
    }
  }
});

test('the damage rule: the colour of a neighbour, and no new lone pixel', () => {
  const board = boardOf(small, cellsOf(['aa..', 'aa..', '....', '...a']));
  const allowed = new Set(board.moves.map(({codes: [code]}) => `${code >> 4}=${code & 15}`));
  assert.ok(
      allowed.has('2=1') && !allowed.has('3=1') && !allowed.has('9=0'), [...allowed].join(' ')
  );
  assert.equal(board.makesLone(cellsOf(['aa..', 'aa..', '....', '....']), 15), false);
  assert.equal(board.makesLone(cellsOf(['aa..', '.a..', '....', '...a']), 4), false);
  assert.equal(board.makesLone(cellsOf(['.a..', '.a..', 'a...', '...a']), 0), false);
  assert.equal(
      board.makesLone(cellsOf(['a...', '....', '....', '...a']), 1), true, 'the corner is alone now'
  );
});

test('a search ends with its allowance, however slowly the session answers', async () => {
  const cells = cellsOf(['a.a.', '.a.a', 'a.a.', '.a.a']);
  const foundIn = async (answer) => {
    const found = [];
    const session = sessionOf(small, cells);
    const {isThrough} = await repair(
        {
          board: boardOf(small, cells),
          goal: 'unique',
          say: (lines) => answer(session(lines)),
          seconds: 0.0003
        },
        {found: (one) => found.push(one.cells)}
    );
    assert.equal(isThrough, false);
    return found;
  };
  const atOnce = await foundIn((text) => text);
  assert.ok(atOnce.length > 0, 'what was found stays');
  const later = (text) => new Promise((go) => {
    setTimeout(() => go(text), 5);
  });
  assert.deepEqual(await foundIn(later), atOnce);
});

test('what is nearer to the goal than the picture is told, each time nearer', async () => {
  const next = random(51);
  let nearer = 0;
  for (let turn = 0; turn < 40; turn++) {
    const cells = someCells(small, next, (one) => !small.isUnique(one));
    const farOf = (one) => Math.max(...small.others(one
    ).map((other) => other.filter((colour, at) => colour !== one[at]).length));
    let far = farOf(cells);
    await repair(
        {
          board: boardOf(small, cells),
          goal: 'unique',
          say: sessionOf(small, cells),
          seconds: Infinity
        },
        {
          nearer({cells: changes, differing}) {
            assert.ok(changes.length > 0 && differing < far);
            assert.equal(
                differing, farOf(painted(cells, changes)), 'as many cells differ as is told'
            );
            far = differing;
            nearer++;
          },
        }
    );
  }
  assert.ok(nearer > 10, `${nearer} nearer`);
});

test('a session that refuses a line ends the search with an error', async () => {
  const board = boardOf(small, cellsOf(['a.a.', '.a.a', 'a.a.', '.a.a']));
  await assert.rejects(
      repair({board, goal: 'unique', say: () => 'refused: Memory\n', seconds: Infinity}),
      /refused: Memory/
  );
});

test('two lines have the same clue exactly where their runs are equal', () => {
  const next = random(77);
  for (let turn = 0; turn < 3000; turn++) {
    const size = 1 + next(7);
    const [one, two] = [0, 1].map(() => Uint8Array.from({length: size}, () => next(3)));
    assert.equal(
        haveSameClue(one, two, size), JSON.stringify(clueOf(one)) === JSON.stringify(clueOf(two))
    );
  }
});

// Two corners in different colours, each of which leans either way by itself, and nothing else.
const APART = ['a.....', '.a....', '......', '......', '....b.', '.....b'];

test('places of open cells that settle nothing of one another', () => {
  const cells = cellsOf(APART);
  const board = new Board({rows: 6, columns: 6, cells});
  assert.deepEqual(placesOf(board), [[0, 1, 6, 7], [28, 29, 34, 35]]);
  assert.deepEqual(elsewhere(placesOf(board)), [[28, 29, 34, 35], [0, 1, 6, 7]]);
  assert.deepEqual(
      placesOf(board, () => false),
      [[0, 1, 6, 7, 28, 29, 34, 35]],
      'all in one where there is no time'
  );
  const fixed = board.holding([28, 29, 34, 35]);
  assert.deepEqual(placesOf(fixed), [[0, 1, 6, 7]], 'given, the other place is settled');
  assert.ok(
      fixed.moves.every(({codes}) => codes.every((code) => ![28, 29, 34, 35].includes(code >> 4))),
      'and stays as it is'
  );
  assert.deepEqual(
      placesOf(new Board(
          {rows: 6, columns: 6, cells: cellsOf(APART.map((row) => row.replace('b', '.')))}
      )),
      [[0, 1, 6, 7]]
  );
});

// A session's texts for these two corners: line logic by the plain solver, and another picture
// where that leaves a corner open, which is all that there is to guess in a picture with such
// corners.
function sessionOfCorners(cells) {
  const shown = cells.slice();
  const pins = new Set();
  const index = (words) => (Number(words[1]) - 1) * 6 + Number(words[2]) - 1;
  const narrowing = () => settled({rows: 6, columns: 6}, shown, pins);
  const calls = {
    paint: (words) => {
      assert.ok(!pins.has(index(words)), 'no given cell is painted');
      shown[index(words)] = '.ab'.indexOf(words[3]);
      return 'ok';
    },
    pin: (words) => {
      pins.add(index(words));
      return 'ok';
    },
    unpin: (words) => {
      pins.delete(index(words));
      return 'ok';
    },
    allow: () => 'ok',
    map: () => mapOf(narrowing()),
    verdict: () => (narrowing().openCells().length ? 'undecided 300' : 'unique'),
  };
  return (lines) => lines.map((line) => `${calls[line.split(' ')[0]](line.split(' '))}\n`).join('');
}

test('each place is mended by itself, and the best of all together mend the whole', async () => {
  const cells = cellsOf(APART);
  const [ofPlaces, wholes] = [[], []];
  let named = null;
  await repair(
      {
        board: new Board({rows: 6, columns: 6, cells}),
        goal: 'lines',
        say: sessionOfCorners(cells),
        seconds: Infinity
      },
      {
        found: (one) => wholes.push(one),
        placed: (places, one) => {
          named = places;
          if (one) ofPlaces.push(one);
        },
      }
  );
  assert.deepEqual(named, [[0, 1, 6, 7], [28, 29, 34, 35]]);
  const after = (changes, at) => {
    const painted = cells.slice();
    for (const {index: place, colour} of changes) painted[place] = colour;
    const {masks} = settled({rows: 6, columns: 6}, painted);
    return named[at].filter((place) => masks[place] & (masks[place] - 1));
  };
  for (const at of [0, 1]) {
    const own = ofPlaces.filter(({place}) => place === at);
    assert.ok(own.length > 1, `several for place ${at + 1}`);
    for (const {cells: changes} of own)
      assert.deepEqual(after(changes, at), [], `place ${at + 1} is settled`);
  }
  assert.equal(wholes[0].cells.length, 2, 'one cell for each place, found first');
});
