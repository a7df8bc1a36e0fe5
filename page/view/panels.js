// The tool bar, and the panels for the cell that is pointed at and for its row and column.

import {$, make, say, write} from '../base/elements.js';
import {on} from '../base/events.js';
import {markRadio, radioGroup} from '../base/radios.js';
import {capital, lineName} from '../base/words.js';
import {MOST_CELLS} from '../document/limits.js';
import {iconOf, withIcon} from '../draw/icons.js';
import {sheet} from '../draw/sheet.js';
import {bench} from '../engine/bench.js';
import {clueText} from '../engine/opening.js';
import {phrase} from '../texts/phrase.js';
import {addAction, makeMenu} from './actions.js';
import {cellText, clueInto, cursor} from './grid.js';
import {setDown} from './select.js';
import {TOOLS, sendStroke, tools, useSymmetry, useTool} from './tools.js';

const SYMMETRY_NAMES = {
  none: phrase('view.noSymmetry'),
  across: phrase('view.leftRight'),
  down: phrase('view.topBottom'),
  both: phrase('view.both'),
  quarter: phrase('view.quarterTurns')
};
// Tools that belong together: they draw, fill, select, and mark or ask.
const GROUPS = [
  ['pencil', 'line', 'rectangle', 'box'],
  ['bucket', 'recolour'],
  ['wand', 'select'],
  ['pin', 'lock', 'why']
];
const rail = {
  row: make('div', {id: 'tool-row', role: 'radiogroup', 'aria-label': phrase('view.tool')}),
  symmetry: make('button', {type: 'button', id: 'symmetry'}),
  list: make('div', {
    id: 'symmetries',
    class: 'menu',
    role: 'menu',
    popover: 'auto',
    'aria-label': phrase('view.symmetry')
  })
};

function toolButton(name) {
  const tool = TOOLS[name];
  addAction({id: `tool-${name}`, name: tool.name, key: tool.key, run: () => useTool(name)});
  const button = make(
      'button', {type: 'button', role: 'radio', 'data-tool': name, 'aria-keyshortcuts': tool.key}
  );
  return withIcon(button, name, tool.name, tool.key);
}

/** Makes the rail of tools, with the symmetry of the pens at its end. */
export function makeToolBar() {
  for (const group of GROUPS) {
    rail.row.append(...group.map(toolButton));
    rail.row.lastChild.classList.add('last');
  }
  makeMenu(rail.symmetry, rail.list, symmetryItems);
  $('tools').append(rail.row, rail.symmetry, rail.list);
  on('symmetry', showSymmetry);
  radioGroup(rail.row, (button) => useTool(button.dataset.tool));
  on('tool', () => showTool().scrollIntoView({block: 'nearest', inline: 'nearest'})
  );  // on a phone the rail is wider than the window
  showTool();
  showSymmetry();
}

const symmetryItems = () => Object.entries(SYMMETRY_NAMES)
                                .map(
                                    ([kind, name]) => make(
                                        'button',
                                        {
                                          type: 'button',
                                          role: 'menuitemradio',
                                          tabindex: '-1',
                                          'data-symmetry': kind,
                                          'aria-checked': String(kind === tools.symmetry),
                                          onclick: () => {
                                            rail.list.hidePopover();
                                            useSymmetry(kind);
                                          }
                                        },
                                        iconOf(kind),
                                        make('span', {}, name),
                                        kind === tools.symmetry ? iconOf('tick') : ''
                                    )
                                );

function showSymmetry() {
  const name = `${phrase('view.symmetry')}: ${SYMMETRY_NAMES[tools.symmetry]}`;
  const isOn = tools.symmetry !== 'none';
  withIcon(rail.symmetry, isOn ? tools.symmetry : 'across', name, 'm');
  rail.symmetry.classList.toggle('on', isOn);
}

// Shows which tool is taken, and returns its button.
function showTool() {
  markRadio(rail.row, ({dataset}) => dataset.tool === tools.name);
  const wand = rail.row.querySelector('[data-tool=wand]');
  if (tools.adds)
    withIcon(wand, 'wand-adds', phrase('view.wandAdds'), TOOLS.wand.key);
  else
    withIcon(wand, 'wand', TOOLS.wand.name, TOOLS.wand.key);
  $('hint').textContent = TOOLS[tools.name].hint;
  sheet.stage.dataset.tool = tools.name;
  return rail.row.querySelector('[aria-checked=true]');
}

const panel = {
  text: make('p', {id: 'cell-text'}),
  row: make('p', {id: 'row-clue', class: 'clue'}),
  column: make('p', {id: 'column-clue', class: 'clue'}),
  asked: 0,
  at: null,
};

export function makeCellPanel() {
  $('cell').append(make('h2', {}, phrase('view.cell')), panel.text, panel.row, panel.column);
  on('cursor', showCell);
  on('shown', () => showCell());
  on('pointed', (at) => showCell(at ?? cursor));
}

// At most once a frame: pointers move more often.
export function showCell(at = cursor) {
  panel.at = at;
  if (panel.asked) return;
  panel.asked = requestAnimationFrame(() => {
    panel.asked = 0;
    const {state} = bench;
    if (!state) return;
    const [row, col] =
        [Math.min(panel.at.row, state.rows - 1), Math.min(panel.at.col, state.columns - 1)];
    write(panel.text, cellText(row, col));
    fillClue(panel.row, capital(lineName(true, row)), state.clues.rows[row]);
    fillClue(panel.column, capital(lineName(false, col)), state.clues.columns[col]);
    showLineNames();
  });
}

export function fillClue(element, name, blocks) {
  const key =
      `${name} ${clueText(blocks)} ${sheet.geometry.letters} ${bench.state.colours.join(';')}`;
  if (element.dataset.key === key) return;
  element.dataset.key = key;
  clueInto(element, name, blocks);
}

/**
 * Keys in a field that an edge of the panels cuts move nothing: browsers would scroll it into
 * sight, under the pointer.
 */
export function keepStill() {
  const panels = $('panels');
  const stay = ({target, key = ''}) => {
    const {scrollTop} = panels;
    const [field, frame] = [target, panels].map((one) => one.getBoundingClientRect());
    const isSeen = field.bottom > frame.top && field.top < frame.bottom;
    if (isSeen && target.matches('[type=text], [type=number]') && !/^(Tab|Page)/.test(key))
      requestAnimationFrame(() => {
        panels.scrollTop = scrollTop;
      });
  };
  for (const name of ['keydown', 'beforeinput']) panels.addEventListener(name, stay);
}

/** What is done to rows and columns, in words. */
export const LINE_TEXTS = {
  row: {
    before: phrase('view.insertRowAbove'),
    after: phrase('view.insertRowBelow'),
    gone: phrase('view.deleteRow')
  },
  column: {
    before: phrase('view.insertColumnLeft'),
    after: phrase('view.insertColumnRight'),
    gone: phrase('view.deleteColumn')
  },
};

// The buttons of the line at the cursor: a row, or a column.
function lineButtons(word) {
  const isRow = word === 'row';
  const {before, after, gone} = LINE_TEXTS[word];
  const at = () => (isRow ? cursor.row : cursor.col) + 1;
  const button = (text, label, lines) => make(
      'button',
      {
        type: 'button',
        'aria-label': label,
        onclick: () => {
          setDown();
          sendStroke([lines()]);
        }
      },
      text
  );
  const [first, second] = isRow ? [phrase('view.above'), phrase('view.below')] :
                                  [phrase('view.left'), phrase('view.right')];
  return [
    button(first, before, () => `insert ${word} ${at()}`),
    button(second, after, () => `insert ${word} ${at() + 1}`),
    withIcon(button('', gone, () => `delete ${word} ${at()}`), 'delete', gone),
    ...swapping(word, at)
  ];
}

// What swaps the line at the cursor with another one.
function swapping(word, at) {
  const other = make('input', {
    type: 'number',
    min: 1,
    max: MOST_CELLS,
    'aria-label': word === 'row' ? phrase('view.otherRow') : phrase('view.otherColumn')
  });
  const swap = () => swapLines(word, at(), Number(other.value));
  const button = make('button', {type: 'button', onclick: swap}, phrase('view.swap'));
  return [button, other];
}

export function makeLinesPanel() {
  $('lines').append(make('h2', {}, phrase('view.rowsColumns')));
  for (const word of ['row', 'column']) {
    const name = make('b', {id: `${word}-name`});
    const group = {class: 'lines', role: 'group', 'aria-labelledby': `${word}-name`};
    $('lines').append(make('div', group, name, ...lineButtons(word)));
  }
}

function swapLines(word, at, other) {
  const count = word === 'row' ? bench.state.rows : bench.state.columns;
  if (!other || other > count) return say(phrase('view.giveNumber', {count}), 'alarm');
  if (other === at) return null;
  setDown();
  return sendStroke([`swap ${word} ${at} ${other}`]);
}

function showLineNames() {
  write($('row-name'), capital(lineName(true, cursor.row)));
  write($('column-name'), capital(lineName(false, cursor.col)));
}
