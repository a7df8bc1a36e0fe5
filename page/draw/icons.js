// The icons of the page, drawn in one style: lines of one weight on a field of 20 by 20.

import {svgPart} from '../base/elements.js';

const PATHS = {
  // tools
  pencil: 'M3.5 16.5l1-4 9-9 3 3-9 9zM11.5 5.5l3 3',
  line: 'M4 16L16 4',
  rectangle: 'M3.5 5h13v10h-13z',
  box: 'M3.5 5h13v10h-13z',
  bucket: 'M8.5 3l7 7-6 6-6.5-6.5zM3.5 9.5h12M17 13v3',
  recolour: 'M3.5 3.5h8v8h-8zM8.5 14v2.5h8v-8H14',
  wand: 'M3.5 16.5l8-8M13.5 2.5v4M11.5 4.5h4M16 9.5v3M14.5 11h3M7 3v3M5.5 4.5h3',
  'wand-adds': 'M3.5 16.5l8-8M13.5 2.5v4M11.5 4.5h4M14.5 11.5v5M12 14h5',
  select:
      'M3.5 6.5v-3h3M9 3.5h2M13.5 3.5h3v3M16.5 9v2M16.5 13.5v3h-3M11 16.5H9M6.5 16.5h-3v-3M3.5 11V9',
  pin: 'M10 3l6 7-6 7-6-7z',
  lock: 'M4.5 9h11v7.5h-11zM7 9V6.5a3 3 0 016 0V9',
  why: 'M6.5 7.5a3.5 3.5 0 117 0c0 2.5-3.5 2.5-3.5 5M10 15.8v.2',
  // symmetry of the pens
  none: 'M10 3v2M10 7.3v2M10 11.6v2M10 16v1M7 6L3.5 14H7z',
  across: 'M10 3v14M7 6L3.5 14H7zM13 6l3.5 8H13z',
  down: 'M3 10h14M6 7l8-3.5V7zM6 13l8 3.5V13z',
  both: 'M10 3v14M3 10h14M7 7H4M13 7h3M7 13H4M13 13h3',
  quarter: 'M15.2 7a6 6 0 100 6M15.2 3v4h-4M10 8v4M8 10h4',
  // history and view
  undo: 'M7 4L3.5 7.5 7 11M3.5 7.5H12a4.25 4.25 0 010 8.5H7.5',
  redo: 'M13 4l3.5 3.5L13 11M16.5 7.5H8A4.25 4.25 0 008 16h4.5',
  plus: 'M10 4v12M4 10h12',
  minus: 'M4 10h12',
  fit: 'M3.5 7.5v-4h4M12.5 3.5h4v4M16.5 12.5v4h-4M7.5 16.5h-4v-4',
  picture: 'M3.5 4h13v12h-13zM3.5 13.5l3.5-4 3.5 4 2-2 4 4M13 7.2v.1',
  // verdicts
  unique: 'M4 10.5l4 4 8-9',
  ambiguous: 'M4 7.5h12M4 12.5h12M13.5 3.5l-7 13',
  undecided: 'M6.5 7.5a3.5 3.5 0 117 0c0 2.5-3.5 2.5-3.5 5M10 15.8v.2',
  searching: 'M4.5 10h.1M10 10h.1M15.5 10h.1',
  blank: 'M10 4a6 6 0 110 12 6 6 0 010-12z',
  other: 'M3.5 7H16l-3-3M16.5 13H4l3 3',
  search: 'M8.5 3.5a5 5 0 110 10 5 5 0 010-10zM12.5 12.5l4 4',
  // all over the page
  close: 'M5 5l10 10M15 5L5 15',
  more: 'M4.5 10h.1M10 10h.1M15.5 10h.1',
  help:
      'M7.5 8a2.5 2.5 0 115 0c0 1.8-2.5 1.8-2.5 3.6M10 14v.1M10 2.5a7.5 7.5 0 110 15 7.5 7.5 0 010-15z',
  delete: 'M4 6h12M8 6V4h4v2M5.5 6l.8 10.5h7.4L14.5 6M8.5 9v4.5M11.5 9v4.5',
  tick: 'M4 10.5l4 4 8-9',
  back: 'M16.5 10h-13M9 4.5L3.5 10 9 15.5',
  forth: 'M3.5 10h13M11 4.5l5.5 5.5-5.5 5.5',
  earlier: 'M12 5l-5 5 5 5',
  later: 'M8 5l5 5-5 5',
  above: 'M5 12l5-5 5 5',
  below: 'M5 8l5 5 5-5',
  sort: 'M6.5 8L10 4.5 13.5 8M6.5 12l3.5 3.5 3.5-3.5',
  play: 'M6.5 4l9 6-9 6z',
  pause: 'M7 4.5v11M13 4.5v11',
  wipe: 'M8.5 16.5H16M3.5 12l7-8 5.5 5-6.5 7.5H7.5z',
  hint: 'M7.5 13.5c0-2-2.5-2.5-2.5-5.5a5 5 0 0110 0c0 3-2.5 3.5-2.5 5.5zM8 16.5h4',
  check: 'M3.5 10l3 3 4.5-5M10.5 13l.5.5 5.5-6.5',
  again: 'M4 10a6 6 0 106-6H6M8.5 1.5L6 4l2.5 2.5',
  walk: 'M4 15.5h3v-4h3v-4h3v-4h3',
  print: 'M6 7.5v-4h8v4M6 13.5H3.5v-6h13v6H14M6 11.5h8v5H6z',
  save: 'M10 3.5v9M6 9l4 4 4-4M3.5 16.5h13',
  link: 'M8.5 11.5l3-3M9 6l1.5-1.5a3.5 3.5 0 015 5L14 11M11 14l-1.5 1.5a3.5 3.5 0 01-5-5L6 9',
};

// What is filled of an icon, besides its lines.
const FILLED = {
  box: 'M6 7.5h8v5H6z',
  more: [3, 8.5, 14].map((x) => `M${x} 10a1.5 1.5 0 103 0 1.5 1.5 0 10-3 0z`).join('')
};

/** The icon of a name. It is seen, and no more: what has it has a name of its own. */
export const iconOf = (name) => svgPart(
    'svg',
    {viewBox: '0 0 20 20', width: 20, height: 20, class: 'icon', 'aria-hidden': 'true'},
    svgPart('path', {
      d: PATHS[name],
      fill: 'none',
      stroke: 'currentColor',
      'stroke-width': 1.5,
      'stroke-linecap': 'round',
      'stroke-linejoin': 'round'
    }),
    ...(FILLED[name] ? [svgPart('path', {d: FILLED[name], fill: 'currentColor'})] : [])
);

/** Gives a button an icon in place of a text; its name is heard, and read where the mouse rests. */
export function withIcon(button, icon, name, key = '') {
  button.replaceChildren(iconOf(icon));
  button.classList.add('icons');
  button.setAttribute('aria-label', name);
  button.title = key ? `${name} (${key})` : name;
  return button;
}
