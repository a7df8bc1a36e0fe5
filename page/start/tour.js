// The tour: five marks on the balloon, one after the other, each beside what it is about.

import {$, buttonOf, make} from '../base/elements.js';
import {on} from '../base/events.js';
import {withIcon} from '../draw/icons.js';
import {openDoc} from '../library/open.js';
import {phrase} from '../texts/phrase.js';
import {addAction, placeBeside} from '../view/actions.js';
import {openDialogs} from '../view/dialogs.js';
import {docOfExample} from './start.js';

const action = (id) => $('verdict-do').querySelector(`[data-action="${id}"]`);

// The marks, each with what it is about: the first of its elements that is seen; and whether that
// is behind More on a phone.
const MARKS = [
  [phrase('start.tourPaint'), () => [$('palette').querySelector('[aria-checked="true"]')]],
  [phrase('start.tourRead'), () => [$('verdict')]],
  [phrase('start.tourOther'), () => [action('other'), $('verdict-open')], true],
  [phrase('start.tourFix'), () => [action('fix'), $('verdict-open')]],
  [phrase('start.tourPublish'), () => [action('publish'), action('fix'), $('verdict-open')]]
];

const APART = 12;  // pixels between a mark and the panel
const tour = {
  part: null,
  at: 0
};

const targetOf = (parts) => parts().find((one) => one?.offsetParent) ?? $('stage');

// Beside the panel, which says more of what the mark is about; on a phone below what is said there.
function place(target) {
  placeBeside(tour.part, target === $('verdict') ? $('audit') : target);
  const {left, width} = $('panels').getBoundingClientRect();
  if (!width) return;
  const {offsetWidth: wide, offsetHeight: high, style} = tour.part;
  const {top} = target.getBoundingClientRect();
  style.left = `${left - wide - APART}px`;
  style.top = `${Math.max(APART, Math.min(top, innerHeight - high - APART))}px`;
}

function openMore(isWanted) {
  const more = $('verdict-open');
  if (more.checkVisibility() && (more.ariaExpanded === 'true') !== isWanted) more.click();
}

function showMark() {
  const [text, parts, isMore = false] = MARKS[tour.at];
  openMore(isMore);
  const isLast = tour.at === MARKS.length - 1;
  for (const one of document.querySelectorAll('.toured')) one.classList.remove('toured');
  const target = targetOf(parts);
  target.classList.add('toured');
  tour.part.replaceChildren(
      make(
          'p',
          {class: 'tour-head'},
          make('b', {}, phrase('import.ofAll', {count: tour.at + 1, all: MARKS.length})),
          withIcon(
              buttonOf('tour-end', '', endTour, {class: 'quiet'}), 'close', phrase('view.close')
          )
      ),
      make('p', {id: 'tour-text'}, text),
      buttonOf(
          'tour-next',
          isLast ? phrase('view.close') : phrase('start.tourNext'),
          isLast ? endTour : nextMark,
          {class: 'main'}
      )
  );
  place(target);
  $('tour-next').focus({preventScroll: true});
}

function nextMark() {
  tour.at += 1;
  showMark();
}

function endTour() {
  for (const one of document.querySelectorAll('.toured')) one.classList.remove('toured');
  tour.part?.remove();
  tour.part = null;
}

async function startTour() {
  openDialogs().at(-1)?.close();
  const source = document.querySelector('script[data-example]');
  const doc = source && docOfExample(source);
  if (!doc || !(await openDoc(doc, {name: phrase('start.balloon')}))) return;
  endTour();
  tour.at = 0;
  tour.part = make(
      'section', {id: 'tour', class: 'menu', popover: 'manual', 'aria-label': phrase('start.tour')}
  );
  tour.part.addEventListener('keydown', (event) => {
    if (event.key !== 'Escape') return;
    event.stopPropagation();
    endTour();
  });
  $('dialogs').append(tour.part);
  tour.part.showPopover();
  showMark();
}

/** Adds the tour to the menu Help. */
export function startTours() {
  addAction({
    id: 'tour',
    name: phrase('start.tour'),
    place: 'help',
    group: 'help',
    needs: false,
    run: startTour
  });
  on('judged', () => {
    if (tour.part) place(targetOf(MARKS[tour.at][1]));
  });
}
