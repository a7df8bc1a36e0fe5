// What a link opens: a puzzle in the address's fragment, to be changed, or to be solved by the
// player alone.

import {$, say} from '../base/elements.js';
import {on} from '../base/events.js';
import {cleanName} from '../base/words.js';
import {bench} from '../engine/bench.js';
import {readFragment} from '../formats/link.js';
import {faultText, openDoc} from '../library/open.js';
import {showFileName} from '../library/saving.js';
import {openPlay, playSays} from '../play/play.js';
import {phrase} from '../texts/phrase.js';
import {confirmDialog, openDialogs} from '../view/dialogs.js';

// Shows what a link leads to, once that is open; behind the player there is nothing to be seen.
function showBody(isPlayer) {
  document.body.classList.toggle('player', isPlayer);
  document.body.style.visibility = '';
}

// Whether open dialogs may close, and what was done in them go. The player keeps that.
const mayClose = async () => openDialogs().every(({id}) => id === 'play-room') ||
    confirmDialog(phrase('library.openAnotherPicture'),
                  phrase('start.dialogCloses'),
                  phrase('library.open'));

/**
 * Opens what the fragment holds, if it holds a puzzle: it goes to the library by its first stroke.
 * Says whether one is not opened.
 */
async function openFragment() {
  const isAlone = location.hash.startsWith('#play=');
  const wasAlone = document.body.classList.contains('player');  // what is behind it is a solution
  let isOpen = false;
  try {
    const found = await readFragment(location.hash);
    if (!found) return false;
    const name = isAlone ? phrase('play.puzzle') : found.doc.about.title || 'shared';
    const leave = () => {
      document.body.classList.remove('player');  // so that a player that closes stays closed
      document.body.style.visibility = isAlone || wasAlone ? 'hidden' : '';
      for (const dialog of openDialogs()) dialog.close();
    };
    isOpen = (await mayClose()) &&
        (await openDoc(found.doc, {name: cleanName(name), isBlank: true, leave}));
  } catch (fault) {
    say(phrase('start.linkCouldNotOpened', {fault: faultText(fault)}), 'alarm');
  }
  const isPlayer = isOpen ? isAlone : wasAlone;
  showBody(isPlayer);
  if (isPlayer && (isOpen || !$('play-room')?.open)) await openPlay({isAlone: true});
  if (isPlayer && !isOpen) playSays($('said').textContent);
  return !isOpen;
}

// The tab of the player gets the title now, which could have given the picture away, and the site
// that has the page in a frame hears it.
function hearSolved() {
  if (document.body.classList.contains('player'))
    bench.name = cleanName(bench.state.about.title || bench.name);
  showFileName();
  if (window.parent !== window) window.parent.postMessage({nonobench: 'solved'}, '*');
}

/**
 * Opens the link that the page was called by, and then those that follow in the same tab. Behind
 * one that is not opened, the address is again that before it.
 */
export function startLinked() {
  let address = location.href;
  /** @type {Promise<any>} */
  let opened = openFragment();
  const follow = async () => {
    const {href} = location;
    if (!(await openFragment()))
      address = href;
    else if (location.href === href)
      history.replaceState(null, '', address);
  };
  on('solved', hearSolved);
  addEventListener('hashchange', () => {
    opened = opened.then(follow);
  });
  return opened;
}
