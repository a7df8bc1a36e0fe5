// Dialogs: a title, content and buttons in the browser's own dialog, which keeps the focus and
// closes by Escape.

import {$, make} from '../base/elements.js';
import {phrase} from '../texts/phrase.js';

/**
 * A button of a dialog. Who presses the main one submits the form.
 * @param {{name: string, main?: boolean, isPlain?: boolean}} button
 * @param {() => any} press
 */
const buttonOf = ({name, main, isPlain}, press) => make(
    'button',
    {
      type: main ? 'submit' : 'button',
      class: main && !isPlain ? 'main' : null,
      onclick: main ? null : press
    },
    name
);

// Shows a dialog from its title on, also where what got the focus lies further below. What is typed
// into a field that has it replaces the text there.
function showFront(dialog, heading) {
  if (dialog.scrollTop) {
    heading.tabIndex = -1;
    heading.focus();
    dialog.scrollTop = 0;
  }
  if (document.activeElement instanceof HTMLInputElement) document.activeElement.select();
}

/**
 * Opens a dialog and resolves to the value of the button that closed it, or to null for Escape or
 * Cancel. `content` is an element or a text; `buttons` are {name, value, main, test}: where `test`
 * gives a text, that is shown and the dialog stays; so it does where it gives true. The main one
 * is coloured, unless it `isPlain` as the content has what is chosen.
 * @param {{title: string, content?: any, wide?: boolean, buttons?: {name: string, value: any,
 *     main?: boolean, isPlain?: boolean, test?: () => any}[]}} what
 */
export function openDialog(
    {title, content = '', buttons = [{name: 'OK', value: true, main: true}], wide = false}
) {
  const heading = make('h2', {id: 'dialog-title'}, title);
  const wrong = make('p', {class: 'wrong', role: 'alert'});
  const form = make('form', {method: 'dialog', novalidate: true});
  const dialog =
      make('dialog', {'aria-labelledby': 'dialog-title', class: wide ? 'wide' : null}, form);
  const row = make('div', {class: 'buttons'});
  form.append(heading, make('div', {class: 'content'}, content), wrong, row);
  return new Promise((resolve) => {
    let chosen = null;
    const press = async (button) => {
      wrong.textContent = '';
      const found = (await button.test?.()) || '';
      wrong.textContent = found === true ? '' : found;
      if (found) return;
      chosen = typeof button.value === 'function' ? button.value() : button.value;
      dialog.close();
    };
    if (!buttons.some((button) => button.value === null))
      row.append(
          make('button', {type: 'button', onclick: () => dialog.close()}, phrase('view.cancel'))
      );
    row.append(...buttons.map((button) => buttonOf(button, () => press(button))));
    form.addEventListener('submit', (event) => {
      event.preventDefault();
      const main = buttons.find((button) => button.main);
      if (main) press(main);
    });
    form.addEventListener('input', () => {
      wrong.textContent = '';
    });  // it was said of what is changed now
    dialog.addEventListener('close', () => {
      dialog.remove();
      resolve(chosen);
    });
    $('dialogs').append(dialog);
    dialog.showModal();
    showFront(dialog, heading);
  });
}

/** The dialogs that are open. */
export const openDialogs =
    () => [...document.querySelectorAll('dialog')].filter((dialog) => dialog.open);

/** Asks yes or no. */
export async function confirmDialog(title, text, yes = 'OK') {
  return (await openDialog({title, content: text, buttons: [{name: yes, value: true, main: true}]})
         ) === true;
}
