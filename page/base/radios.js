// Groups of radio buttons.

/** Marks the button of a group that is chosen; Tab comes to that one. */
export function markRadio(group, isChosen) {
  for (const button of group.children) {
    button.setAttribute('aria-checked', isChosen(button));
    button.tabIndex = isChosen(button) ? 0 : -1;
  }
}

/** A group of radio buttons: a click or an arrow chooses; `pick` hears which of them it was. */
export function radioGroup(group, pick) {
  group.addEventListener('click', (event) => {
    const button = event.target.closest('button');
    if (button) pick(button, false);
  });
  group.addEventListener('keydown', (event) => {
    const step = {ArrowDown: 1, ArrowRight: 1, ArrowUp: -1, ArrowLeft: -1}[event.key];
    if (!step) return;
    const buttons = [...group.querySelectorAll('button')];
    event.preventDefault();
    event.stopPropagation();
    const next =
        buttons.at((buttons.indexOf(event.target.closest('button')) + step) % buttons.length);
    pick(next, true);
    next.focus();
  });
}
