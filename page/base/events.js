// The hub of events: what one part of the page tells, and the others hear.

const listeners = new Map();

/** Calls `f` with each value that is told under a name. Returns what ends that. */
export function on(name, f) {
  if (!listeners.has(name)) listeners.set(name, new Set());
  listeners.get(name).add(f);
  return () => listeners.get(name).delete(f);
}

/** Tells a value to all that listen. A listener that fails does not keep it from the others. */
export function tell(name, value) {
  for (const f of listeners.get(name) ?? []) {
    try {
      f(value);
    } catch (fault) {
      console.error(`${name}:`, fault);
    }
  }
}

/**
 * Puts off what the eye does not wait for until the next frame is drawn: what it gives may be
 * called often, and `run` is called once behind that frame. A tab in the background draws none, so
 * it runs when the tab is shown again.
 */
export function behindFrame(run) {
  let isAsked = false;
  const go = () => {
    isAsked = false;
    run();
  };
  return () => {
    if (isAsked) return;
    isAsked = true;
    requestAnimationFrame(() => setTimeout(go));
  };
}
