// Elements of the page.

export const byId = id => document.getElementById(id);

/** Makes an element with these properties and children. Names that begin with data- or aria- are attributes. */
export function element(name, properties = {}, ...children) {
  const made = document.createElement(name);
  for (const [key, value] of Object.entries(properties)) {
    if (/^(data|aria)-|^role$|^scope$|^for$/.test(key)) {
      made.setAttribute(key, value);
    } else {
      made[key] = value;
    }
  }
  made.append(...children);
  return made;
}

/** Sets the text of an element only if it differs, so that a screen reader reads it once. */
export function say(at, text) {
  if (at.textContent !== text) {
    at.textContent = text;
  }
}

/** Shows a text that may be absent. */
export function sayIf(at, text) {
  at.hidden = text === null;
  say(at, text ?? '');
}

/** Keeps this many children, each filled by its index. */
export function fill(at, count, make, show) {
  while (at.childElementCount > count) {
    at.lastElementChild.remove();
  }
  while (at.childElementCount < count) {
    at.append(make());
  }
  Array.from(at.children).forEach(show);
}

/** Moves the focus from a button that was pressed to another one, if the first is disabled or hidden by now. */
export function passFocus(from, to) {
  if (from.disabled || from.getClientRects().length === 0) {
    to.focus({ preventScroll: true });
  }
}

/** Calls a function when the browser has time, and returns a function that calls it off. Safari has no idle callbacks. */
export function whenIdle(run) {
  if (typeof requestIdleCallback !== 'function') {
    const timer = setTimeout(run, 50);
    return () => clearTimeout(timer);
  }
  const asked = requestIdleCallback(run, { timeout: 300 });
  return () => cancelIdleCallback(asked);
}
