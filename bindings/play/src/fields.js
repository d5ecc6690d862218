// Fields, and what they refuse: a text beside the field says why.

import { element, sayIf } from './dom.js';
import { grouped } from './words.js';

let count = 0;

// The place of the text: the page's own, or one that is made behind the field, and not in its label, which is its name.
function placed(field) {
  const made = document.getElementById(`${field.id}-why`) ?? element('span', { className: 'why', id: `why-${(count += 1)}`, role: 'status', hidden: true });
  if (!made.isConnected) {
    (field.closest('label') ?? field).after(made);
  }
  field.setAttribute('aria-describedby', [field.getAttribute('aria-describedby'), made.id].filter(Boolean).join(' '));
  return made;
}

const places = new WeakMap();

/** Says beside a field why its value is refused; null takes the text away. */
export function refuse(field, reason) {
  if (reason === null && !places.has(field)) {
    return;
  }
  if (!places.has(field)) {
    places.set(field, placed(field));
  }
  field.setCustomValidity(reason ?? '');
  if (reason === null) {
    field.removeAttribute('aria-invalid');
  } else {
    field.setAttribute('aria-invalid', 'true');
  }
  sayIf(places.get(field), reason);
}

/** Returns why a text is no whole number in this range; null if it is one. */
export function whyNoWhole(text, least, most) {
  const range = `a whole number from ${grouped(least)} to ${grouped(most)}`;
  if (!/^\d+$/.test(text)) {
    return text === '' ? `Write ${range}, in digits.` : `Write ${range}, in digits: not ${text}.`;
  }
  const number = BigInt(text);
  return number < BigInt(least) || number > BigInt(most) ? `Write ${range}: ${grouped(number)} is outside.` : null;
}

/**
 * Returns the digits of the whole number in a field. If the field has none, it says so beside the field and returns
 * null.
 */
export function wholeOf(field) {
  const reason = whyNoWhole(field.value, field.min, field.max);
  refuse(field, reason);
  return reason === null ? String(BigInt(field.value)) : null;
}

/** Judges the number in a field anew while it is edited after a refusal. */
export function judgeEdits(field) {
  field.addEventListener('input', () => field.hasAttribute('aria-invalid') && wholeOf(field));
}

// A browser takes minutes to insert 20,000 lines into a text field, and less than a second to set its text.
const LONG_INSERT = 10000;

/** Gives the whole text of a field to `take` when a long text is pasted or dropped, and keeps the browser from inserting it. */
export function insertAtOnce(field, take) {
  field.addEventListener('beforeinput', event => {
    const text = event.data ?? event.dataTransfer?.getData('text/plain') ?? '';
    if (text.length > LONG_INSERT) {
      event.preventDefault();
      const { value, selectionStart, selectionEnd } = field;
      take(value.slice(0, selectionStart) + text.replace(/\r\n?/g, '\n') + value.slice(selectionEnd));
    }
  });
}
