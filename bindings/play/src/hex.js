// Bytes that are written in hexadecimal.

import { grouped } from './words.js';

const SEPARATORS = /[\s,;:]/;

const NONE = 16;

// The value of a digit by its code; NONE for another letter. A loop over codes reads megabytes in milliseconds, where
// a regular expression with a repetition runs out of its stack.
const VALUES = Uint8Array.from({ length: 128 }, (_, code) => {
  const value = parseInt(String.fromCharCode(code), 16);
  return Number.isNaN(value) ? NONE : value;
});

const lineOf = (text, at) => text.slice(0, at).split('\n').length;

function stranger(text, at) {
  const letter = String.fromCodePoint(text.codePointAt(at));
  return `“${letter}” in line ${lineOf(text, at)} is no hexadecimal digit: a byte has two of 0 to 9 and a to f.`;
}

/**
 * Reads bytes in hexadecimal, with spaces, commas, colons and 0x anywhere between them. Returns `{ bytes }`, or
 * `{ why }` if the text is invalid.
 */
export function readHex(text) {
  const bytes = new Uint8Array(text.length >> 1);
  let digits = 0;
  for (let at = 0; at < text.length; at += 1) {
    const code = text.charCodeAt(at);
    const value = code < 128 ? VALUES[code] : NONE;
    if (value === 0 && (text.charCodeAt(at + 1) | 32) === 0x78) {
      at += 1;
    } else if (value !== NONE) {
      bytes[digits >> 1] |= value << (digits % 2 === 0 ? 4 : 0);
      digits += 1;
    } else if (!SEPARATORS.test(text[at])) {
      return { why: stranger(text, at) };
    }
  }
  if (digits % 2 === 1) {
    return { why: `There is an odd number of digits, ${grouped(digits)}, and each byte has two.` };
  }
  return { bytes: bytes.slice(0, digits >> 1) };
}
