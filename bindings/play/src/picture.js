// A picture that the library draws, and its text.

import { element } from './dom.js';

// The alternative text of the picture, which contains no markup.
function wordsOf(svg, name) {
  const found = new RegExp(`<${name} id="${name}">([^<]*)</${name}>`).exec(svg);
  return (found?.[1] ?? '').replaceAll('&lt;', '<').replaceAll('&gt;', '>').replaceAll('&amp;', '&').trim();
}

export class Picture {
  #at;
  #words;
  #image = element('img', { decoding: 'async' });
  #address = null;

  constructor(at, words) {
    [this.#at, this.#words] = [at, words];
    // On a narrow screen its words would be too small to read.
    this.fits = matchMedia('(min-width: 900px)').matches;
  }

  get fits() {
    return this.#image.className === 'fit';
  }

  /** Whether the picture has the width of the page instead of its own. */
  set fits(value) {
    this.#image.className = value ? 'fit' : '';
  }

  show(svg) {
    const before = this.#address;
    this.#address = URL.createObjectURL(new Blob([svg], { type: 'image/svg+xml' }));
    this.#image.src = this.#address;
    this.#image.alt = wordsOf(svg, 'title');
    if (before === null) {
      this.#at.replaceChildren(this.#image);
    } else {
      URL.revokeObjectURL(before);
    }
    const lines = wordsOf(svg, 'desc').split('\n').filter(line => line !== '');
    this.#words.replaceChildren(...lines.map(line => element('li', {}, line.replace(/^\d+\. /, ''))));
  }

  clear() {
    if (this.#address !== null) {
      URL.revokeObjectURL(this.#address);
      this.#address = null;
    }
    this.#at.replaceChildren();
    this.#words.replaceChildren();
  }
}
