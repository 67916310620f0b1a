/**
 * Elements, of which each text is put as text.
 * @module dom
 */

const SVG = 'http://www.w3.org/2000/svg';

/**
 * @param {string} id
 * @returns {any} the element that the page has
 */
export function byId(id) {
  return document.getElementById(id);
}

/**
 * @param {Element} made
 * @param {Record<string, string|number|boolean|undefined>} attributes none where it is undefined or false
 * @param {(Node|string|null)[]} children
 */
function filled(made, attributes, children) {
  for (const [name, value] of Object.entries(attributes)) {
    if (value !== undefined && value !== false) {
      made.setAttribute(name, value === true ? '' : String(value));
    }
  }
  made.append(...children.filter((child) => child !== null));
  return made;
}

/**
 * An element of the page.
 * @param {string} name
 * @param {Record<string, any>} [attributes]
 * @param {...(Node|string|null)} children
 * @returns {any}
 */
export function make(name, attributes = {}, ...children) {
  return filled(document.createElement(name), attributes, children);
}

/**
 * An element of a drawing.
 * @param {string} name
 * @param {Record<string, any>} [attributes]
 * @param {...(Node|string|null)} children
 * @returns {any}
 */
export function draw(name, attributes = {}, ...children) {
  return filled(document.createElementNS(SVG, name), attributes, children);
}

/**
 * A button that does something.
 * @param {string} text
 * @param {() => void} action
 * @param {Record<string, any>} [attributes]
 */
export function button(text, action, attributes = {}) {
  const made = make('button', { type: 'button', ...attributes }, text);
  made.addEventListener('click', action);
  return made;
}

/**
 * Puts things that can be tried at once, each by a button. Those that are there already stay, and with them the focus.
 * @param {Element} box
 * @param {[string, () => void][]} examples
 */
export function offer(box, examples) {
  const texts = examples.map(([text]) => text).join('\n');
  if (box.dataset.texts !== texts) {
    box.dataset.texts = texts;
    const buttons = examples.map(([text, action]) => button(text, action, { class: 'chip' }));
    box.replaceChildren(...(buttons.length ? ['For example: ', ...buttons] : []));
  }
}

/**
 * Calls a function once nothing was asked for so long.
 * @param {(...given: any[]) => void} call
 * @param {number} milliseconds
 */
export function later(call, milliseconds) {
  let timer = 0;
  return (...given) => {
    clearTimeout(timer);
    timer = setTimeout(() => call(...given), milliseconds);
  };
}

/**
 * Fills a list of suggestions with the names that have a text in them, as many as a person looks at.
 * @param {HTMLInputElement} input
 * @param {() => Iterable<string>} names
 */
export function suggest(input, names) {
  const MOST = 30;
  const list = byId(input.getAttribute('list'));
  const fill = () => {
    const part = input.value.toLowerCase();
    const found = [];
    for (const name of names()) {
      if (name.toLowerCase().includes(part)) {
        found.push(make('option', { value: name }));
        if (found.length === MOST) {
          break;
        }
      }
    }
    list.replaceChildren(...found);
  };
  input.addEventListener('focus', fill);
  input.addEventListener('input', fill);
}
