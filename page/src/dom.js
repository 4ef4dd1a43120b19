// Elements of the document.

const SVG = 'http://www.w3.org/2000/svg';

/** @param {string} id @returns {any} */
export function byId(id) {
  const element = document.getElementById(id);
  if (!element) throw Error(`no element ${id}`);
  return element;
}

/** @param {Element} element @param {Record<string, string | number | boolean>} attributes
 * @param {(Node | string)[]} children */
function fill(element, attributes, children) {
  for (const [name, value] of Object.entries(attributes)) {
    if (value === true) element.setAttribute(name, '');
    else if (value !== false) element.setAttribute(name, String(value));
  }
  element.append(...children);
  return element;
}

/** An element of HTML.
 * @param {string} tag
 * @param {Record<string, string | number | boolean>} [attributes]
 * @param {(Node | string)[]} children @returns {any} */
export function html(tag, attributes = {}, ...children) {
  return fill(document.createElement(tag), attributes, children);
}

/** An element of SVG.
 * @param {string} tag
 * @param {Record<string, string | number | boolean>} [attributes]
 * @param {(Node | string)[]} children @returns {any} */
export function svg(tag, attributes = {}, ...children) {
  return fill(document.createElementNS(SVG, tag), attributes, children);
}

/** A sentence that is an answer of the core.
 * @param {(Node | string)[]} children */
export function coreSays(...children) {
  const label = { class: 'sign', role: 'img', 'aria-label': 'The proved core:' };
  const sign = html('span', label, '\u25c6');
  return html('p', { class: 'core' }, sign, ' ', ...children);
}

/** A sentence that is arithmetic of the page.
 * @param {(Node | string)[]} children */
export const pageSays = (...children) => html('p', { class: 'own' }, ...children);

/** @param {string} text @param {string} [look] */
export const bold = (text, look = '') => html('b', look ? { class: look } : {}, text);

/** @param {string} act @param {string} text @param {boolean} [first] */
export function button(act, text, first = false) {
  return html('button', { type: 'button', 'data-act': act, class: first && 'go' }, text);
}
