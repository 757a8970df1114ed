'use strict';

// Elements of the page. Each text is a text node.

const MOST_ROWS = 500;

// The address of what was saved last.
const saved = { url: '' };

function make(namespace, name, attributes, children) {
  const made = document.createElementNS(namespace, name);
  for (const [key, value] of Object.entries(attributes)) {
    made.setAttribute(key, value);
  }
  made.append(...children);
  return made;
}

function element(name, attributes = {}, ...children) {
  return make('http://www.w3.org/1999/xhtml', name, attributes, children);
}

function shape(name, attributes = {}, ...children) {
  return make('http://www.w3.org/2000/svg', name, attributes, children);
}

function byId(id) {
  return document.getElementById(id);
}

/** Says what the page does, or what is wrong. */
function say(text) {
  byId('status').textContent = text;
}

/** A count and what is counted. */
function inWords(count, one) {
  return `${count} ${one}${count === 1 ? '' : 's'}`;
}

function section(title, ...children) {
  return element('section', {}, element('h2', {}, title), ...children);
}

function cell(content, isNumber, name) {
  return element(name, { ...(isNumber ? { class: 'number' } : {}), ...(name === 'th' ? { scope: 'col' } : {}) }, content);
}

/** A table. The titles of columns of numbers begin with `#`. */
function tableOf(titles, rows) {
  const isNumber = titles.map((title) => title.startsWith('#'));
  const row = (cells, name) => element('tr', {}, ...cells.map((content, at) => cell(content, isNumber[at], name)));
  const table = element('table', {},
    element('thead', {}, row(titles.map((title) => title.replace('#', '')), 'th')),
    element('tbody', {}, ...rows.slice(0, MOST_ROWS).map((cells) => row(cells, 'td'))));
  const more = rows.length - MOST_ROWS;
  return element('div', { class: 'scroll' }, table, more > 0 ? element('p', { class: 'quiet' }, `${more} more rows are not shown.`) : '');
}

/** A text whose lines are elements if `lineOf` returns one for the line and its number, and else text. */
function textOfLines(text, lineOf) {
  const parts = [];
  let plain = '';
  for (const [at, line] of text.split(/(?<=\n)/).entries()) {
    const made = lineOf(line, at);
    if (made === undefined) {
      plain += line;
    } else {
      parts.push(plain, made);
      plain = '';
    }
  }
  return [...parts, plain];
}

/** A link to the element with this id, which may be in one that is closed. */
function linkTo(id, text) {
  const link = element('a', { href: `#${id}` }, text);
  link.addEventListener('click', () => {
    const details = byId(id).closest('details');
    if (details) {
      details.open = true;
    }
  });
  return link;
}

/** A link that saves bytes, which `bytes` returns when it is followed, under a name without characters that a system treats apart. */
function saveLink(text, name, bytes) {
  const link = element('a', { href: '#', download: name.replace(/[^A-Za-z0-9._+-]/g, '_').replace(/^\./, '_') }, text);
  link.addEventListener('click', (event) => {
    try {
      URL.revokeObjectURL(saved.url);
      saved.url = URL.createObjectURL(new Blob([bytes()], { type: 'application/octet-stream' }));
      link.href = saved.url;
    } catch (error) {
      event.preventDefault();
      say(error.message);
    }
  });
  return link;
}
