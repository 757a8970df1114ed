'use strict';

// What the texts of the library say. docs/CLI.md has each line of a listing, of a description and of a report of `verify`.

const VERDICTS = ['good', 'bad', 'unknown-algorithm', 'no-payload', 'malformed'];
const VERDICT_FIELDS = 5;
const IMAGES = '/images/';
const CONFIGURATIONS = '/configurations/';
const TYPES = ['type', 'arch', 'os', 'compression'];
const ADDRESSES = ['load', 'entry'];
const NOTES = ['skipped-hash', 'unhashed', 'weak-hash'];

/** The lines of a text, each as a list of its fields. */
function linesOf(text) {
  return text.split('\n').filter((line) => line !== '').map((line) => line.split(' '));
}

/** The lines of a listing that are a field of the image and its value, as pairs. */
function fieldsOf(lines) {
  return lines.filter((line) => line.length === 2 && line[0] !== 'config');
}

/** The value of a field of the image, or nothing. */
function fieldOf(lines, name) {
  return (lines.find((line) => line[0] === name) ?? [])[1];
}

/** The parts or images of a listing. An image without a payload has no size and no offset. */
function contentsOf(lines) {
  const contents = [];
  for (const [kind, name, ...rest] of lines) {
    if (kind === 'part' || kind === 'image') {
      const place = rest[0] === 'size' ? { size: Number(rest[1]), offset: Number(rest.at(-1)) } : {};
      contents.push({ kind, name, ...place });
    }
  }
  return contents;
}

/** The configurations of a listing, each with what it lists under its keys. */
function configurationsOf(lines) {
  const configurations = new Map();
  for (const [first, name, key, result, ...rest] of lines) {
    if (first === 'config') {
      configurations.set(name, []);
    } else if (first === 'key') {
      const isGood = result === 'ok';
      configurations.get(name)?.push({ key, images: isGood ? rest : [], problem: isGood ? '' : [result, ...rest].join(' ') });
    }
  }
  return [...configurations].map(([name, keys]) => ({ name, keys }));
}

/** Adds a value to those for a key of a map. */
function addTo(map, key, value) {
  map.set(key, [...(map.get(key) ?? []), value]);
}

/** What each image is, by its name: the values of some of its properties in the lines of a description. */
function typesOf(lines) {
  const found = new Map();
  for (const [first, path, property, ...value] of lines) {
    if (first === 'property' && path.startsWith(IMAGES) && TYPES.includes(property)) {
      addTo(found, path.slice(IMAGES.length), { place: TYPES.indexOf(property), value: value.join(' ').replaceAll('"', '') });
    }
  }
  const inOrder = (values) => values.sort((one, other) => one.place - other.place).map(({ value }) => value);
  return new Map([...found].map(([name, values]) => [name, inOrder(values)]));
}

/** A value of a description as a number, if it has 4 or 8 bytes. It is printed as texts if its bytes are some. */
function numberOf(value) {
  const digits = (character) => character.charCodeAt(0).toString(16).padStart(2, '0');
  const characters = ([, text]) => [...text.replace(/\\(.)/g, '$1'), '\0'];
  const texts = [...value.matchAll(/"((?:[^"\\]|\\.)*)"/g)];
  const number = texts.length > 0 ? `0x${texts.flatMap(characters).map(digits).join('')}` : value;
  return [10, 18].includes(number.length) ? number : value;
}

/** The load address and the entry point of each image that has one, by its name, in the lines of a description. */
function addressesOf(lines) {
  const found = new Map();
  for (const [first, path, property, ...value] of lines) {
    if (first === 'property' && path.startsWith(IMAGES) && ADDRESSES.includes(property)) {
      found.set(`${property} ${path.slice(IMAGES.length)}`, numberOf(value.join(' ')));
    }
  }
  return found;
}

/** The verdicts on each image, by its name, in the lines of a report of `verify`: each an algorithm and a word. */
function verdictsOf(lines) {
  const verdicts = new Map();
  for (const [image, , algorithm, verdict] of lines.filter((line) => line.length === VERDICT_FIELDS)) {
    addTo(verdicts, image, [algorithm, verdict]);
  }
  return verdicts;
}

/** The kinds of concerns about the hash nodes of each image that no verdict shows, by its name, in the lines of a report of `check`. */
function notesOf(lines) {
  const notes = new Map();
  for (const [kind, image] of lines.filter(([kind]) => NOTES.includes(kind))) {
    addTo(notes, image, [kind]);
  }
  return notes;
}

/** How a verdict is: `good`, `bad`, or `open` if nothing was compared or if it is a kind of concerns. */
function gradeOf(verdict) {
  return { good: 'good', bad: 'bad', malformed: 'bad' }[verdict] ?? 'open';
}

/** The places that a line of `check` is about, the best first: the name of a report and the first words of a line of it. */
function placesOf([kind, name, second, path]) {
  const image = ['describe', `node ${IMAGES}${name}`];
  const configuration = ['describe', `node ${CONFIGURATIONS}${name}`];
  const signature = ['describe', `node ${CONFIGURATIONS}${name}/${second}`];
  const places = {
    'bad-hash': [['verify', `${name} ${second}`]],
    'skipped-hash': [['verify', `${name} ${second}`]],
    'unhashed': [image],
    'weak-hash': [['verify', name]],
    'bad-list': [['list', `key ${name} ${second}`]],
    'missing': [['list', `key ${name} ${second}`]],
    'unsigned': [configuration],
    'uncovered': [['describe', `node ${path}`]],
    'foreign': [['describe', `node ${path}`], signature],
    'unit-address': [['describe', `node ${name}`]],
    'bad-default': [['list', 'default'], ['describe', 'node /configurations']],
    'trailing': [['list', 'unused'], ['list', 'total-size']],
  };
  return places[kind] ?? [signature];
}

/** How many verdicts of each kind a report of `verify` has, by its last line. That on a legacy image has two good ones and no such line. */
function countsOf(lastLine) {
  const [first, ...counts] = lastLine;
  const pairs = first === 'summary' ? VERDICTS.map((verdict) => [verdict, counts[counts.indexOf(verdict) + 1]]) : [['good', '2']];
  return pairs.filter(([, count]) => count !== '0');
}
