'use strict';

// The page: takes a file, asks the library about it, and shows the answers.

// The reports, in the order in which they are shown. A library without a call has no such report.
const REPORTS = [
  { call: 'show', shows: 'what the image is', numbers: [0] },
  { call: 'verify', shows: 'the verdict on each checksum and each digest', numbers: [] },
  { call: 'check', shows: 'what in the image is not protected, and what its signatures do not cover', numbers: [0] },
  { call: 'list', shows: 'what the image holds, and where', numbers: [] },
  { call: 'describe', shows: 'what the image means, without the layout of the file', numbers: [] },
];
const KINDS = { legacy: 'legacy image', fit: 'flattened image tree (FIT)' };

// How much is shown: bytes of a report, and regions of a map. The last line of a report of `verify` is shorter than LAST_LINE.
const MOST_TEXT = 0x40000;
const MOST_REGIONS = 200;
const LAST_LINE = 256;

const state = { module: null, turn: 0, shown: null };

// The sections of an image that is accepted.

function show(...elements) {
  byId('result').append(...elements);
}

/** The name of a file as the program prints it: what is not graphic ASCII, and `%`, as `%` and two digits for each byte. */
function shownName(name) {
  const isShown = (byte) => byte > 0x20 && byte < 0x7f && byte !== 0x25;
  const escaped = (byte) => `%${byte.toString(16).toUpperCase().padStart(2, '0')}`;
  return [...new TextEncoder().encode(name)].map((byte) => (isShown(byte) ? String.fromCharCode(byte) : escaped(byte))).join('');
}

function dateOf(seconds) {
  return `${new Date(1000 * seconds).toISOString().slice(0, 19).replace('T', ' ')} UTC`;
}

function shownField([name, value]) {
  const shown = { kind: () => KINDS[value], time: () => `${value} (${dateOf(Number(value))})` };
  return [name, name in shown ? shown[name]() : value];
}

function countLines(output) {
  return output.reduce((count, byte) => count + (byte === 10 ? 1 : 0), 0);
}

function verifyInWords({ output, problem }) {
  const counts = problem ? [] : countsOf(linesOf(textOf(output.subarray(-LAST_LINE))).at(-1));
  return problem || (counts.length > 0 ? verdictCells(counts.map(([verdict, count]) => [count, verdict])) : 'no digests');
}

function checkInWords({ output, problem }) {
  const count = countLines(output);
  return problem || (count === 0 ? graded('good', 'no concerns') : graded('open', inWords(count, 'concern')));
}

/** A text in the colour of a grade. What it says does not depend on the colour. */
function graded(grade, text) {
  return element('span', { class: grade }, text);
}

/** Lists of words, each in the colour of the verdict that is its last word. */
function verdictCells(lists) {
  const cells = lists.map((words) => graded(gradeOf(words.at(-1)), words.join(' ')));
  return element('span', {}, ...cells.flatMap((each, at) => (at === 0 ? [each] : [', ', each])));
}

function summarySection(name, library, lines, reports) {
  const fields = [
    ['file', name],
    ['size', inWords(library.file.length, 'byte')],
    ...fieldsOf(lines).map(shownField),
    ['verify', verifyInWords(reports.get('verify'))],
    ['check', checkInWords(reports.get('check'))],
  ];
  return element('dl', {}, ...fields.map(([key, value]) => element('div', {}, element('dt', {}, key), element('dd', {}, value))));
}

function mapSection(regions, length) {
  const drawn = regions.slice(0, MOST_REGIONS);
  const more = regions.length - drawn.length;
  const rows = regions.map(({ name, start, end }) => [start, end, end - start, name]);
  return section('Map of the file',
    element('figure', {}, mapOf('Map of the file. The table below has the same regions.', drawn, length),
      element('figcaption', {},
        'Above are the blocks of the file, below its payloads, by their offsets. The map is not to scale: small regions can be seen.',
        more > 0 ? ` ${more} more regions are not drawn.` : '')),
    element('details', {}, element('summary', {}, 'The regions as a table'), tableOf(['#Offset', '#End', '#Size', 'Region'], rows)));
}

/** The bytes of a part or an image: those of the file at the place that the library returns. */
function payloadOf(library, kind, name) {
  const answer = kind === 'part' ? library.findPart(Number(name)) : library.findImage(bytesOfName(name));
  if (answer.status !== DONE) {
    throw new CallError(`${name} is not extracted`);
  }
  return library.file.subarray(answer.value, answer.value + answer.size);
}

/** The last cells of the row of a part or an image. */
function placeCells(library, { kind, name, size, offset }) {
  const saved = kind === 'part' ? `part${name}` : name;
  return size === undefined ? ['none', '', ''] : [size, offset, saveLink('Extract', saved, () => payloadOf(library, kind, name))];
}

function partsSection(library, parts) {
  const rows = parts.map((part) => [part.name, ...placeCells(library, part)]);
  return section('Parts', tableOf(['Part', '#Size', '#Offset', 'Payload'], rows));
}

function imagesSection(library, images, reports) {
  const types = typesOf(linesOf(reports.get('describe').text));
  const addresses = addressesOf(linesOf(reports.get('describe').text));
  const verdicts = verdictsOf(linesOf(reports.get('verify').text));
  const notes = notesOf(linesOf(reports.get('check')?.text ?? ''));
  const rows = images.map((image) => [
    image.name,
    (types.get(image.name) ?? []).join(', '),
    ...ADDRESSES.map((property) => addresses.get(`${property} ${image.name}`) ?? ''),
    verdictCells([...(verdicts.get(image.name) ?? []), ...(notes.get(image.name) ?? [])]),
    ...placeCells(library, image),
  ]);
  return section('Images', tableOf(['Image', 'Type', 'Load', 'Entry', 'Digests', '#Size', '#Offset', 'Payload'], rows));
}

function configurationsSection(configurations, preferred) {
  const lists = ({ key, images, problem }) => `${key}: ${problem || images.join(', ')}`;
  const rows = configurations.map(({ name, keys }) => [name + (name === preferred ? ' (default)' : ''), keys.map(lists).join('; ')]);
  return section('Configurations', tableOf(['Configuration', 'Lists'], rows));
}

/** For each line of the report of `check` the place that it is about: the name of a report and the number of a line, if it is shown. */
function subjectsOf(reports) {
  const lines = new Map([...reports].map(([call, { text }]) => [call, text.split('\n')]));
  const find = ([call, words]) => [call, lines.get(call)?.findIndex((line) => `${line} `.startsWith(`${words} `)) ?? -1];
  return linesOf(reports.get('check')?.text ?? '').map((concern) => placesOf(concern).map(find).find(([, at]) => at >= 0));
}

/** The lines of a report: verdicts have their colours, concerns are links, and what these lead to has an id. */
function reportLines(call, text, subjects) {
  const ids = new Set(subjects.flatMap((subject) => (subject?.[0] === call ? [subject[1]] : [])));
  return textOfLines(text, (line, at) => {
    if (call === 'check') {
      return subjects[at] ? linkTo(subjects[at].join('-'), line) : undefined;
    }
    const [, , , verdict, ...rest] = line.split(' ');
    const grade = call === 'verify' && rest.length === 1 ? { class: gradeOf(verdict) } : {};
    const id = ids.has(at) ? { id: `${call}-${at}` } : {};
    return call === 'verify' || ids.has(at) ? element('span', { ...grade, ...id }, line) : undefined;
  });
}

function reportSection({ call, shows }, name, { text, output, problem }, subjects) {
  const isOpen = call !== 'describe';
  const rest = output.length <= MOST_TEXT ? '' : element('p', { class: 'quiet' },
    `The first ${inWords(text.length, 'byte')} of ${output.length}. `, saveLink('Save all', `${name}.${call}.txt`, () => output));
  return element('details', isOpen ? { open: '' } : {},
    element('summary', {}, element('b', {}, call), ` ${shows}`),
    element('pre', { id: call, tabindex: 0 }, ...(problem || text === '' ? [problem || '(nothing)'] : reportLines(call, text, subjects))),
    rest);
}

/** What differs between the image that is shown and another one. */
function comparisonSection(name, other, { text, output, problem, value, file }) {
  const lines = textOfLines(text, (line) => element('span', { class: line.startsWith('+') ? 'good' : 'bad' }, line));
  const verdict = value === 1 ? graded('good', 'Both mean the same thing.')
    : `${inWords(countLines(output), 'line')} differ: those after - are of ${name} only, those after + of ${other} only.`;
  const rest = text.length < output.length ? saveLink('Save all', `${name}.compare.txt`, () => output) : '';
  const said = problem ? `${file === 1 ? name : other}: ${problem}` : verdict;
  const made = section(`Compared with ${other}`, element('p', {}, said, ' ', rest),
    text === '' ? '' : element('pre', { id: 'compare', tabindex: 0 }, ...lines));
  made.id = 'comparison';
  return made;
}

/** Shows an image that is accepted. If the listing is cut, the end of the last payload is not known. */
function showAccepted(name, library, reports) {
  const lines = linesOf(reports.get('list').text);
  const isCut = reports.get('list').output.length > MOST_TEXT;
  const regions = regionsOf(library.file, lines).filter(({ kind }) => !isCut || kind !== 'unused');
  const contents = contentsOf(lines);
  show(summarySection(name, library, lines, reports), mapSection(regions, library.file.length));
  if (fieldOf(lines, 'kind') === 'fit') {
    show(imagesSection(library, contents, reports), configurationsSection(configurationsOf(lines), fieldOf(lines, 'default')));
  } else {
    show(partsSection(library, contents));
  }
  const shown = REPORTS.filter(({ call }) => reports.has(call));
  const subjects = subjectsOf(reports);
  show(section('Reports', ...shown.map((report) => reportSection(report, name, reports.get(report.call), subjects))));
}

/** Shows that an image is refused: the line that the program prints, what it means, and the place in the file. */
function showRefused(line, explanation, offset, length) {
  const fault = { name: line, kind: 'fault', start: offset, end: offset };
  const map = offset <= length && length > 0 ? element('figure', {}, mapOf(`The place in the file: ${line}`, [fault], length)) : '';
  show(element('section', {},
    element('div', { class: 'refusal', id: 'refusal' },
      element('p', {}, 'The image is refused: ', element('code', {}, line)),
      explanation ? element('p', {}, explanation) : ''),
    map));
}

// The work.

/** Lets the browser show what changed. */
function pause() {
  return new Promise((resolve) => {
    setTimeout(resolve, 10);
  });
}

/** The beginning of an output, up to the end of a line, as text. */
function beginningOf(output) {
  const end = output.length > MOST_TEXT ? output.lastIndexOf(10, MOST_TEXT - 1) + 1 || MOST_TEXT : output.length;
  return textOf(output.subarray(0, end));
}

function messageOf(error) {
  return error instanceof RangeError || error.name === 'NotReadableError'
    ? 'The file cannot be read, or is too large for the memory of the browser.' : error.message;
}

/** Why an answer has no output, or nothing. */
function problemOf(library, answer) {
  const problems = {
    [DONE]: () => '',
    [REFUSED]: () => library.refusal(answer),
    [OUT_OF_MEMORY]: () => 'This page has run out of memory.',
  };
  return answer.status in problems ? problems[answer.status]() : `status ${answer.status}`;
}

/** A report: its output, the beginning of it as text, and why there is none if there is none. `ask` returns the answer of the library. */
function reportOf(library, ask) {
  try {
    const answer = ask();
    return { ...answer, text: beginningOf(answer.output), problem: problemOf(library, answer) };
  } catch (error) {
    return { text: '', output: new Uint8Array(0), problem: messageOf(error) };
  }
}

/** The reports of the library, the listing first. */
function reportsOf(library) {
  const isList = ({ call }) => call === 'list';
  return [...REPORTS.filter(isList), ...REPORTS.filter((report) => !isList(report) && library.has(report.call))];
}

/** Asks for the reports and shows them. Without a listing there are no others. A file that is opened meanwhile ends this. */
async function examine(name, library, turn) {
  const reports = new Map();
  const { length } = library.file;
  for (const report of reportsOf(library)) {
    say(`${name}: ${report.call} ..`);
    await pause();
    if (turn !== state.turn) {
      return;
    }
    const answer = reportOf(library, () => library.report(report.call, ...report.numbers));
    if (report.call === 'list' && answer.problem) {
      say(`${name}: ${answer.status === REFUSED ? inWords(length, 'byte') : answer.problem}`);
      if (answer.status === REFUSED) {
        showRefused(answer.problem, library.explanation(answer.cause), answer.offset, length);
      }
      return;
    }
    reports.set(report.call, answer);
  }
  say('');
  showAccepted(name, library, reports);
  state.shown = { name, library };
  byId('other').disabled = false;
}

/** Compares the image that is shown with another one. */
async function compareWith(blob, other) {
  const { turn, shown } = state;
  if (shown === null) {
    return;
  }
  byId('comparison')?.remove();
  say(`${other}: compare ..`);
  await pause();
  try {
    const bytes = new Uint8Array(blob.size > LIMIT ? 0 : await blob.arrayBuffer());
    const { name, library } = shown;
    const answer = blob.size > LIMIT ? { text: '', output: bytes, problem: `TooLarge at ${LIMIT}` }
      : reportOf(library, () => library.compare(bytes));
    if (turn === state.turn) {
      say('');
      byId('result').firstElementChild.after(comparisonSection(name, other, answer));
    }
  } catch (error) {
    say(`${other}: ${messageOf(error)}`);
  }
}

/** Reads a file and shows what it holds. */
async function openFile(blob, name) {
  state.turn += 1;
  const { turn } = state;
  state.shown = null;
  byId('result').replaceChildren();
  byId('other').disabled = true;
  say(`${name}: ${inWords(blob.size, 'byte')}`);
  if (blob.size > LIMIT) {
    showRefused(`TooLarge at ${LIMIT}`, '', LIMIT, 0);
    return;
  }
  await pause();
  try {
    const library = new Library(state.module, new Uint8Array(await blob.arrayBuffer()));
    await examine(name, library, turn);
  } catch (error) {
    if (turn === state.turn) {
      say(`${name}: ${messageOf(error)}`);
    }
  }
}

// What the user does.

/** The bytes that an element has in Base64. */
function bytesOf({ textContent }) {
  return Uint8Array.from(atob(textContent), (character) => character.charCodeAt(0));
}

function openExample() {
  const example = byId('example');
  openFile(new Blob([bytesOf(example)]), example.dataset.name);
}

/** Opens a file, and compares it with the second one if there is one. */
async function takeFiles([file, other]) {
  if (file) {
    await openFile(file, shownName(file.name));
  }
  if (other) {
    compareWith(other, shownName(other.name));
  }
}

function listenToInput(input, take) {
  // Without this the same file could not be chosen again.
  input.addEventListener('click', () => {
    input.value = '';
  });
  input.addEventListener('change', () => take(input.files));
}

function listenToDrops(area) {
  document.addEventListener('dragover', (event) => {
    event.preventDefault();
    area.classList.add('over');
  });
  document.addEventListener('dragleave', () => area.classList.remove('over'));
  document.addEventListener('drop', (event) => {
    event.preventDefault();
    area.classList.remove('over');
    takeFiles(event.dataTransfer.files);
  });
}

function start() {
  try {
    state.module = new WebAssembly.Module(bytesOf(byId('module')));
    byId('version').textContent = new Library(state.module, new Uint8Array(0)).version();
  } catch (error) {
    say(`This browser does not run the library: ${error.message}`);
    return;
  }
  listenToInput(byId('file'), takeFiles);
  listenToInput(byId('other'), ([other]) => other && compareWith(other, shownName(other.name)));
  listenToDrops(byId('drop'));
  byId('show-example').addEventListener('click', openExample);
  byId('file').disabled = false;
  byId('show-example').disabled = false;
  say('');
  if (location.hash === '#example') {
    openExample();
  }
}

start();
