'use strict';

// Runs the scripts of the page without a browser: the calls of the library over the vectors of tests/conformance, and the regions of each
// accepted file.
//
//   node suite.js PAGE RUNS EXAMPLES
//
// RUNS is a directory that `tests/conformance/run --export` made, and EXAMPLES that of the examples. The last line is `N passed, M failed`.

const fs = require('node:fs');
const path = require('node:path');
const vm = require('node:vm');

const [, , pagePath, runsPath, examplesPath] = process.argv;
const html = fs.readFileSync(pagePath, 'utf8');
const compiled = new WebAssembly.Module(Buffer.from(/id="module">([^<]*)</.exec(html)[1], 'base64'));
const scripts = [...html.matchAll(/<script>([^]*?)<\/script>/g)].map((match) => match[1]);
const NAMES = ['Library', 'MemoryError', 'CallError', 'textOf', 'bytesOfName', 'linesOf', 'contentsOf', 'configurationsOf', 'typesOf',
  'verdictsOf', 'addressesOf', 'numberOf', 'notesOf', 'gradeOf', 'placesOf', 'countsOf', 'regionsOf', 'scaleOf', 'rowsOf', 'DONE', 'REFUSED', 'LIMIT', 'DEPTH'];
// Those for the library, for its texts and for regions use nothing of a browser.
const page = vm.runInThisContext(`${scripts.slice(0, 3).join('\n')}\n;({ ${NAMES.join(', ')} })`);

let passed = 0;
let failed = 0;

function check(name, holds, detail = '') {
  if (holds) {
    passed += 1;
  } else {
    failed += 1;
    console.log(`FAILED: ${name} ${detail}`);
  }
}

function equal(name, found, wanted) {
  const [one, other] = [found, wanted].map((value) => JSON.stringify(value));
  check(name, one === other, `\n  ${one}\n  ${other}`);
}

function fails(name, type, call) {
  try {
    call();
    check(name, false, 'no exception');
  } catch (error) {
    check(name, error instanceof type, error.stack);
  }
}

// The module.

function checkModule() {
  equal('the module has no imports', WebAssembly.Module.imports(compiled), []);
  const exported = WebAssembly.Module.exports(compiled).map(({ name }) => name);
  const declared = fs.readFileSync(path.join(__dirname, '../../../include/bootimg.h'), 'utf8')
    .match(/^uint32_t bootimg_\w+/gm).map((line) => line.split(' ')[1]);
  equal('it exports what the header declares, a memory and what the page allocates by', exported.sort(),
    [...declared, 'memory', 'page_alloc', 'page_free'].sort());
  for (const [at, script] of scripts.entries()) {
    check(`script ${at} of the page can be read`, attempt(() => new vm.Script(script)) instanceof vm.Script);
  }
}

// The vectors.

// The calls for the arguments of a run, or nothing if the page has no call for them.
function callOf([command, option, name, ...rest]) {
  const reports = { list: [], verify: [], describe: [], check: [0], normalise: [0] };
  if (option === undefined && command in reports) {
    return (library) => library.report(command, ...reports[command]);
  }
  if (command === 'normalise' && option === '--external' && name === undefined) {
    return (library) => library.report('normalise', 1);
  }
  if (command === 'compare' && option === '-' && rest.length === 0 && isFile(name)) {
    return (library) => withOther(library.compare(fs.readFileSync(path.join(runsPath, name))), name);
  }
  if (command !== 'extract') {
    return undefined;
  }
  if (option === '--part' && /^[0-9]{1,9}$/.test(name) && rest.length === 0) {
    return (library) => withPayload(library, library.findPart(Number(name)));
  }
  if (option === '--image' && rest.length === 0) {
    return (library) => withPayload(library, library.findImage(new TextEncoder().encode(name)));
  }
  return option === '--escaped' && name === '--image' && rest.length === 1 && !/^$|%(?![0-9A-F]{2})|[^!-~]/.test(rest[0])
    ? (library) => withPayload(library, library.findImage(page.bytesOfName(rest[0]))) : undefined;
}

function withPayload(library, answer) {
  const size = answer.status === page.DONE ? answer.size : 0;
  return { ...answer, output: library.file.subarray(answer.value, answer.value + size) };
}

function isFile(name) {
  return name !== undefined && name !== '-' && fs.existsSync(path.join(runsPath, name));
}

// The program names the file that is not standard input.
function withOther(answer, name) {
  return { ...answer, refused: answer.file === 2 ? `${name}: ` : '' };
}

// What the program does for this answer: its status, its line on standard error and its output. The line about a selection that
// selects nothing is not in the library.
function asProgram(library, command, answer) {
  const output = Buffer.from(answer.output).toString('hex');
  if (answer.status === page.REFUSED) {
    return { status: 2, errors: (answer.refused ?? '') + library.refusal(answer), output: '' };
  }
  if (answer.status !== page.DONE) {
    return { status: 2, errors: null, output };
  }
  const note = command === 'normalise' && answer.value > 0 ? `note: ${answer.value} signature nodes carried, not checked` : '';
  return { status: ['verify', 'check', 'compare'].includes(command) ? 1 - answer.value : 0, errors: note, output };
}

// The library does not return what the notes on where payloads are say.
function isSame(run, found) {
  const wanted = run.errors.split('\n').filter((line) => !/^note: .*payloads/.test(line)).join('\n');
  const isErrorsSame = found.errors === null ? !/ at [0-9]+$/.test(wanted) && wanted !== '' : found.errors === wanted;
  return found.status === run.status && isErrorsSame && (run.output === null || found.output === run.output);
}

// What a call returns, or the message of its exception.
function attempt(call) {
  try {
    return call();
  } catch (error) {
    return { message: error.message };
  }
}

// The runs of one file, with room for an output and without it.
function checkFile(name, runs, counts) {
  const file = fs.readFileSync(path.join(runsPath, name));
  const libraries = [new page.Library(compiled, file), new page.Library(compiled, file, 0)];
  for (const run of runs) {
    const [command] = run.arguments;
    for (const library of libraries) {
      const found = attempt(() => asProgram(library, command, callOf(run.arguments)(library)));
      check(`${run.group}: ${name}: ${run.arguments.join(' ')}`, isSame(run, found), JSON.stringify(found));
    }
    counts.set(command, (counts.get(command) ?? 0) + 1);
  }
  checkRegions(libraries[0]);
}

function checkRuns(runs) {
  const byFile = new Map();
  for (const run of runs.filter(({ arguments: words }) => callOf(words))) {
    byFile.set(run.file, [...(byFile.get(run.file) ?? []), run]);
  }
  const counts = new Map();
  for (const [name, ofFile] of byFile) {
    checkFile(name, ofFile, counts);
  }
  const wanted = { list: 300, verify: 250, describe: 450, check: 450, normalise: 600, extract: 550, compare: 30 };
  for (const [command, least] of Object.entries(wanted)) {
    check(`there are at least ${least} runs of ${command}`, counts.get(command) >= least, counts.get(command));
  }
}

// The regions.

function checkRegions(library) {
  const answer = library.report('list');
  if (answer.status !== page.DONE) {
    return;
  }
  const lines = page.linesOf(page.textOf(answer.output));
  const { length } = library.file;
  const regions = page.regionsOf(library.file, lines);
  check('each region is inside the file', regions.every(({ start, end }) => start <= end && end <= length && start >= 0),
    JSON.stringify(regions));
  const scale = page.scaleOf(regions, length, 1000, 14);
  const places = regions.flatMap(({ start, end }) => [start, end]).sort((one, other) => one - other).map(scale);
  check('the scale has the order of the offsets', places.every((place, at) => place >= (places[at - 1] ?? 0) && place <= 1000.001), places);
  for (const { kind, name, size, offset } of page.contentsOf(lines)) {
    const found = kind === 'part' ? library.findPart(Number(name)) : library.findImage(page.bytesOfName(name));
    equal(`the payload of ${name} is where the listing has it`, [found.value, found.size], size === undefined ? [0, 0] : [offset, size]);
  }
}

function regionsOfExample(name) {
  const file = fs.readFileSync(path.join(examplesPath, name));
  const library = new page.Library(compiled, file);
  const lines = page.linesOf(page.textOf(library.report('list').output));
  return page.regionsOf(library.file, lines).map((region) => [region.name, region.start, region.end]);
}

// The offsets are those that fdtdump prints of the headers, and those of the format.
function checkExamples() {
  equal('the regions of board.itb', regionsOfExample('board.itb'), [
    ['header', 0, 40], ['reservations', 40, 56], ['structure', 56, 1624], ['kernel-1', 184, 652], ['ramdisk-1', 896, 925],
    ['fdt-1', 1112, 1218], ['strings', 1624, 1740],
  ]);
  equal('the regions of two-parts.uimage', regionsOfExample('two-parts.uimage'), [
    ['header', 0, 64], ['part table', 64, 76], ['part 0', 76, 91], ['part 1', 92, 106],
  ]);
  equal('the regions of kernel-padded.uimage', regionsOfExample('kernel-padded.uimage').slice(0, 2), [
    ['header', 0, 64], ['part 0', 64, 3974],
  ]);
  equal('regions that overlap are in different rows', page.rowsOf([
    { start: 0, end: 9 }, { start: 3, end: 5 }, { start: 4, end: 6 }, { start: 9, end: 12 }, { start: 10, end: 11 },
  ], 2), [0, 1, 1, 0, 1]);
}

function checkTexts() {
  const lines = (text) => page.linesOf(text.replaceAll('; ', '\n'));
  equal('what configurations list', page.configurationsOf(lines('config a; key a kernel ok k; key a fdt missing 1; config b; default a')), [
    { name: 'a', keys: [{ key: 'kernel', images: ['k'], problem: '' }, { key: 'fdt', images: [], problem: 'missing 1' }] },
    { name: 'b', keys: [] },
  ]);
  const description = 'node /images/k; property /images/k arch "arm"; property /images/k type "kernel"';
  equal('what images are', [...page.typesOf(lines(description))], [['k', ['kernel', 'arm']]]);
  const counts = 'summary good 1 bad 1 unknown-algorithm 0 no-payload 0 malformed 0';
  const report = lines(`k hash-1 crc32 good 00; summary hash-2 md5 bad 11; ${counts}`);
  equal('verdicts', [...page.verdictsOf(report)], [['k', [['crc32', 'good']]], ['summary', [['md5', 'bad']]]]);
  equal('how they are', ['good', 'bad', 'malformed', 'no-payload', 'weak-hash'].map(page.gradeOf), ['good', 'bad', 'bad', 'open', 'open']);
  const addresses = 'property /images/k load 0x00008000; property /images/k entry "   "; property /images/k/h load 0x01';
  equal('addresses', [...page.addressesOf(lines(addresses))], [['load k', '0x00008000'], ['entry k', '0x20202000'], ['load k/h', '0x01']]);
  equal('numbers', ['"a\\"\\\\"', '"ab" "c" "de"', '"abc"', '"abcdefg"', '0x0000000180000000', '"ab"', ''].map(page.numberOf),
    ['0x61225c00', '0x6162006300646500', '0x61626300', '0x6162636465666700', '0x0000000180000000', '"ab"', '']);
  equal('concerns about images', [...page.notesOf(lines('weak-hash k crc32; bad-hash k h md5 bad; skipped-hash k h; missing c fdt 0'))],
    [['k', [['weak-hash'], ['skipped-hash']]]]);
  equal('the place of a concern', page.placesOf(['uncovered', 'c', 's', '/images/k']), [['describe', 'node /images/k']]);
  equal('the place of another', page.placesOf(['strings', 'c', 's']), [['describe', 'node /configurations/c/s']]);
  equal('how many there are', page.countsOf(report.at(-1)), [['good', '1'], ['bad', '1']]);
  equal('the bytes of a name', [...page.bytesOfName('a%2D%FF')], [97, 45, 255]);
}

// Failures.

function checkFailures() {
  const file = fs.readFileSync(path.join(examplesPath, 'board.itb'));
  const library = new page.Library(compiled, file);
  const before = library.exports;
  fails('a call that leaves the memory ends by an exception', page.CallError,
    () => library.call('list', 0xfffffff0n, 64n, page.LIMIT, page.DEPTH, 16n, 0n));
  check('the instance is then a new one', library.exports !== before);
  equal('which answers', library.report('verify').value, 1);
  fails('a file that is larger than the memory is found', page.MemoryError, () => new page.Library(compiled, { length: 2 ** 32 }));
  fails('also one of more than the heap gives', page.MemoryError, () => new page.Library(compiled, { length: 2 ** 40 }));
  equal('an empty file is refused', library.refusal(new page.Library(compiled, new Uint8Array(0)).report('list')), 'Truncated at 0');
}

checkModule();
checkRuns(JSON.parse(fs.readFileSync(path.join(runsPath, 'runs.json'), 'utf8')));
checkExamples();
checkTexts();
checkFailures();
console.log(`${passed} passed, ${failed} failed`);
process.exitCode = failed === 0 ? 0 : 1;
