'use strict';
// What the page asks of the module, and how it shows the answers.
//
// The module is the proved program, without imports: the page lends it memory, and each question goes to an instance of its own,
// in a worker. docs/PROMISES.md says what the page owes it. Texts from files, and what others wrote in them, are only ever put in
// as text; the report of a file stands in a frame in which nothing runs.

const LARGEST = 2n ** 64n - 1n; // the largest heap
const LISTED = 65536n; // so many values of a game a position and a picture go by
const SHOWN = 1000; // so many values are shown where no period is proved, or a long one
const KEPT = 1000000n; // so many values a b-file has at most
const MOVES = 60n; // so many moves of a heap have a button each
const BEANS = 20n; // so many beans of a heap are drawn
const LOAN = 2 ** 26; // what a question is lent at first, in bytes
const ROOM = 2 ** 24; // the room for its answer at first, in bytes
const FILE = 2 ** 30; // the longest file, in bytes
const TEXT = 1000000; // so much of a catalogue is shown, in bytes
const LINES = 100; // so many refuted claims are listed

// ---- the worker

const PAGE = 65536; // the bytes of a page of a module's memory
const OUT_OF_MEMORY = 4; // the fault where the loan was too small

// One call of the module, in an instance of its own. Each value is a number, or a text or a list, which goes over as its address
// and its length. Each piece of memory that is lent has pages of its own, behind what the instance has at its start: so nothing
// overlaps, and all is aligned.
function call({ module, name, values, lines }, loan, room) {
  const { exports } = new WebAssembly.Instance(module);
  const start = exports.memory.buffer.byteLength;
  let end = start;
  const place = (bytes) => {
    const at = end;
    end += Math.max(1, Math.ceil(bytes / PAGE)) * PAGE;
    return at;
  };
  const lent = place(16);
  const whole = place(8);
  const refused = place(8);
  const lists = values.filter((value) => typeof value !== 'bigint').map((value) => ({ value, at: place(value.byteLength) }));
  const out = place(room);
  const heap = place(loan);
  exports.memory.grow(BigInt((end - start) / PAGE));
  const before = new DataView(exports.memory.buffer);
  before.setBigUint64(lent, BigInt(heap), true);
  before.setBigUint64(lent + 8, BigInt(loan), true);
  for (const { value, at } of lists) {
    new Uint8Array(exports.memory.buffer).set(new Uint8Array(value.buffer, value.byteOffset, value.byteLength), at);
  }
  const addressed = lists.map(({ value, at }) => [BigInt(at), BigInt(value.length)]);
  const given = values.flatMap((value) => (typeof value === 'bigint' ? [value] : addressed.shift()));
  const ends = lines ? [whole, refused] : [whole];
  const fault = exports[name](BigInt(lent), ...given, BigInt(out), BigInt(room), ...ends.map(BigInt));
  const after = new DataView(exports.memory.buffer);
  const length = Number(after.getBigUint64(whole, true));
  const text = new TextDecoder().decode(new Uint8Array(exports.memory.buffer, out, Math.min(length, room)));
  return { fault, text, length, refused: Number(after.getBigUint64(refused, true)) };
}

// The answer to a question: asked anew with more room where the text was cut, and with a larger loan where that was too small.
function answer(question) {
  let { loan, room } = question;
  try {
    for (;;) {
      const found = call(question, loan, room);
      if (found.length > room) room = found.length;
      else if (found.fault === OUT_OF_MEMORY) loan *= 4;
      else return found;
    }
  } catch (error) {
    // The browser gives no more memory, or the module has stopped.
    return error instanceof RangeError ? { fault: OUT_OF_MEMORY, text: 'OutOfMemory' } : { fault: -1, text: `The module has stopped: ${error}` };
  }
}

// A worker is made of these functions' text, since a page that was opened from a folder can load no other file.
const WORK = `'use strict';
const PAGE = ${PAGE}, OUT_OF_MEMORY = ${OUT_OF_MEMORY};
${call}
${answer}
onmessage = ({ data }) => postMessage(answer(data));`;

// ---- asking it

class Stopped extends Error {}

// Words of the module for a fault, or a sentence of this page.
class Fault extends Error {}

const at = (id) => document.getElementById(id);
const bytesOf = (text) => new TextEncoder().encode(text);

let compiled; // the module, once it is compiled
let source; // where the worker's text lies
let worker; // the worker that waits or works
let giveUp = null; // ends the question that the worker has
let turn = 0; // the number of the last task
let answered = null; // where its answer is said

function hire() {
  source ??= URL.createObjectURL(new Blob([WORK], { type: 'text/javascript' }));
  worker = new Worker(source);
}

// Stops what is being done. The worker can't be asked to, so it goes, and another one comes.
function stop() {
  if (!giveUp) return;
  worker.terminate();
  hire();
  giveUp(new Stopped());
  giveUp = null;
}

// What the module answers; a fault is thrown.
async function ask(task, name, values, more = {}) {
  const module = await compiled;
  if (task !== turn) throw new Stopped();
  const found = await new Promise((resolve, reject) => {
    giveUp = reject;
    worker.onmessage = ({ data }) => resolve(data);
    worker.onerror = (event) => resolve({ fault: -1, text: `The worker has stopped: ${event.message}` });
    worker.postMessage({ module, name, values, loan: LOAN, room: ROOM, lines: false, ...more });
  });
  giveUp = null;
  if (found.fault !== 0) throw new Fault(found.text);
  return found;
}

// Does a task of some questions, and says so once it takes half a second. A task that begins stops the one before it, which says that
// where it does not answer in its place.
async function perform(told, status, steps) {
  stop();
  turn += 1;
  answered = status;
  const task = turn;
  const began = performance.now();
  const ticking = setInterval(() => task === turn && tick(told, performance.now() - began), 500);
  say(status, '');
  try {
    await steps((...question) => ask(task, ...question));
  } catch (error) {
    if (error instanceof Fault) say(status, inWords(error.message), 'fault');
    else if (!(error instanceof Stopped)) say(status, `The page has failed: ${error}`, 'fault');
    else if (task === turn || answered !== status) say(status, 'Stopped.');
  } finally {
    clearInterval(ticking);
    if (task === turn) at('working').hidden = true;
  }
}

function tick(told, milliseconds) {
  if (at('working').hidden) {
    at('working').hidden = false;
    at('doing').textContent = told;
  }
  at('clock').textContent = `· ${Math.floor(milliseconds / 1000)} s`;
}

// ---- words

function say(status, text, kind = '') {
  status.textContent = text;
  status.className = kind;
}

const FAULTS = {
  'Code Form': 'This is no code: a code is 0 or 4, a point, and digits from 0 to 7, as 0.77.',
  'Code Head': 'In front of the point of a code stands 0 or 4.',
  'Code Digit': 'Behind the point of a code stand digits from 0 to 7.',
  'Code Long': 'A code has at most 16 digits that count.',
  Number: 'The number of values is one from 1 to 4294967296.',
  PastValue: 'A nim-value is above 65535, so the search ends here.',
  'Bfile Form': 'This line of the file is no number and value:',
  'Bfile Order': 'The number in this line of the file is not one more than that before it:',
  'Bfile PastLimit': 'This line of the file is of a heap above 65535:',
  'Bfile Empty': 'The file has no values.',
  'Load Refused': 'The file begins as a state and is none: it is damaged, or cut short.',
  'Merge Refused': 'The file begins as a delta and is none: it is damaged, or cut short.',
  TooLong: 'The file is longer than 1073741824 bytes.',
  OutOfMemory: 'The browser does not give memory enough for this.',
};

// A fault in a sentence, with the words that the program has for it.
function inWords(fault) {
  const [, words, line] = /^(.*?)(?: (\d+))?$/s.exec(fault);
  if (!(words in FAULTS)) return fault;
  return `${FAULTS[words]}${line ? ` ${line}.` : ''} (${fault})`;
}

// ---- a game

// What is asked of: the code, and how many values at most.
function asked() {
  const count = at('count').value.trim();
  if (!/^\d+$/.test(count)) throw new Fault('Number');
  return { code: at('code').value.trim(), count: least(BigInt(count), LARGEST) };
}

const least = (...numbers) => numbers.reduce((one, other) => (other < one ? other : one));
const most = (...numbers) => numbers.reduce((one, other) => (other > one ? other : one));

// The period that a line of a search names, or null.
function periodIn(line) {
  const found = / period (\d+) from (\d+) needs (\d+) values/.exec(line);
  return found && { length: Number(found[1]), start: Number(found[2]), needs: BigInt(found[3]) };
}

function sentenceOf(code, line, period) {
  if (!period) return `${code}: ${/no period.* values/.exec(line)[0].replace('no period', 'no period seen')}.`;
  return `${code} has period ${period.length} from heap ${period.start} on: proved, for every heap, by its first ${period.needs} values.`;
}

// The sentence comes first, then the rows, and then the picture, which takes as long as the search.
async function computeGame(ask) {
  at('game-answer').hidden = true;
  at('figure').hidden = true;
  const { code, count } = asked();
  const line = (await ask('search', [bytesOf(code), count])).text.trim();
  const name = line.slice(0, line.indexOf(' '));
  const period = periodIn(line);
  say(at('period'), sentenceOf(name, line, period));
  const run = period && period.start + 2 * period.length <= 4 * SHOWN ? period : null;
  const shown = run ? BigInt(run.start + 2 * run.length) : least(count, BigInt(SHOWN));
  showRows(valuesIn((await ask('values', [bytesOf(code), shown])).text), run);
  offerBfile(name, code, least(count, KEPT));
  at('game-answer').hidden = false;
  const drawn = least(period ? most(period.needs, least(count, 200n)) : count, LISTED);
  showPicture(name, (await ask('picture', [bytesOf(code), drawn])).text);
  at('figure').hidden = false;
}

const valuesIn = (bfile) => bfile.trimEnd().split('\n').map((line) => Number(line.slice(line.indexOf(' ') + 1)));

// How many values stand in a row: a multiple or a divisor of the period, 20 to 40, as on a site.
function rowLength(period) {
  const lengths = Array.from({ length: 21 }, (_, more) => 20 + more);
  if (!period) return 20;
  if (period.length <= 40) return lengths.find((length) => length % period.length === 0);
  return lengths.reverse().find((length) => period.length % length === 0) ?? 20;
}

// The rows up to the start of the period, and those from it on, of which the first run is marked.
function showRows(values, period) {
  const length = rowLength(period);
  const width = 1 + String(Math.max(...values)).length;
  const start = period ? period.start : values.length;
  const rows = [];
  for (let heap = 0; heap < values.length; ) {
    const end = Math.min(heap + length, heap < start ? start : values.length);
    const marked = period && heap >= start ? Math.min(end, start + period.length) : heap;
    rows.push(rowOf(heap, values.slice(heap, Math.max(heap, marked)), values.slice(Math.max(heap, marked), end), width));
    heap = end;
  }
  at('values').replaceChildren(...rows);
}

function rowOf(heap, marked, others, width) {
  const text = (values) => values.map((value) => String(value).padStart(width)).join('');
  const cell = make('td', {}, ...(marked.length ? [make('mark', {}, text(marked))] : []), text(others));
  return make('tr', {}, make('th', { scope: 'row' }, heap), cell);
}

// An element with these attributes, and these parts: elements, or texts.
function make(tag, attributes, ...parts) {
  const element = document.createElement(tag);
  for (const [name, value] of Object.entries(attributes)) element.setAttribute(name, value);
  element.append(...parts.map((part) => (part instanceof Node ? part : String(part))));
  return element;
}

// The picture is shown as an image, in which nothing runs; its title and description are the words for it.
function showPicture(name, text) {
  const read = new DOMParser().parseFromString(text, 'image/svg+xml');
  const words = ['title', 'desc'].map((tag) => read.querySelector(tag)?.textContent ?? '');
  URL.revokeObjectURL(at('picture').src);
  const address = URL.createObjectURL(new Blob([text], { type: 'image/svg+xml' }));
  Object.assign(at('picture'), { src: address, alt: words.join('. ') });
  Object.assign(at('keep-picture'), { href: address, download: `${name}.svg` });
}

function offerBfile(name, code, count) {
  const sentence = at('period').textContent;
  const keep = async (ask) => {
    const { text } = await ask('values', [bytesOf(code), count]);
    const address = URL.createObjectURL(new Blob([text], { type: 'text/plain' }));
    make('a', { href: address, download: `${name}.txt` }).click();
    setTimeout(() => URL.revokeObjectURL(address), 60000);
    say(at('period'), sentence);
  };
  at('keep-bfile').textContent = `Save ${count} values as a b-file`;
  at('keep-bfile').onclick = () => perform(`Computing the b-file of ${name}`, at('period'), keep);
}

// ---- a position

let played = null; // the position that is played: its code and digits, its heaps, and what was before

// The heaps that are typed.
function heapsIn(text) {
  const words = text.split(/[\s,;+]+/).filter((word) => word);
  const wrong = words.find((word) => !/^\d+$/.test(word) || BigInt(word) > LARGEST);
  if (wrong) throw new Fault(`A heap is a number from 0 to ${LARGEST}, and “${wrong}” is none.`);
  return words.map(BigInt);
}

// The digits of a code that the module has read, the head first.
function digitsOf(code) {
  const [head, digits] = code.split('.');
  return [...(head || '0'), ...digits].map(Number);
}

// By how many values the position is to be looked at: those of its heaps, or where there are not so many, those that prove the period.
async function valuesFor(ask, code, count, heaps) {
  const listed = least(count, LISTED);
  const needed = most(0n, ...heaps) + 1n;
  if (needed <= listed || listed === 0n) return least(needed, count);
  const period = periodIn((await ask('search', [bytesOf(code), listed])).text);
  return period ? period.needs : listed;
}

// What the program says of a position: its value, who wins, and a move where one wins.
async function judge(ask, code, count, heaps) {
  const values = await valuesFor(ask, code, count, heaps);
  const { text } = await ask('position', [bytesOf(code), values, BigUint64Array.from(heaps)]);
  const [first, , third] = text.split('\n');
  const [kind, number] = [first.slice(0, first.lastIndexOf(' ')), Number(first.slice(first.lastIndexOf(' ') + 1))];
  return kind === 'value' ? { value: number, move: moveIn(third) } : { unknown: heaps[number], values };
}

function moveIn(line) {
  const found = /^heap (\d+) of \d+: remove (\d+), leave (.*)$/.exec(line);
  return found && { index: Number(found[1]), removed: Number(found[2]), left: (found[3].match(/\d+/g) ?? []).map(BigInt) };
}

// A move in words, with the heap where there is one.
function inShort({ removed, left }, heap = null) {
  const rest = left.length ? left.join(' and ') : 'nothing';
  if (removed) return `take ${removed}${heap === null ? '' : ` of the heap of ${heap}`}, leave ${rest}`;
  return `split${heap === null ? '' : ` the heap of ${heap}`} into ${rest}`;
}

const asSentence = (words) => `${words[0].toUpperCase()}${words.slice(1)}.`;

async function askPosition(ask) {
  at('play').hidden = true;
  at('hint').hidden = true;
  const { code, count } = asked();
  const heaps = heapsIn(at('heaps').value);
  const judged = await judge(ask, code, count, heaps);
  played = { code, count, digits: digitsOf(code), heaps, told: [], before: [] };
  showJudged(judged);
  at('play-head').textContent = `Play ${code} against the program`;
  showTurn(canMove() ? 'Your move: choose a heap.' : 'There is no move, so you lose.');
  at('play').hidden = 'unknown' in judged;
}

function showJudged(judged) {
  at('hint').hidden = !judged.move;
  if ('unknown' in judged) {
    say(at('winner'), `The nim-value of the heap of ${judged.unknown} is not known: ${judged.values} values prove no period.`);
    return;
  }
  say(at('winner'), `The nim-value is ${judged.value}: who moves next ${judged.value ? 'wins' : 'loses'}.`);
  if (judged.move) at('move').textContent = asSentence(inShort(judged.move, played.heaps[judged.move.index]));
}

// The ways to move in a heap: how many beans are removed, what rests, whether that may be left whole (nothing, or one heap), and up
// to which smaller part it may be split in two.
function waysOf(digits, heap) {
  const ways = digits.map((digit, removed) => {
    const rest = heap - BigInt(removed);
    const whole = removed > 0 && rest >= 0n && (digit & (rest ? 2 : 1)) > 0;
    return { removed, rest, whole, split: digit & 4 && rest > 1n ? rest / 2n : 0n };
  });
  return ways.filter(({ whole, split }) => whole || split > 0n);
}

// The move that leaves this smaller part; 0 leaves the rest whole.
function moveOf(index, { removed, rest }, part) {
  return { index, removed, left: [part, rest - part].filter((heap) => heap) };
}

const canMove = () => played.heaps.some((heap) => waysOf(played.digits, heap).length);

function doMove(who, move) {
  const heap = played.heaps[move.index];
  played.told.push(`${who}: ${inShort(move, heap)}`);
  played.heaps = played.heaps.flatMap((other, index) => (index === move.index ? move.left : [other]));
}

// The heaps as they stand, and what was played.
function showTurn(text) {
  say(at('turn'), text);
  at('moves').hidden = true;
  at('board').inert = false;
  const buttons = played.heaps.map((heap, index) => {
    const label = `Heap ${index + 1} of ${played.heaps.length}: ${heap} ${heap === 1n ? 'bean' : 'beans'}`;
    const button = make('button', { type: 'button', 'aria-pressed': 'false', 'aria-label': label }, heap, beansOf(heap));
    button.disabled = !waysOf(played.digits, heap).length;
    button.addEventListener('click', () => choose(index));
    return button;
  });
  at('board').replaceChildren(...(buttons.length ? buttons : ['no heap is left']));
  at('played').replaceChildren(...played.told.map((line) => make('li', {}, line)));
  at('back').disabled = !played.before.length;
  at('pass').disabled = !canMove();
}

// The beans of a small heap, to look at.
function beansOf(heap) {
  return make('span', { class: 'beans' }, heap <= BEANS ? '\u25cf'.repeat(Number(heap)) : '');
}

// Shows the moves of the heap that was chosen: a button for each, or where they are many, fields.
function choose(index) {
  for (const [other, button] of [...at('board').children].entries()) button.setAttribute('aria-pressed', String(other === index));
  const ways = waysOf(played.digits, played.heaps[index]);
  const count = ways.reduce((sum, { whole, split }) => sum + split + (whole ? 1n : 0n), 0n);
  at('moves').replaceChildren(...(count <= MOVES ? moveButtons(index, ways) : moveFields(index, ways)));
  at('moves').hidden = false;
  at('moves').querySelector('button, select').focus();
}

function moveButtons(index, ways) {
  const parts = ({ whole, split }) => Array.from({ length: Number(split) + 1 }, (_, part) => BigInt(part)).slice(whole ? 0 : 1);
  const moves = ways.flatMap((way) => parts(way).map((part) => moveOf(index, way, part)));
  return moves.map((move) => {
    const button = make('button', { type: 'button' }, inShort(move));
    button.addEventListener('click', () => makeMove(move));
    return button;
  });
}

// A field for the beans to remove, one for the smaller heap that is left, and a button.
function moveFields(index, ways) {
  const removed = make('select', {}, ...ways.map((way, which) => make('option', { value: which }, way.removed)));
  const part = make('input', { inputmode: 'numeric', autocomplete: 'off' });
  const told = make('p', { class: 'told', 'aria-live': 'polite' });
  const way = () => ways[Number(removed.value)];
  const tell = () => {
    const { rest, whole, split } = way();
    part.value = whole ? '0' : '1';
    told.textContent = [whole && `0 leaves one heap of ${rest}`, split && `1 to ${split} leave two heaps`].filter(Boolean).join(', ');
  };
  const form = make('form', {}, make('label', {}, 'Take ', removed), make('label', {}, 'Smaller heap left ', part), make('button', {}, 'Move'));
  form.className = 'fields';
  form.addEventListener('submit', (event) => {
    event.preventDefault();
    const { whole, split } = way();
    const smaller = /^\d+$/.test(part.value) ? BigInt(part.value) : -1n;
    if (smaller === 0n ? whole : smaller > 0n && smaller <= split) makeMove(moveOf(index, way(), smaller));
    else say(at('turn'), 'No move leaves that.', 'fault');
  });
  removed.addEventListener('change', tell);
  tell();
  return [form, told];
}

// The move that is made, and the program's answer to it.
function makeMove(move) {
  played.before.push({ heaps: played.heaps, told: [...played.told] });
  if (move) doMove('You', move);
  return perform('Looking for a move', at('turn'), async (ask) => {
    if (move && !canMove()) return end('You made the last move: you win.');
    showTurn('The program looks for its move.');
    at('board').inert = true;
    const { code, count, heaps } = played;
    const judged = await judge(ask, code, count, heaps);
    const own = judged.move ?? anyMove();
    doMove('Program', own);
    const line = `${played.told.at(-1)}.`;
    if (!canMove()) return end(`${line} That was the last move: the program wins.`);
    showJudged(await judge(ask, code, count, played.heaps));
    showTurn(`${line} Your move: choose a heap.`);
    at('board').querySelector('button:enabled').focus();
  });
}

// A move where none wins: in the largest heap, the first.
function anyMove() {
  const { heaps, digits } = played;
  const index = heaps.reduce((best, heap, other) => (waysOf(digits, heap).length && (best < 0 || heap > heaps[best]) ? other : best), -1);
  const [way] = waysOf(digits, heaps[index]);
  return moveOf(index, way, way.whole ? 0n : 1n);
}

function end(text) {
  at('hint').hidden = true;
  say(at('winner'), 'Nobody can move any more.');
  showTurn(text);
  at('back').focus();
}

function takeBack() {
  Object.assign(played, played.before.pop());
  perform('Looking at the position', at('turn'), async (ask) => {
    const { code, count, heaps } = played;
    showJudged(await judge(ask, code, count, heaps));
    showTurn('Your move: choose a heap.');
  });
}

// ---- a file

// Whether the file is a b-file: its first line that says something begins with a number, a space and more.
function isBfile(bytes) {
  const begin = String.fromCharCode(...bytes.subarray(0, 4096));
  const line = begin.split(/[\r\n]+/).find((words) => words && !words.startsWith('#'));
  return bytes.length > 0 && (line === undefined || /^-?\d+[ \t]+\S/.test(line));
}

async function readFile(ask, file) {
  at('check-answer').hidden = true;
  at('report-answer').hidden = true;
  if (file.size > FILE) throw new Fault('TooLong');
  const bytes = new Uint8Array(await file.arrayBuffer());
  if (isBfile(bytes)) await showCheck(ask, file.name, bytes);
  else await showReport(ask, file.name, bytes);
}

async function showCheck(ask, name, bytes) {
  const { code } = asked();
  const { text } = await ask('check', [bytesOf(code), bytes]);
  const lines = text.trimEnd().split('\n');
  const right = / all right$/.test(lines[0]);
  const more = /^and (\d+) more$/.exec(lines.at(-1));
  const wrong = more ? lines.length - 1 + Number(more[1]) : lines.length;
  at('wrong').textContent = text;
  at('check-answer').hidden = right;
  const told = right ? lines[0] : `${wrong} ${wrong === 1 ? 'value is' : 'values are'} wrong, the first at ${lines[0]}`;
  say(at('verdict'), `${name}, a b-file of ${code}: ${told}.`);
}

// The report and the catalogue of a file's operations.
async function showReport(ask, name, bytes) {
  const more = { lines: true, loan: LOAN + PAGE * Math.ceil((64 * bytes.length) / PAGE) };
  const { text, refused } = await ask('catalogue', [bytes], more);
  const lines = text.trimEnd().split('\n');
  if (refused && lines.length === 2) {
    throw new Fault(`${name} is no state, no delta and no b-file, and none of its ${refused} lines is a delta in hexadecimal.`);
  }
  const page = (await ask('report', [bytes], more)).text;
  at('report').srcdoc = page;
  at('catalogue').textContent = text.slice(0, TEXT) + (text.length > TEXT ? '..\n' : '');
  const found = refutedIn(lines);
  at('refuted').replaceChildren(...found.slice(0, LINES).map((words) => make('li', {}, words)));
  at('report-answer').hidden = false;
  const passed = refused ? ` ${passedOver(refused)}` : '';
  say(at('verdict'), `${name}: ${summaryOf(lines, found)}${passed}`);
}

function passedOver(count) {
  return count === 1 ? '1 line is no delta in hexadecimal, and was passed over.' : `${count} lines are no deltas in hexadecimal, and were passed over.`;
}

// What a catalogue says of wrong values and periods, each as a sentence.
function refutedIn(lines) {
  const found = [];
  let code = '';
  for (const line of lines) {
    const words = line.split(' ');
    if (words[0] === 'game') code = words[1];
    if (words[0] === 'block' && words[6] === 'refuted') {
      found.push(`${code}, heap ${words[8]}: ${words[1]} says ${words[10]}, but ${words[12]} is right`);
    }
    if (words[0] === 'period' && words[6] === 'refuted') {
      found.push(`${code}, heap ${words[8]}: here the period ${words[5]} from ${words[3]} on breaks, which ${words[1]} claims`);
    }
  }
  return found;
}

function summaryOf(lines, refuted) {
  const count = (form) => lines.filter((line) => form.test(line)).length;
  const games = count(/^game /);
  const claims = /^(block|period) /;
  const proved = count(/^(block|period) .* proved$/);
  const pending = count(claims) - proved - refuted.length;
  const first = refuted.length > LINES ? `; the first ${LINES} of them` : '';
  return `${games} ${games === 1 ? 'game' : 'games'}; of what is claimed ${proved} proved, ${pending} pending, ${refuted.length} refuted${first}.`;
}

// ---- the beginning

// Why nothing can be computed here, or nothing.
function lack() {
  const memory = new Uint8Array([0, 97, 115, 109, 1, 0, 0, 0, 5, 3, 1, 4, 1]); // a module that has a 64-bit memory
  if (typeof PAGE_WASM === 'undefined') return 'The module is missing: module.js should stand beside this page.';
  if (typeof WebAssembly === 'undefined' || !WebAssembly.validate(memory)) {
    return 'This browser has no 64-bit memory for WebAssembly, which the module needs. Chrome and Edge have it from 133 on, Firefox from 134 on.';
  }
  return '';
}

const askGame = () => perform(`Computing ${at('code').value}`, at('period'), computeGame);
const askHeaps = () => perform(`Looking at the position ${at('heaps').value}`, at('winner'), askPosition);

function listen() {
  for (const [form, ask] of [['game-form', askGame], ['position-form', askHeaps]]) {
    at(form).addEventListener('submit', (event) => {
      event.preventDefault();
      ask();
    });
  }
  at('pass').addEventListener('click', () => makeMove(null));
  at('back').addEventListener('click', takeBack);
  at('stop').addEventListener('click', stop);
  at('chosen').addEventListener('change', () => take(at('chosen').files));
  at('drop').addEventListener('drop', (event) => take(event.dataTransfer.files));
  for (const name of ['dragover', 'drop', 'dragleave']) {
    at('drop').addEventListener(name, (event) => {
      event.preventDefault();
      at('drop').classList.toggle('over', name === 'dragover');
    });
  }
}

function take([file]) {
  if (file) perform(`Reading ${file.name}`, at('verdict'), (ask) => readFile(ask, file));
}

// The fields may be filled by the address, as ?code=0.77&count=1000&heaps=5+6.
async function begin() {
  const given = new URLSearchParams(location.search);
  for (const name of ['code', 'count', 'heaps']) if (given.has(name)) at(name).value = given.get(name);
  const missing = lack();
  if (missing) {
    at('missing').textContent = `${missing} On Linux the program says the same: census search ${at('count').value} ${at('code').value}`;
    at('missing').hidden = false;
    return;
  }
  compiled = WebAssembly.compile(Uint8Array.from(atob(PAGE_WASM), (letter) => letter.charCodeAt(0)));
  hire();
  listen();
  await askGame();
  if (given.has('heaps') && answered === at('period')) askHeaps();
}

document.addEventListener('DOMContentLoaded', begin);
