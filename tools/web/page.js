'use strict';
// The page of the laboratory. What it shows of a scenario is a `view`, as tools/view.py makes it; it computes nothing of Teredo.

const TYPING_MS = 350, STEP_MS = 750, TRAVEL_MS = 550;
const LINE_HEIGHT = 18, EDITOR_TOP = 6, HEAD_HEIGHT = 46;   // pixels
const PEERS_SHOWN = 12, BARRED_SHOWN = 3, WORDS_SHOWN = 3;
const BAR_WIDTH = 7;   // pixels by which a bar of the ladder is pointed at, at least
const FIT_MIN = 0.923, FIT_MAX = 1.25, ZOOM_MIN = 0.4, ZOOM_MAX = 3, ZOOM_STEP = 1.2;   // of the ladder; at the least its letters of 13 pixels have 12
const FRAGMENT_MAX = 60000;   // letters of an address
const SVG = 'http://www.w3.org/2000/svg';
const STILL = matchMedia('(prefers-reduced-motion: reduce)');

const data = JSON.parse(document.getElementById('data').textContent);
const PEERS = data.peers;   // the numbers of docs/RULES.md, "Peers"
const get = (id) => document.getElementById(id);
const state = { name: data.name, text: data.text, view: null, at: null, first: 0, opened: null, zoom: 0, scale: 1, asked: 0, answered: 0, timer: 0, running: 0, before: null };

// An element with its class and what is in it: texts, and other elements.
function make(tag, kind, ...parts) {
  const made = document.createElement(tag);
  if (kind) made.className = kind;
  made.append(...parts.filter((part) => part !== null && part !== undefined));
  return made;
}

function button(text, act, kind) {
  const made = make('button', kind, text);
  made.type = 'button';
  made.addEventListener('click', act);
  return made;
}

const ms = (moment) => moment.toLocaleString('en-US') + ' ms';
const say = (text) => { get('said').textContent = text; };

// Asks the laboratory; answers what it said, as it came, or throws with its line.
async function ask(word, sent) {
  const came = await fetch(word, { method: 'POST', headers: { 'Content-Type': 'application/json' }, body: JSON.stringify(sent) })
    .catch(() => { throw new Error('the laboratory has ended: start ./teredo web again'); });
  if (!came.ok) throw new Error((await came.text()).trim());
  return came;
}

// The text and its play.

async function play(goTo) {
  const number = ++state.asked;
  get('picture').classList.add('stale');
  try {
    const view = await (await ask('play', { text: state.text, name: state.name, first: state.first, ...(goTo === undefined ? {} : { event: goTo }) })).json();
    if (number === state.asked) show(view, goTo);
  } catch (fault) {
    if (number === state.asked) showFaults([{ said: fault.message, line: null }]);
  }
  state.answered = Math.max(state.answered, number);
}

function show(view, goTo) {
  document.body.classList.toggle('empty', Boolean(view.faults) && !state.view);
  if (view.faults) {
    showFaults(view.faults);
    return;
  }
  state.view = view;
  state.first = view.first;
  state.datagrams = new Map();
  showFaults([]);
  get('picture').classList.remove('stale');
  get('name').textContent = `${state.name}${view.chain ? ', chain ' + view.chain : ''}`;
  get('totals').textContent = view.totals;
  drawPicture();
  drawSteps();
  listPackets();
  tellNote();
  drawMatrix();
  showWindow();
  const last = view.records.length - 1;
  get('at').max = Math.max(0, last);
  const wanted = goTo === undefined ? state.at ?? view.opening : view.records.findIndex((record) => record.event >= goTo);
  step(Math.min(Math.max(0, wanted), Math.max(0, last)));
}

function showFaults(faults) {
  get('faults').replaceChildren(...faults.map(faultItem));
  const first = faults.find((fault) => fault.line);
  if (first) markLine(first.line, true); else if (!faults.length) get('band').hidden = true;
}

function faultItem(fault) {
  const made = make('div', 'fault-item', make('div', 'line', fault.said));
  if (fault.line) made.append(button(`line ${fault.line}, column ${fault.column}`, () => goToPlace(fault)), ' ');
  if (fault.wanted) made.append(`wanted: ${fault.wanted}`);
  return made;
}

function goToPlace(fault) {
  const area = get('text');
  let start = 0;
  for (let line = 1; line < fault.line; line++) start = state.text.indexOf('\n', start) + 1;
  start += fault.column - 1;
  area.focus();
  area.setSelectionRange(start, start + fault.length);
  area.scrollTop = Math.max(0, (fault.line - 8) * LINE_HEIGHT);
}

function setText(text, name) {
  state.text = text;
  if (name) state.name = name;
  state.first = 0;
  get('text').value = text;
  numberLines();
}

function numberLines() {
  const count = state.text.split('\n').length;
  if (get('gutter').dataset.count === String(count)) return;
  get('gutter').dataset.count = count;
  get('gutter').textContent = Array.from({ length: count }, (_, at) => at + 1).join('\n');
}

function markLine(line, isFault) {
  const band = get('band');
  band.hidden = !line;
  band.dataset.line = line || '';
  band.classList.toggle('fault', Boolean(isFault));
  placeBand();
}

function placeBand() {
  const band = get('band'), area = get('text');
  band.style.top = `${EDITOR_TOP + (band.dataset.line - 1) * LINE_HEIGHT - area.scrollTop}px`;
  get('gutter').scrollTop = area.scrollTop;
}

// Scrolls to a line, where it isn't seen and nobody types.
function showLine(line) {
  const area = get('text'), top = (line - 1) * LINE_HEIGHT;
  if (document.activeElement !== area && (top < area.scrollTop || top > area.scrollTop + area.clientHeight - 2 * LINE_HEIGHT)) {
    area.scrollTop = Math.max(0, top - area.clientHeight / 2);
  }
}

function typed() {
  state.text = get('text').value;
  numberLines();
  clearTimeout(state.timer);
  state.timer = setTimeout(() => { keepFragment(); play(); }, TYPING_MS);
}
