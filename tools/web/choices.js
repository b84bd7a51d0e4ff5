// Files to be saved, examples, two hosts of one's own; keys and buttons, and the beginning of it all.

// Files.

function saveAs(name, content, type) {
  const link = make('a');
  link.href = URL.createObjectURL(new Blob([content], { type }));
  link.download = name;
  link.click();
  setTimeout(() => URL.revokeObjectURL(link.href), 10000);
}

const bytesOf = (word) => Uint8Array.from(atob(word), (letter) => letter.charCodeAt(0));

// Of each file its ending, its type and what is in it.
const FILES = {
  scenario: async () => ['toml', 'application/toml', state.text],
  picture: async () => ['svg', 'image/svg+xml', state.view.pictures[get('ends').checked ? 1 : 0]],
  report: async (sent) => ['txt', 'text/plain', data.is_alone ? data.report : await (await ask('report', sent)).text()],
  capture: async (sent) => ['pcap', 'application/octet-stream',
    data.is_alone ? bytesOf(data.capture) : await (await ask('capture', sent)).arrayBuffer()],
  page: async (sent) => ['html', 'text/html', await (await ask('page', sent)).text()],
};

async function save(what) {
  const stem = state.name.replace(/\.toml$/, '').replace(/[^A-Za-z0-9_.-]/g, '_');
  const sent = { text: state.text, name: state.name };
  try {
    const [ending, type, content] = await FILES[what](sent);
    saveAs(`${stem}.${ending}`, content, type);
    say(`saved: ${what}`);
  } catch (fault) {
    say(fault.message);
  }
}

// Examples, and two hosts of one's own.

function begin(text, name, goTo) {
  back();
  setText(text, name);
  state.at = null;
  keepFragment();
  return play(goTo);
}

function fillGallery() {
  for (const group of data.gallery || []) {
    get('gallery-list').append(make('h3', '', group.title), ...group.items.map((item) => button(
      group.title === 'Questions' ? item.shows : `${item.name}: ${item.shows}`,
      () => { get('gallery').close(); begin(item.text, `${item.name}.toml`); })));
  }
}

const NAT_KINDS = [['port', 'port restricted cone'], ['restricted', 'restricted cone'], ['cone', 'full cone'], ['symmetric', 'symmetric']];

function menu(id, options) {
  const made = make('select');
  made.id = id;
  for (const [value, text] of options) {
    const option = make('option', '', text);
    option.value = value;
    made.append(option);
  }
  return made;
}

function field(text, control, isCheck) {
  return make('p', '', isCheck ? make('label', 'check', control, text) : make('label', '', text, ' ', control));
}

function input(id, type, value) {
  const made = make('input');
  Object.assign(made, { id, type });
  if (type === 'checkbox') made.checked = value; else Object.assign(made, { value, min: 1, max: 10000000, required: true });
  return made;
}

function hostFields(name) {
  const kinds = name === 'b' ? [...NAT_KINDS, ['native', 'none: a host of the IPv6 Internet']] : NAT_KINDS;
  return make('fieldset', '', make('legend', '', `Host ${name}`),
    field('is behind a NAT of kind', menu(`${name}-kind`, kinds)),
    field('which forgets after, ms', input(`${name}-idle`, 'number', 60000)),
    field('tries the cone phase', input(`${name}-cone`, 'checkbox', true), true));
}

const CARRIERS = [['none', 'none'], ['each', 'each host behind a carrier\'s NAT of its own'], ['one', 'both hosts behind one carrier\'s NAT']];

// One menu says which NATs of carriers there are, and below it stand the kinds of those alone.
function carrierFields() {
  const which = menu('carriers', CARRIERS), own = (name) => field(`of kind, that of ${name}`, menu(`${name}-carrier`, NAT_KINDS));
  const kinds = { each: [own('a'), own('b')], one: [field('of kind', menu('carrier', NAT_KINDS))] };
  which.addEventListener('change', offerKinds);
  get('two-carriers').append(field('Carriers\' NATs', which), ...Object.entries(kinds).flatMap(([value, fields]) => fields.map((one) => {
    one.dataset.of = value;
    return one;
  })));
  get('b-kind').addEventListener('change', offerKinds);
  offerKinds();
}

// Behind a carrier's NAT there are clients alone, so that a host of the IPv6 Internet leaves no choice.
function offerKinds() {
  const isNative = get('b-kind').value === 'native';
  if (isNative) get('carriers').value = 'none';
  get('carriers').disabled = isNative;
  for (const one of get('two-carriers').querySelectorAll('[data-of]')) one.hidden = one.dataset.of !== get('carriers').value;
}

const chosen = (name) => ({
  kind: get(`${name}-kind`).value, idle: Number(get(`${name}-idle`).value), carrier: get(`${name}-carrier`).value,
  cone_try: get(`${name}-cone`).checked,
});

async function makeTwo(event) {
  event.preventDefault();
  try {
    const sent = { a: chosen('a'), b: chosen('b'), carriers: get('carriers').value, carrier: get('carrier').value, low: Number(get('low').value),
      high: Number(get('high').value) };
    const made = await (await ask('two', sent)).json();
    get('two').close();
    await begin(made.text, `${sent.a.kind}_and_${sent.b.kind}.toml`, made.packet);
  } catch (fault) {
    get('two-said').textContent = fault.message;
  }
}

// Keys and buttons.

function run() {
  clearInterval(state.running);
  const isOn = get('run').textContent === 'Play';
  get('run').textContent = isOn ? 'Pause' : 'Play';
  if (!isOn || !state.view) return;
  if (state.at >= state.view.records.length - 1) step(0);
  state.running = setInterval(() => {
    if (state.at >= state.view.records.length - 1) run(); else move(1);
  }, STEP_MS);
}

const KEYS = {
  ArrowLeft: () => move(-1), ArrowRight: () => move(1), Home: () => step(0), End: () => move(state.view.records.length), ' ': run,
};

function keyed(event) {
  const isTyping = event.target.closest('textarea, input, select, button, dialog');
  if (isTyping && !(event.target.closest('button') && event.key.startsWith('Arrow')) || event.ctrlKey || event.altKey || event.metaKey) return;
  if (KEYS[event.key] && state.view) {
    event.preventDefault();
    KEYS[event.key]();
  }
}

function toText() {
  get('text-part').scrollIntoView();
  get('text').focus({ preventScroll: true });
}

function listen() {
  const clicks = { 'to-first': () => step(0), 'to-before': () => move(-1), 'to-next': () => move(1), 'to-last': () => move(state.view.records.length), run,
    smaller: () => zoom(1 / ZOOM_STEP), fitted: () => zoom(0), larger: () => zoom(ZOOM_STEP), 'to-text': toText, earlier: () => moveWindow(-1), later: () => moveWindow(1), back, copy: copyAddress, 'open-gallery': () => get('gallery').showModal(),
    'open-two': () => { get('two-said').textContent = ''; get('two').showModal(); } };
  for (const [id, act] of Object.entries(clicks)) {
    get(id).addEventListener('click', () => { if (state.view || !['to-first', 'to-last', 'to-next', 'to-before'].includes(id)) act(); });
  }
  get('at').addEventListener('input', () => step(Number(get('at').value)));
  for (const id of ['ends', 'timed']) get(id).addEventListener('change', () => { if (state.view) { drawPicture(); step(state.at); } });
  get('text').addEventListener('input', typed);
  get('text').addEventListener('scroll', placeBand);
  get('picture').addEventListener('scroll', hideHeads);
  addEventListener('resize', fit);
  get('two-form').addEventListener('submit', makeTwo);
  document.querySelectorAll('[data-save]').forEach((one) => one.addEventListener('click', () => save(one.dataset.save)));
  document.querySelectorAll('[data-close]').forEach((one) => one.addEventListener('click', () => one.closest('dialog').close()));
  get('steps-part').addEventListener('toggle', drawSteps);
  document.addEventListener('keydown', keyed);
  addEventListener('hashchange', async () => {
    const found = await ofFragment();
    if (found && found.text !== state.text) showFound(found);
  });
}

// What an address has in it: a text is played anew where somebody plays; a page by itself shows what came with it, and says so.
function showFound(found) {
  if (!data.is_alone) {
    begin(found.text, found.name);
    return;
  }
  Object.assign(data, { probes: {}, report: undefined, capture: null, datagrams: {}, no_datagrams: 'The address has no bytes.', isForeign: true });
  offerFiles();
  get('note').textContent = 'This is what the address says, as whoever made it wrote it: this page played nothing of it, and nothing of it is proved.';
  get('note').hidden = false;
  try {
    setText(found.text, found.name);
    state.at = null;
    show(found.view);
  } catch {
    say('the address has no scenario that can be shown');
  }
}

// What is to be said of who played.
function tellNote() {
  if (data.isForeign) return;
  get('note').textContent = data.note || '';
  get('note').hidden = !data.note;
}

function offerFiles() {
  const missing = { page: true, capture: !data.capture, report: data.report === undefined, picture: data.report === undefined && !data.isForeign };
  for (const what of Object.keys(FILES)) document.querySelector(`[data-save=${what}]`).hidden = Boolean(missing[what]);
}

async function start() {
  listen();
  tellNote();
  if (!data.is_alone) {
    fillGallery();
    get('two-hosts').append(hostFields('a'), hostFields('b'));
    carrierFields();
  } else {
    get('text').readOnly = true;
    get('text-hint').textContent = 'This page is one scenario, played. ./teredo web plays it anew as you change it. '
      + 'Keys: ← → a record back or on, Home, End, space plays.';
    get('choices').hidden = true;
    offerFiles();
  }
  const found = await ofFragment();
  if (found && data.is_alone) {
    showFound(found);
    return;
  }
  setText(found ? found.text : data.text, found ? found.name : data.name);
  if (data.is_alone) show(data.view); else play();
}

start();
