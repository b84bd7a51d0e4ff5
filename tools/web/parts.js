// A datagram opened: its bytes, and what `show` says of each part of them, as tools/parts.py puts it together.

// The button of an entry, and below it its parts where it is open.
function entryOf(number, said) {
  const isOpen = state.opened === number, made = button(said, () => toggle(number), 'entry');
  made.setAttribute('aria-expanded', String(isOpen));
  if (!isOpen) return [make('p', '', made)];
  const place = make('div', 'parts');
  fillParts(place, number);
  return [make('p', '', made), place];
}

function toggle(number) {
  state.opened = state.opened === number ? null : number;
  get('record').replaceChildren(...aboutRecord(state.view.records[state.at]));
  get('record').querySelectorAll('button.entry').forEach((one) => { if (one.textContent.startsWith(`#${number} `)) one.focus(); });
}

async function fillParts(place, number) {
  const { datagrams } = state;
  try {
    if (!datagrams.has(number)) datagrams.set(number, await partsOf(number));
    place.replaceChildren(partsTable(datagrams.get(number)));
  } catch (fault) {
    place.replaceChildren(make('p', 'hint', `${fault.message}.`));
  }
}

async function partsOf(number) {
  if (state.view.chain) throw new Error('no capture is made with a chain, so that the bytes of a datagram aren\'t known here');
  if (!data.is_alone) return (await ask('datagram', { text: state.text, number })).json();
  const known = (data.datagrams || {})[number];
  if (!known) throw new Error(data.no_datagrams || 'this page has no bytes');
  return known;
}

const inGroups = (hex) => hex.replace(/.{4}(?=.)/g, '$& ');

function partsTable(parts) {
  const head = make('tr', '', ...['bytes', 'what', 'says'].map((name) => make('th', '', name)));
  head.querySelectorAll('th').forEach((cell) => { cell.scope = 'col'; });
  return make('table', '', head, ...parts.flatMap((part) => {
    const count = part.hex.length / 2, range = count ? (count > 1 ? `${part.at} to ${part.at + count - 1}` : String(part.at)) : 'none';
    const whole = make('tr', 'whole', make('th', '', range), make('td', '', part.name), make('td', '', part.said));
    whole.firstChild.scope = 'row';
    const inside = part.parts.map(([hex, name, said]) => make('tr', '', make('td', '', make('code', '', inGroups(hex))), make('td', '', name), make('td', '', said)));
    return inside.length || !count ? [whole, ...inside] : [whole, hexRow(part.hex)];
  }));
}

function hexRow(hex) {
  const cell = make('td', '', make('code', '', inGroups(hex)));
  cell.colSpan = 3;
  return make('tr', '', cell);
}
