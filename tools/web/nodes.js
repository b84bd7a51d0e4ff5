// What each node knows at a record, the packets, and who reaches whom at the end.

// What the nodes keep: the lines of `state`, up to this record. A later one takes the place of an earlier one of the same thing.

function statesNow() {
  const { view, at } = state, found = {};
  for (const line of [...view.base, ...view.patches.slice(0, at + 1).flat()]) apply(found[line[0]] ||= { ports: {}, lets: {}, peers: {} }, line);
  return found;
}

function apply(known, [, what, ...words]) {
  if (what === 'void') {
    Object.assign(known, { ports: {}, lets: {}, peers: {} });
  } else if (what === 'forget') {
    for (const [number, port] of Object.entries(known.ports)) if (port.inside === words[0]) drop(known, number);
  } else if (what === 'port') {
    const [number, inside, toward, until] = words, before = known.ports[number];
    if (before && before.inside !== inside) drop(known, number);
    known.ports[number] = { inside, toward, until };
  } else if (what === 'lets') {
    (known.lets[words[0]] ||= {})[words[1]] = words[2];
  } else if (what === 'peer') {
    const [address, at, heard, touched, tries, waits, held] = words;
    known.peers[address] = { at, heard, touched, tries, waits, held };
  } else {
    [known.phase, known.address, known.due] = words;
  }
}

function drop(known, number) {
  delete known.ports[number];
  delete known.lets[number];
}

// The nodes of a record's way first, then clients, NATs and the others; what this record changed is marked.
function drawNodes(record) {
  const states = record ? statesNow() : {}, changes = record ? state.view.patches[state.at] || [] : [];
  const kinds = ['client', 'nat', 'server', 'relay', 'native'], way = record ? [record.node, ...(record.way || [])] : [];
  const rank = (node) => (way.includes(node.name) ? 0 : 10) + kinds.indexOf(node.kind);
  const nodes = state.view ? [...state.view.nodes].sort((one, other) => rank(one) - rank(other)) : [];
  get('nodes').replaceChildren(...nodes.map((node) => {
    const card = make('div', 'card', make('h3', '', node.name), make('p', 'hint', node.about));
    card.classList.toggle('now', way.includes(node.name));
    if (record) card.append(...knownOf(node, states[node.name] || { ports: {}, lets: {}, peers: {}, due: null }, record, changes.filter(([name]) => name === node.name)));
    return card;
  }));
}

function knownOf(node, known, record, changes) {
  if (!['nat', 'client', 'relay'].includes(node.kind)) return [];
  if (!state.view.has_state) return [make('p', 'hint', 'what it keeps isn\'t told, see above')];
  if (node.kind === 'nat') return [portsOf(node.name, known, record.moment, changes)];
  const isChanged = changes.some(([, what]) => what === 'own' || what === 'void');
  if (node.kind === 'relay') return [peersOf(node.name, known, record, changes)];
  const phase = make('p', '', `phase ${known.phase}${known.due === null ? '' : `, due at ${ms(known.due)}`}`, marked(isChanged));
  const address = known.address ? make('p', 'good', make('code', '', known.address)) : make('p', '', 'no address');
  return [phase, address, peersOf(node.name, known, record, changes)];
}

const marked = (isChanged) => (isChanged ? make('b', 'changed', 'now') : null);

// Lines as a list, each with whether this record changed it, and whether it is to be seen before others; those that it changed come first.
function listOf(lines, none) {
  if (!lines.length) return make('p', 'hint', none);
  const sorted = [...lines].sort(([, one, isOne = false], [, other, isOther = false]) => other - one || isOther - isOne);
  const shown = sorted.slice(0, PEERS_SHOWN).map(([text, isChanged]) => make('li', '', text, marked(isChanged)));
  return make('ul', '', ...shown, lines.length > PEERS_SHOWN ? make('li', '', `and ${lines.length - PEERS_SHOWN} more`) : null);
}

function portsOf(name, known, now, changes) {
  const live = Object.entries(known.ports).filter(([, port]) => port.until > now), kind = (state.view.nodes.find((node) => node.name === name) || {}).about || '';
  return listOf(live.map(([number, port]) => {
    const lets = whoUntil(known.lets[number] || {}, now), isCone = kind.startsWith('full cone');
    const whom = port.toward ? `toward ${port.toward} alone` : isCone ? 'lets in anyone' : `lets in ${lets || 'nobody'}`;
    const whose = state.view.insides[`${name} ${port.inside}`] || port.inside;
    return [`${whose}: port ${number} until ${ms(port.until)}, ${whom}`, changes.some(([, , one]) => String(one) === number)];
  }), 'no live port: nobody gets in');
}

// Whom a port lets in, those together who may come in equally long.
function whoUntil(lets, now) {
  const groups = new Map();
  for (const [source, until] of Object.entries(lets)) if (until > now) groups.set(until, [...(groups.get(until) || []), source]);
  return [...groups].map(([until, names]) => {
    const more = names.length > PEERS_SHOWN ? ` and ${names.length - PEERS_SHOWN} more` : '';
    return `${names.slice(0, PEERS_SHOWN).join(', ')}${more} until ${ms(until)}`;
  }).join('; ');
}

function peersOf(node, known, record, changes) {
  const touched = changes.filter(([, what]) => what === 'peer').map(([, , address]) => address);
  const lines = Object.entries(known.peers).map(([address, peer]) =>
    [peerText(address, peer, record.moment), touched.includes(address), barredUntil(peer, record.moment) !== null]);
  return listOf(lines.filter(([text]) => text), 'knows no peer');
}

const triesOf = (peer, now) => peer.tries.filter((moment) => now - moment < PEERS.listed);

// When a peer may be tried again that is barred now: tried a moment ago, or as often as may be; else null.
function barredUntil(peer, now) {
  const tries = triesOf(peer, now), ends = tries.slice(-1).map((moment) => moment + PEERS.gap);
  if (tries.length >= PEERS.tries) ends.push(tries[tries.length - PEERS.tries] + PEERS.listed);
  const until = Math.max(0, ...ends);
  return now < until && now - peer.touched < PEERS.listed ? until : null;
}

// For whom the node of a record is barred now, in words; null where it is for nobody.
function barredNow(record) {
  const known = state.view.has_state && statesNow()[record.node], found = [];
  for (const [address, peer] of Object.entries(known ? known.peers : {})) {
    const until = barredUntil(peer, record.moment);
    if (until !== null) found.push(`${state.view.names[address] || address} until ${ms(until)}`);
  }
  const more = found.length > BARRED_SHOWN ? ` and ${found.length - BARRED_SHOWN} more` : '';
  return found.length ? `${record.node} is barred now for ${found.slice(0, BARRED_SHOWN).join(' and ')}${more}: no try goes there before.` : null;
}

function peerText(address, peer, now) {
  if (now - peer.touched >= PEERS.listed) return null;
  const words = [], name = state.view.names[address] || address;
  if (peer.at) {
    const isFresh = peer.heard !== null && now - peer.heard < PEERS.fresh;
    words.push(`trusted at ${peer.at}, ${isFresh ? `fresh until ${ms(peer.heard + PEERS.fresh)}` : 'no longer fresh'}`);
  }
  const tries = triesOf(peer, now), until = barredUntil(peer, now);
  if (tries.length) words.push(`${tries.length === 1 ? '1 try' : `${tries.length} tries`}, the latest at ${ms(tries[tries.length - 1])}`);
  if (until !== null) words.push(`barred until ${ms(until)}`);
  if (peer.waits) words.push(`${peer.waits} ${peer.waits === 1 ? 'packet waits' : 'packets wait'} for it`);
  if (peer.held) words.push(`${peer.held} of its packets held`);
  return words.length ? `${name}: ${words.join('; ')}` : `${name}: listed`;
}

// Packets, and who reaches whom.

function listPackets() {
  const { view } = state;
  get('packets-part').hidden = !view.packets.length;
  get('packets').replaceChildren(...view.packets.map((packet) => {
    const made = make('li', '', button(packet.said, () => leadTo(packet.record), packet.state));
    if (packet.end !== packet.record) made.append(' ', button(`its end: record ${packet.end}`, () => leadTo(packet.end)));
    return made;
  }), ...(view.packets_in_all > view.packets.length ? [make('li', 'hint', `${view.packets.length} of ${view.packets_in_all} packets: those of these records`)] : []),
  ...(view.untold ? [make('li', 'hint', `${view.untold}.`)] : []));
}

// Leads to a record by its number, also to one that isn't among those that are shown.
async function leadTo(index) {
  const { view } = state, isHere = (at) => at >= 0 && at < view.records.length;
  if (isHere(index - view.first)) {
    step(index - view.first);
  } else if (data.is_alone) {
    say(`this page doesn't have record ${index}: ./teredo web shows all`);
  } else {
    state.first = index - index % view.most;
    state.at = index - state.first;
    await play();
  }
}

function drawMatrix() {
  const { reach } = state.view;
  get('reach-part').hidden = !reach || !reach.pairs.length;
  if (!reach) return;
  const names = [...new Set(reach.pairs.flatMap(([from, to]) => [from, to]))];
  const words = new Map(reach.pairs.map(([from, to, word]) => [`${from} ${to}`, word]));
  const head = make('tr', '', make('th'), ...names.map((name) => make('th', '', name)));
  head.querySelectorAll('th').forEach((cell) => { cell.scope = 'col'; });
  get('reach').replaceChildren(head, ...names.map((from) => {
    const title = make('th', '', from);
    title.scope = 'row';
    return make('tr', '', title, ...names.map((to) => matrixCell(from, to, words.get(`${from} ${to}`))));
  }));
  get('reach-total').textContent = reach.total;
  const shut = Object.entries(reach.means).filter(([word]) => !word.startsWith('within')).slice(0, WORDS_SHOWN);
  get('reach-why').replaceChildren(...shut.flatMap(([word, means]) => [make('dt', '', word), make('dd', '', means.split('; promised')[0])]));
  get('reach-words').replaceChildren(...Object.entries(reach.means).flatMap(([word, means]) => [make('dt', '', word), make('dd', '', means)]));
}

function matrixCell(from, to, word) {
  if (!word) return make('td', '', '');
  const kind = word.startsWith('within') ? 'within' : ['lost', 'known'].includes(word) ? '' : 'shut';
  const made = button(word, () => probe(from, to, word), kind);
  made.setAttribute('aria-label', `from ${from} to ${to}: ${word}`);
  made.disabled = data.is_alone && !(data.probes || {})[`${from} ${to}`];
  return make('td', '', made);
}

// The next packet of a pair: the scenario with it at its end.
async function probe(from, to, word) {
  const kept = state.before || { text: state.text, view: state.view, at: state.at }, means = state.view.reach.means[word];
  try {
    const made = data.is_alone ? data.probes[`${from} ${to}`] : await (await ask('probe', { text: kept.text, from, to })).json();
    state.before = kept;
    get('banner-text').textContent = `The next packet from ${from} to ${to}: it and its deliveries stand at the end of the scenario now. `
      + `${word}: ${means}.`;
    get('banner').hidden = false;
    setText(made.text);
    if (data.is_alone) show(made.view, made.event); else await play(made.event);
    get('picture-part').scrollIntoView({ block: 'nearest' });
  } catch (fault) {
    say(fault.message);
  }
}

function back() {
  const kept = state.before;
  get('banner').hidden = true;
  if (!kept) return;
  state.before = null;
  setText(kept.text);
  state.at = kept.at;
  show(kept.view);
}
