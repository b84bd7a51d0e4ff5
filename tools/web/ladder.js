// The ladder: the picture, the row of a record, and a dot that goes along an arrow; then what is said of a record.

function drawPicture() {
  const { view } = state, box = get('picture');
  const read = new DOMParser().parseFromString(view.pictures[get('ends').checked ? 1 : 0], 'image/svg+xml').documentElement;
  const svg = data.isForeign ? cleaned(document.importNode(read, true)) : document.importNode(read, true);
  svg.setAttribute('role', 'img');
  layByTime(svg);
  const width = Number(svg.getAttribute('width'));
  view.rows.forEach((record, row) => {
    const hit = rectOf(row, width, 'hit');
    hit.addEventListener('click', () => step(record - view.first, view.carried[row]));
    svg.append(hit);
  });
  svg.querySelectorAll('rect.lets').forEach((bar) => svg.append(pointedAt(bar)));
  box.querySelector('svg')?.remove();
  box.append(svg);
  get('heads').replaceChildren(...view.columns.map(([name]) => make('span', '', name)));
  fit();
}

// What a bar is pointed at by: it says whom the NAT lets in, and a click goes to the row that is there.
function pointedAt(bar) {
  const made = bar.cloneNode(true), width = Number(bar.getAttribute('width')), more = Math.max(0, BAR_WIDTH - width);
  made.setAttribute('class', 'over');
  made.setAttribute('x', Number(bar.getAttribute('x')) - more / 2);
  made.setAttribute('width', width + more);
  made.addEventListener('click', (event) => {
    document.elementsFromPoint(event.clientX, event.clientY).find((one) => one.classList.contains('hit'))?.dispatchEvent(new MouseEvent('click'));
  });
  return made;
}

// The picture is fitted to its box, as far as its letters stay large enough, or as large as somebody wants it.
function fit() {
  const box = get('picture'), svg = box.querySelector('svg');
  if (!svg) return;
  const [width, height] = ['width', 'height'].map((name) => Number(svg.getAttribute(name)));
  const fitting = Math.min(FIT_MAX, Math.max(FIT_MIN, (box.clientWidth - 2) / width));
  state.scale = state.zoom ? Math.min(ZOOM_MAX, Math.max(ZOOM_MIN, state.zoom)) : fitting;
  box.style.setProperty('--wide', `${width * state.scale}px`);
  box.style.setProperty('--high', `${height * state.scale}px`);
  [...get('heads').children].forEach((head, at) => { head.style.left = `${state.view.columns[at][1] * state.scale}px`; });
  get('heads').style.minWidth = `${width * state.scale}px`;
  hideHeads();
}

function zoom(by) {
  state.zoom = by && state.scale * by;
  fit();
  if (state.view) markRows(state.view.records[state.at]);
}

const hideHeads = () => get('heads').classList.toggle('away', get('picture').scrollTop < HEAD_HEIGHT * state.scale);

// The ladder as a table, for who can't see it: what the picture has, a row for a row. It is made where it is asked for.
function drawSteps() {
  if (!state.view || !get('steps-part').open) return;
  const { view } = state;
  const head = make('tr', '', ...['record', 'time', 'from', 'to', 'what', 'what became of it', 'whom NATs let in from here on'].map((name) => make('th', '', name)));
  head.querySelectorAll('th').forEach((cell) => { cell.scope = 'col'; });
  get('steps-table').replaceChildren(head, ...view.steps.map(([record, moment, from, to, what, fate, turns], at) => {
    const number = button(String(record), () => step(record - view.first, view.carried[at]));
    const row = make('tr', '', ...[number, ms(moment), from, to, what, fate].map((cell) => make('td', '', cell)),
      make('td', '', ...(turns || []).map((turn) => make('div', '', turn))));
    row.dataset.record = record;
    return row;
  }));
  markSteps();
}

function markSteps() {
  const record = state.view && state.view.records[state.at];
  for (const row of get('steps-table').querySelectorAll('tr[data-record]')) {
    const isNow = Boolean(record) && row.dataset.record === String(record.index);
    row.classList.toggle('now', isNow);
    if (isNow) row.setAttribute('aria-current', 'step'); else row.removeAttribute('aria-current');
  }
}

const rowY = (row) => state.view.row[0] + state.view.row[1] * row;

function rectOf(row, width, kind) {
  const made = document.createElementNS(SVG, 'rect');
  const sizes = { class: kind, x: 0, y: rowAt(row) - 18, width, height: state.view.row[1] };
  for (const [name, value] of Object.entries(sizes)) made.setAttribute(name, value);
  return made;
}

function markRows(record) {
  const { view } = state;
  const svg = get('picture').querySelector('svg');
  if (!svg || !record) return;
  svg.querySelectorAll('.now, .dot').forEach((old) => old.remove());
  const rows = view.rows.flatMap((known, row) => (known === record.index ? [row] : []));
  const paper = svg.querySelector('rect');
  for (const one of rows) paper.after(rectOf(one, svg.getAttribute('width'), 'now'));
  const box = get('picture'), row = rows.length ? rows[0] : Math.max(0, view.rows.filter((known) => known < record.index).length - 1);
  const top = rowAt(row) * state.scale;
  if (top < box.scrollTop + HEAD_HEIGHT + 20 || top > box.scrollTop + box.clientHeight - 40) box.scrollTop = Math.max(0, top - box.clientHeight / 2);
  const ends = rows.flatMap((one) => view.steps[one].slice(2, 4)), places = new Map(view.columns.map(([name, x]) => [name, x * state.scale]));
  const reach = [record.node, ...(record.way || []), ...ends].filter((name) => places.has(name)).map((name) => places.get(name));
  if (reach.length) bringIntoView(box, Math.min(...reach), Math.max(...reach), reach[reach.length - 1]);
  for (const one of rows) travel(svg, one);
}

// Scrolls sideways, where an arrow isn't seen; of one that is too long its end is.
function bringIntoView(box, left, right, end) {
  const isLong = right - left > box.clientWidth - 80, most = isLong ? (end > left ? end - box.clientWidth + 100 : left - 120) : (left + right) / 2 - box.clientWidth / 2;
  if (left - 40 < box.scrollLeft || right + 40 > box.scrollLeft + box.clientWidth) box.scrollLeft = Math.max(0, most);
}

// A dot goes along the arrow of a row.
function travel(svg, row) {
  const y = rowY(row);
  const arrow = [...svg.querySelectorAll('line')].find((line) => Number(line.getAttribute('y1')) === y && Number(line.getAttribute('y2')) === y);
  if (!arrow || STILL.matches) return;
  const dot = document.createElementNS(SVG, 'circle');
  const [from, to] = [Number(arrow.getAttribute('x1')), Number(arrow.getAttribute('x2'))];
  for (const [name, value] of Object.entries({ class: 'dot', cx: from, cy: rowAt(row), r: 5 })) dot.setAttribute(name, value);
  svg.append(dot);
  dot.animate([{ transform: 'translateX(0)' }, { transform: `translateX(${to - from}px)` }], { duration: TRAVEL_MS, easing: 'ease-in-out' })
    .finished.then(() => dot.remove(), () => {});
}

function showWindow() {
  const { view } = state, end = view.first + view.records.length;
  get('windows').hidden = view.count <= view.most;
  get('window').textContent = `records ${view.first} to ${end - 1} of ${view.count}, with their packets`
    + `${data.is_alone ? '; this page has no others, and ./teredo web shows all' : ''}`;
  get('earlier').disabled = view.first === 0 || data.is_alone;
  get('later').disabled = end >= view.count || data.is_alone;
}

function moveWindow(by) {
  state.first = Math.max(0, state.view.first + by * state.view.most);
  state.at = 0;
  play();
}

// A record.

// Goes to a record, and opens an entry of its own: the one that is named, or the one that is open already.
function step(at, entry) {
  const { view } = state, record = view && view.records[at];
  const has = (number) => Boolean(record) && record.entries.some(([one]) => one === number);
  state.at = at;
  state.opened = has(entry) ? entry : has(state.opened) ? state.opened : null;
  get('at').value = at;
  get('where').textContent = record ? `record ${record.index} of ${view.count}, ${ms(record.moment)}` : 'no record';
  get('to-first').disabled = get('to-before').disabled = at <= 0;
  get('to-next').disabled = get('to-last').disabled = !view || at >= view.records.length - 1;
  get('record').replaceChildren(...(record ? aboutRecord(record) : ['The scenario has no event.']));
  if (record && !view.faults) {
    markRows(record);
    markLine(view.lines[record.event], false);
    showLine(view.lines[record.event]);
  }
  drawNodes(record);
  markSteps();
}

const move = (by) => step(Math.min(Math.max(0, state.at + by), Math.max(0, state.view.records.length - 1)));

function aboutRecord(record) {
  const told = state.view.rules[record.rule], why = record.why || [];
  const fate = make('b', told.is_drop ? 'drop' : '', record.fate);
  const made = [make('p', 'line', record.line), record.way ? wayOf(record, told.is_drop) : null, make('p', '', fate, told.means ? `: ${told.means}` : '')];
  made.push(...why.map((reason) => make('p', 'why', make('b', '', 'Why: '), `${reason}.`)));
  const barred = barredNow(record);
  if (barred) made.push(make('p', 'hint', barred));
  if (told.is_drop && told.look) made.push(make('p', 'hint', `Look next at ${told.look}.`));
  made.push(...record.entries.flatMap(([number, said]) => entryOf(number, said)));
  for (const rule of told.rules) {
    made.push(make('p', 'hint', `RULES.md, ${rule.where}, line ${rule.line}: `, make('i', '', rule.condition), rule.standard ? ` (${rule.standard})` : ''));
  }
  return made.filter(Boolean);
}

function wayOf(record, isDrop) {
  const made = make('p', 'way');
  record.way.forEach((node, at) => {
    const isEnd = at === record.way.length - 1 && at > 0;
    if (at) made.append(isEnd && isDrop ? '⇥' : '→');
    made.append(make('span', isEnd ? `node end${isDrop ? ' drop' : ''}` : 'node', node));
  });
  if (isDrop) made.append(make('span', 'drop', ` ✕ ${record.fate}`));
  return made;
}
