// Time to scale: between rows of different moments there is room, as long as the time that goes by. What is longer than STRETCH_MAX is cut,
// dashed, and says how long it is; rows of one moment stay one below the other.

const STRETCH = 51, STRETCH_MAX = 204, SAID_MIN = 20;   // pixels: of the middle one of all times between rows, at most, and for a text in it
const AXIS = 84;   // from the left, where the moments end

const isTimed = () => get('timed').checked;
const momentOf = (row) => state.view.steps[row][1];
const rowAt = (row) => rowY(row) + (state.shifts ? state.shifts[row] : 0);

// By how much each row stands lower than in a picture without time, and what lies above it.
function measure() {
  const rows = state.view.rows.map((_, row) => row), times = rows.map((row) => (row ? momentOf(row) - momentOf(row - 1) : 0));
  const known = times.filter((time) => time > 0).sort((one, other) => one - other);
  get('timed').disabled = !known.length;
  get('scale-legend').hidden = !isTimed() || !known.length;
  state.shifts = null;
  if (!isTimed() || !known.length) return [];
  const scale = STRETCH / known[Math.floor(known.length / 2)], stretches = times.map((time) => Math.min(STRETCH_MAX, time * scale));
  let sum = 0;
  state.shifts = stretches.map((stretch) => { sum += stretch; return sum; });
  return stretches.map((stretch, row) => ({ stretch, time: times[row], isCut: times[row] * scale > STRETCH_MAX }));
}

// Moves what the picture has of each row, makes its columns longer, and ends each bar at the moment at which its NAT shuts.
function layByTime(svg) {
  const stretches = measure();
  if (!state.shifts) return;
  const more = state.shifts[state.shifts.length - 1], height = Number(svg.getAttribute('height')) + more;
  for (const one of [...svg.children]) place(one, more, stretches);
  svg.setAttribute('height', height);
  svg.setAttribute('viewBox', `0 0 ${svg.getAttribute('width')} ${height}`);
  stretches.forEach((one, row) => drawStretch(svg, one, row));
}

function place(one, more, stretches) {
  const number = (name) => Number(one.getAttribute(name)), row = rowOf(firstY(one));
  if (one.localName === 'line' && one.getAttribute('y1') !== one.getAttribute('y2') && number('y1') < rowY(0) - state.view.row[1] / 2 && number('y2') > rowY(0)) {
    one.setAttribute('y2', number('y2') + more);
  } else if (one.localName === 'rect' && !one.hasAttribute('stroke')) {
    one.setAttribute('height', number('height') + more);
  } else if (one.matches('.lets')) {
    const top = number('y') < rowY(0) ? number('y') : rowAt(rowOf(number('y'))), low = lowOf(one, number('y') + number('height'), more, stretches);
    one.setAttribute('y', top);
    one.setAttribute('height', Math.max(1, low - top));
  } else if (row >= 0) {
    one.setAttribute('transform', `translate(0 ${state.shifts[row]})`);
  }
}

const firstY = (one) => Number(one.getAttribute('y') ?? one.getAttribute('cy') ?? one.getAttribute('y1') ?? (one.getAttribute('points') || '').split(/[ ,]/)[1] ?? 0);

// The row that a height belongs to, -1 above all.
function rowOf(y) {
  const [first, step] = state.view.row, row = Math.floor((y - first + step / 2) / step);
  return y ? Math.min(row, state.view.rows.length - 1) : -1;
}

// Where a bar ends: at its moment, at the row of the word that shuts it, or at the foot.
function lowOf(bar, low, more, stretches) {
  const until = Number(bar.getAttribute('data-until')), after = until ? state.view.steps.findIndex(([, moment]) => moment >= until) : -1;
  if (after > 0) {
    const { stretch, time } = stretches[after], gone = time ? (until - momentOf(after - 1)) / time : 1;
    return rowAt(after) - state.view.row[1] / 2 - stretch * (1 - gone);
  }
  return low > rowY(state.view.rows.length - 1) ? low + more : rowAt(rowOf(low));
}

// The time between two rows, at the left.
function drawStretch(svg, { stretch, time, isCut }, row) {
  if (!time) return;
  const low = rowAt(row) - state.view.row[1] / 2, line = document.createElementNS(SVG, 'line'), text = document.createElementNS(SVG, 'text');
  const sizes = { x1: AXIS, x2: AXIS, y1: low - stretch, y2: low, stroke: 'currentColor', class: 'time', ...(isCut ? { 'stroke-dasharray': '2 4' } : {}) };
  for (const [name, value] of Object.entries(sizes)) line.setAttribute(name, value);
  svg.append(line);
  if (stretch < SAID_MIN) return;
  for (const [name, value] of Object.entries({ x: AXIS - 6, y: low - stretch / 2 + 4, 'text-anchor': 'end', class: 'time' })) text.setAttribute(name, value);
  text.textContent = `${isCut ? '⋮ ' : ''}+${time.toLocaleString('en-US')}`;
  svg.append(text);
}
