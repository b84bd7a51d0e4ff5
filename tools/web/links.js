// A scenario in an address, behind `#`: its text alone, #s=, for who can play it, and with what is shown of it, #v=, for any copy of a page.

const SHOWN_MAX = 16e6;   // letters of what an address may have in it
const DRAWN = ['svg', 'title', 'rect', 'line', 'text', 'circle', 'polygon'];   // what a picture is made of, and how
const LOOKS = ['x', 'y', 'x1', 'x2', 'y1', 'y2', 'cx', 'cy', 'r', 'width', 'height', 'viewBox', 'points', 'fill', 'stroke', 'stroke-width',
  'stroke-dasharray', 'text-anchor', 'font-weight', 'font-size', 'font-family', 'class', 'role', 'data-until'];

const letters = (word) => btoa(word).replace(/\+/g, '-').replace(/\//g, '_').replace(/=+$/, '');
const unlettered = (word) => Uint8Array.from(atob(word.replace(/-/g, '+').replace(/_/g, '/')), (letter) => letter.charCodeAt(0));

function encodeBytes(bytes) {
  let word = '';
  for (const byte of bytes) word += String.fromCharCode(byte);
  return letters(word);
}

const encode = (text) => encodeBytes(new TextEncoder().encode(text));
const decode = (word) => new TextDecoder('utf-8', { fatal: true }).decode(unlettered(word));

// Bytes through a stream that packs them, or unpacks them.
async function through(bytes, stream) {
  const reader = new Blob([bytes]).stream().pipeThrough(stream).getReader(), parts = [];
  let length = 0;
  for (let part = await reader.read(); !part.done; part = await reader.read()) {
    length += part.value.length;
    if (length > SHOWN_MAX) throw new Error('too long');
    parts.push(part.value);
  }
  return new Uint8Array(await new Blob(parts).arrayBuffer());
}

const packed = async (text) => encodeBytes(await through(new TextEncoder().encode(text), new CompressionStream('deflate-raw')));
const unpacked = async (word) => new TextDecoder('utf-8', { fatal: true }).decode(await through(unlettered(word), new DecompressionStream('deflate-raw')));

function keepFragment() {
  const word = encode(state.text);
  if (!data.is_alone) history.replaceState(null, '', word.length > FRAGMENT_MAX ? '#' : `#s=${word}`);
}

// What the address has in it: a name and a text, and maybe what is shown of it; null where it has nothing, or nothing that can be read.
async function ofFragment() {
  const found = /^#([sv])=([A-Za-z0-9_-]+)$/.exec(location.hash);
  try {
    if (!found) return null;
    if (found[1] === 's') return data.is_alone ? null : { name: 'scenario.toml', text: decode(found[2]) };
    const { name, text, view } = JSON.parse(await unpacked(found[2]));
    if (typeof name !== 'string' || typeof text !== 'string' || !Array.isArray(view.records) || !Array.isArray(view.pictures)) throw new Error('no view');
    return { name, text, view };
  } catch {
    say('the address has no scenario that can be read');
    return null;
  }
}

// A picture that came by an address: of lines and letters alone.
function cleaned(svg) {
  for (const one of [svg, ...svg.querySelectorAll('*')]) {
    if (!DRAWN.includes(one.localName) || one.namespaceURI !== SVG) one.remove();
    for (const { name } of [...one.attributes]) if (!LOOKS.includes(name) && name !== 'xmlns') one.removeAttribute(name);
  }
  return svg;
}

async function copyAddress() {
  const shown = { name: state.name, text: state.text, view: state.view };
  try {
    const word = await packed(JSON.stringify(shown));
    const address = `${data.is_alone ? location.href.split('#')[0] : ''}#v=${word}`;
    await navigator.clipboard.writeText(address);
    say(`copied, ${address.length.toLocaleString('en-US')} letters: what begins with # goes behind the address of any page of \`page\`, or of ./teredo web`);
  } catch {
    say('this browser packs or copies nothing');
  }
}
