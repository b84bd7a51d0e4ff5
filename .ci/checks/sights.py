"""What is seen of the laboratory in Chromium: no letter that is too small or too faint, Tab in the order in which one reads, no meaning
in a title alone, every NAT of a way in the picture, 10,000 records, and a scenario in a link. `tour` goes through it.
"""
import itertools
import os

import command
import page
import player
from browser import keys
from laboratory import EXAMPLE

CONTRAST_MIN, LETTER_MIN = 4.5, 12  # WCAG 2.2, 1.4.3; pixels
# Each text that is seen with its contrast, where that is too little, and its size, where it is too small. A text of a picture stands on paper.
FAINT = """
const canvas = document.createElement('canvas').getContext('2d', { willReadFrequently: true });
const rgba = (color) => {
  canvas.clearRect(0, 0, 1, 1);
  canvas.fillStyle = color;
  canvas.fillRect(0, 0, 1, 1);
  return [...canvas.getImageData(0, 0, 1, 1).data];
};
const light = (color) => {
  const [r, g, b] = color.slice(0, 3).map((part) => part / 255).map((part) => part <= 0.04045 ? part / 12.92 : ((part + 0.055) / 1.055) ** 2.4);
  return 0.2126 * r + 0.7152 * g + 0.0722 * b;
};
const over = (front, back, alpha) => front.map((part, at) => part * alpha + back[at] * (1 - alpha));
function ground(one) {
  for (let node = one; node; node = node.parentElement) {
    const color = rgba(getComputedStyle(node).backgroundColor);
    if (color[3] > 250) return color;
  }
  return rgba(getComputedStyle(document.body).backgroundColor);
}
const found = [];
for (const one of document.querySelectorAll('body *')) {
  const hasText = [...one.childNodes].some((node) => node.nodeType === 3 && node.textContent.trim()) || one.matches('textarea, input, select');
  if (!hasText || !one.getClientRects().length || one.matches('script, style, title')) continue;
  const style = getComputedStyle(one), isDrawn = one instanceof SVGElement;
  let alpha = 1;
  for (let node = one; node; node = node.parentElement) alpha *= Number(getComputedStyle(node).opacity);
  const back = ground(isDrawn ? document.getElementById('picture') : one), color = over(rgba(isDrawn ? style.fill : style.color), back, alpha);
  const [high, low] = [light(color), light(back)].sort((left, right) => right - left), contrast = (high + 0.05) / (low + 0.05);
  if (contrast < arguments[0] || parseFloat(style.fontSize) < arguments[1]) {
    found.push(`${one.tagName} ${one.id || one.className} ${one.textContent.slice(0, 30)}: ${contrast.toFixed(2)}, ${style.fontSize}`);
  }
}
return found;
"""
# Where each thing stands that Tab comes to, in the order of Tab: its part of the page with that part's place, its own place, and what it is.
TABBED = """
return [...document.querySelectorAll('main a, main button, main input, main textarea, main summary, main [tabindex]')]
  .filter((one) => !one.disabled && one.getClientRects().length && !one.closest('#picture svg'))
  .map((one) => [one.closest('section'), one.getBoundingClientRect(), one.id || one.textContent.slice(0, 20)])
  .map(([part, box, name]) => [part.id, Math.round(part.getBoundingClientRect().top + scrollY), Math.round(part.getBoundingClientRect().left),
    Math.round(box.top + scrollY), Math.round(box.height), name]);
"""


class Sights:
    """Steps of a tour."""

    def legible(self):
        """Every text, light and dark: of the page, of a refusal, of the dialogs, of the table of the ladder."""
        self.begin()
        for scheme in ('light', 'dark'):
            self.browser.look(scheme)
            self.browser.open(self.running.address)
            self.browser.run('get("steps-part").open = true; step(37)')
            self.browser.wait('get("steps-table").rows.length > 20')
            for name, act in (('page', 'step(20)'), ('examples', 'get("open-gallery").click()'), ('form', 'get("gallery").close(); get("open-two").click()'),
                              ('form with carriers', 'get("carriers").value = "each"; get("carriers").dispatchEvent(new Event("change"))')):
                self.browser.run(act)
                faint = self.browser.run(FAINT, CONTRAST_MIN, LETTER_MIN)
                self.must(not faint, f'{scheme}, {name}: {faint[:4]}')
            self.browser.run('get("two").close()')
            self.browser.type(command.read(EXAMPLE).replace('"port"', '"prot"', 1))
            faint = self.browser.run(FAINT, CONTRAST_MIN, LETTER_MIN)
            self.must(not faint, f'{scheme}, a refusal: {faint[:4]}')
        self.browser.look()

    def reading(self):
        """Tab goes through one part of the page and then through the one beside it or below it, and in each downwards, also on a phone; and no
        meaning stands in a title alone."""
        for width in (None, 390):
            self.begin()
            self.browser.look('light', width)
            self.browser.open(self.running.address)
            self.browser.run('get("steps-part").open = false')
            stops = self.browser.run(TABBED)
            wrong = [(one, other) for one, other in zip(stops, stops[1:]) if
                     (other[3] + other[4] < one[3] + one[4] - 40 if one[0] == other[0] else other[1] < one[1] - 40 and other[2] <= one[2])]
            parts = list(dict.fromkeys(stop[0] for stop in stops))
            wrong += [('parts', parts)] if [part for part, _ in itertools.groupby(stop[0] for stop in stops)] != parts else []
            self.must(len(stops) > 10 and not wrong, f'{width}: Tab goes from {wrong[:2]}')
            titles = self.browser.run('return [...document.querySelectorAll("[title]")].map((one) => one.outerHTML)')
            self.must(not titles, f'titles: {titles[:2]}')
            means = self.browser.run('return [get("reach-words").textContent, Object.values((state.view.reach || { means: {} }).means)]')
            self.must(all(one in means[0] for one in means[1]), f'the words of reach are not told: {means}')
        self.browser.look()
        self.begin()
        self.browser.run('get("steps-part").open = true')
        self.must(self.browser.wait('get("steps-table").rows.length === state.view.rows.length + 1'), 'the table has other rows than the picture')
        self.browser.run('get("steps-table").querySelectorAll("button")[9].click()')
        self.must(self.browser.run('return state.at === state.view.rows[9] && get("steps-table").querySelectorAll("tr.now").length > 0'), 'a row leads elsewhere')

    def ways(self):
        """Of two homes behind one carrier, and of a tree of NATs, each NAT has its column, and a datagram that is turned back ends there."""
        self.begin()
        for name, nats in (('two_homes', ['home1', 'home2', 'carrier']), ('tree_of_nats', ['n1', 'n2', 'n3', 'n4', 'n5'])):
            self.must(self.shows(name), f'{name} is not shown')
            columns = self.browser.run('return state.view.columns.map(([name]) => name)')
            self.must(set(nats) <= set(columns), f'{name}: the columns are {columns}')
            self.browser.keep(name)
        self.shows('two_homes')
        self.must(self.browser.run('return state.view.steps.filter((row) => row[5] === "!hairpin").every((row) => row[3] === "carrier")'),
                  'the carrier does not turn back')

    def bars(self):
        """A NAT's bar ends where nothing renewed it; it is named where one points at it, and in the table; and who is barred is named at each
        record where that holds."""
        self.begin()
        self.shows('lost_mapping')
        drawn = self.browser.run("""return [...document.querySelectorAll("#picture svg rect.lets")].map((bar) => [Number(bar.getAttribute("y")),
            Number(bar.getAttribute("y")) + Number(bar.getAttribute("height")), bar.textContent])""")
        row = self.browser.run('return rowY(state.view.rows.indexOf(13))')  # where n1 has closed
        mine = [(top, low) for top, low, said in drawn if said.startswith('n1 lets in anyone')]
        self.must(len(mine) == 2 and mine[0][1] < row < mine[1][0], f'the bars of n1 are {mine}, beside {row}')
        pointed = self.browser.run("""const bar = document.querySelector("#picture svg rect.over"); bar.scrollIntoView();
            const box = bar.getBoundingClientRect(), there = document.elementFromPoint(box.left + box.width / 2, box.top + 30);
            return [there.classList.contains("over"), there.textContent]""")
        self.must(pointed[0] and 'lets in anyone' in pointed[1], f'a bar says {pointed}')
        self.browser.run('get("steps-part").open = true')
        self.must(self.browser.wait('get("steps-table").textContent.includes("n1 has shut for a: doesn\'t let in anyone any more")'), 'the table says of no bar')
        self.browser.keep('bars')
        self.shows('unreachable_peer')
        barred = self.browser.run("""return state.view.records.map((record, at) => { step(at); return [record.moment, /barred until ([0-9,]+) ms/.exec(get("nodes").textContent)]; })
            .filter(([moment, found]) => moment >= 18000 && moment < 312000).map(([, found]) => found && found[1])""")
        self.must(len(barred) > 5 and set(barred) == {'312,000'}, f'who is barred is said as {barred}')
        self.browser.keep('barred')

    def scale(self):
        """With time to scale, by a key: rows of different moments stand as far from each other as time says, a bar ends at its moment, a row
        leads to its record as before, letters stay legible, and the box that is cleared brings the picture back."""
        self.begin()
        self.shows('lost_mapping')
        before = self.browser.run('return document.querySelector("#picture svg").outerHTML')
        self.browser.run('get("timed").focus()')
        keys(self.browser, 'SPACE')
        tops = self.browser.run('return state.view.rows.map((_, row) => Number(document.querySelectorAll("#picture rect.hit")[row].getAttribute("y")))')
        moments = self.browser.run('return state.view.steps.map(([, moment]) => moment)')
        pairs = list(zip(zip(tops, tops[1:]), zip(moments, moments[1:])))
        room = {after - before: low - top for (top, low), (before, after) in pairs}  # from a time to what lies between rows
        step = room.get(0, 0)
        self.must(step > 0 and {59_999, 40_000} <= set(room) and abs((room[59_999] - step) * 40_000 - (room[40_000] - step) * 59_999) < 60_000
                  and room[1] - step < 1, f'rows stand apart by {room}')
        row = moments.index(60_000)
        foot = self.browser.run("""const bar = document.querySelector('#picture svg rect.lets[data-until="60000"]');
            return Number(bar.getAttribute("y")) + Number(bar.getAttribute("height"))""")
        self.must(abs(foot - tops[row]) < 3, f'the bar of n1 ends at {foot}, and the row at {tops[row]}')
        said = self.browser.run('return [...document.querySelectorAll("#picture svg text.time")].map((one) => one.textContent)')
        self.must(said == ['+59,999', '+40,000'], f'of time is said {said}')
        self.browser.run('document.querySelectorAll("#picture rect.hit")[arguments[0]].dispatchEvent(new MouseEvent("click"))', row)
        self.must(self.browser.run('return state.view.records[state.at].index === state.view.rows[arguments[0]]', row), 'a row to scale leads elsewhere')
        faint = self.browser.run(FAINT, CONTRAST_MIN, LETTER_MIN)
        self.must(not faint, f'to scale: {faint[:4]}')
        self.browser.keep('scale')
        self.shows('cone_client')
        self.must(self.browser.run('return get("timed").disabled && !state.shifts'), 'a history of one moment has a scale')
        self.shows('lost_mapping')
        self.browser.run('get("timed").click()')
        self.must(self.browser.run('return document.querySelector("#picture svg").outerHTML') == before, 'the picture does not come back')

    def shows(self, name):
        """Whether an example is shown, which is asked for by its name."""
        self.browser.run('begin(data.gallery.flatMap((group) => group.items).find((item) => item.name === arguments[0]).text, `${arguments[0]}.toml`)', name)
        return self.browser.wait('state.view.name === `${arguments[0]}.toml` && state.answered === state.asked', name)

    def many(self):
        """A scenario of more than 10,000 records: the windows, and a word that leads to its record, whatever its number."""
        self.begin()
        text = command.read(EXAMPLE)
        events = ''.join('  "host a b 00", "settle",\n' for _ in range(5000))
        self.browser.type(text.replace('  "host b a', events + '  "host b a', 1))
        self.must(self.browser.run('return state.view.count') > 10_000 and not self.browser.run('return get("faults").textContent'), 'it is not shown')
        self.must(self.browser.run('return !get("windows").hidden && get("window").textContent.includes(" of ")'), 'it does not say what it leaves out')
        if self.browser.run('return state.view.reach !== null'):
            self.browser.run('document.querySelectorAll("#reach button")[1].click()')
            self.must(self.browser.wait('!get("banner").hidden && state.view.first > 8000 && state.view.records[state.at].line.includes(" host b ")'),
                      f'a word leads to {self.browser.run("return state.view.records[state.at].line")}')
            self.browser.keep('many')
        self.browser.run('get("later").disabled || get("later").click()')

    def links(self):
        """A link that holds a scenario with what is shown of it: any page by itself shows that, and `web` plays its text anew. What it has of
        scripts and of pictures from elsewhere isn't taken, and one that can't be read leaves the page as it is."""
        self.begin()
        self.shows('two_homes')
        word = self.made_link()
        written = os.path.join(self.browser.folder, 'linked.html')
        command.write(written, page.page_of(player.Player(self.program), command.read(EXAMPLE), os.path.basename(EXAMPLE)))
        self.must(self.opens(f'file://{written}#v={word}', 'two_homes.toml'), 'a page by itself does not show what the link has')
        told = self.browser.run('return [get("note").textContent, document.querySelectorAll("#picture svg circle").length, get("text").value]')
        self.must('nothing of it is proved' in told[0] and told[1] > 20 and '# chain: home1:carrier' in told[2], f'a link shows {told}')
        self.must(self.browser.run('return [...document.querySelectorAll("#reach button")].every((one) => one.disabled)'), 'a link leads to pairs of another one')
        self.must(self.made_link() == word, 'a link that was opened makes another one')
        self.must(self.opens(f'{self.running.address}#v={word}', 'two_homes.toml'), 'web does not play what the link has')
        evil = self.made_link("""state.view.pictures = state.view.pictures.map((one) => one.replace('</svg>', '<script>document.title="bad"</script>'
            + '<foreignObject><b xmlns="http://www.w3.org/1999/xhtml" onclick="x()">x</b></foreignObject><image href="http://192.0.2.1/x"/></svg>')
            .replace('<rect ', '<rect onload="document.title=1" style="fill:url(http://192.0.2.1/y)" '));""")
        self.must(self.opens(f'file://{written}#v={evil}', 'two_homes.toml'), 'a link with a script is not shown')
        left = self.browser.run("""return [document.title, document.querySelectorAll("#picture svg script, #picture svg foreignObject, #picture svg image").length,
            document.querySelectorAll("#picture svg [onload], #picture svg [style]").length]""")
        self.must(left == ['two_port_restricted.toml', 0, 0], f'of a script in a link there is left {left}')
        for wrong in ('x', word[:-40], '_' * 50, word.swapcase()):
            self.must(self.opens(f'file://{written}#v={wrong}', 'two_port_restricted.toml'), f'{wrong[:20]} shows something else')
        self.browser.complaints()  # the policy tells of what it refused

    def made_link(self, before=''):
        """The fragment of the scenario that is shown."""
        return self.browser.driver.execute_async_script(f'const done = arguments[0]; {before} packed(JSON.stringify({{ name: state.name, text: state.text, '
                                                        'view: state.view })).then(done)')

    def opens(self, address, name):
        self.browser.driver.get('about:blank')
        self.browser.driver.get(address)
        return self.browser.wait('typeof state === "object" && state.view !== null && state.name === arguments[0] && get("gutter").textContent.length > 5', name)
