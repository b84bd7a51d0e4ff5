"""The laboratory in Chromium: an edit, a refusal, a step, the matrix, downloads, the address, a page by itself; no error on the
console, and no width that is too much for a phone. `sights` has what is seen.
"""
import base64
import os
import re
import subprocess
import tempfile

import command
import page
import player
from browser import Browser, keys
from laboratory import EXAMPLE, HOSTILE, NO_REACH, REFUSED, Running, flow_svg, script
from sights import Sights


class Tour(Sights):
    """What is tried in a browser; `found` has what is wrong."""

    def __init__(self, program, running, browser):
        self.program, self.running, self.browser, self.found = program, running, browser, []

    def must(self, is_right, text):
        if not is_right:
            self.found.append(text)

    def whole(self):
        for step in (self.steps, self.datagrams, self.picture, self.edit, self.downloads, self.examples, self.two, self.address, self.matrix, self.narrow,
                     self.crowded, self.legible, self.reading, self.ways, self.bars, self.scale, self.many, self.links, self.alone):
            try:
                step()
            except Exception as fault:  # of the driver: one step is over, and the next one begins anew
                self.found.append(f'{step.__name__}: {type(fault).__name__}: {str(fault).splitlines()[0]}')
            said = self.browser.complaints()
            self.must(not said, f'{step.__name__}: on the console: {said[:3]}')
        return self.found

    def begin(self):
        self.browser.look()
        self.must(self.browser.open(self.running.address), 'the page shows no scenario')

    def steps(self):
        self.begin()
        browser, count = self.browser, len(command.read(EXAMPLE + '.stdout').splitlines()) - 1
        browser.keep('light')
        begun = browser.run('return state.at')
        keys(browser, 'ARROW_RIGHT', 'ARROW_RIGHT', 'ARROW_LEFT')
        self.must(browser.run('return state.at') == begun + 1, 'the arrow keys do not step')
        keys(browser, 'END')
        self.must(browser.run('return state.at') == count - 1, 'End does not lead to the last record')
        keys(browser, 'HOME')
        browser.run('document.querySelectorAll("#picture rect.hit")[9].dispatchEvent(new MouseEvent("click"))')
        at = browser.run('return [state.at, state.view.rows[9]]')
        self.must(at[0] == at[1], f'a click on row 9 leads to record {at}')
        for at in range(count):
            browser.run('step(arguments[0])', at)
            told = browser.run('return [get("record").textContent, document.querySelectorAll("#picture rect.now").length, get("nodes").children.length]')
            self.must('RULES.md' in told[0] and told[2] == 5, f'record {at}: {told}')
        self.must('fresh until 42,000 ms' in browser.run('return get("nodes").textContent'), 'no peer is told of')
        browser.run('step(36)')
        browser.keep('light_record')
        browser.look('dark')
        browser.keep('dark')

    def datagrams(self):
        """A click on a row of the ladder opens its datagram, its button shuts it and opens it again, and a fault is told."""
        self.begin()
        self.must(self.browser.run('return state.at === state.view.opening && state.at > 0'), 'the page does not open at the record that matters')
        row = self.browser.run('return state.view.carried.indexOf(20)')
        self.browser.run('document.querySelectorAll("#picture rect.hit")[arguments[0]].dispatchEvent(new MouseEvent("click"))', row)
        self.must(self.browser.wait('get("record").querySelectorAll(".parts tr").length > 10'), 'a click on a row opens no datagram')
        told = self.browser.run('return get("record").querySelector(".parts").textContent')
        # The address of a: its server, the flags, and port 1024 and 198.51.100.1 with every bit turned.
        self.must(all(word in told for word in ('c000 0201', '192.0.2.1', 'the cone bit is not set', 'fbff', '1024', '39cc 9bfe', '198.51.100.1', 'bubble, no bytes')),
                  f'of a bubble is told {told}')
        self.browser.keep('datagram')
        for count in (0, 1):
            self.browser.run('get("record").querySelector("button.entry").click()')
            self.must(self.browser.wait('get("record").querySelectorAll(".parts table").length === arguments[0]', count)
                      and self.browser.run('return document.activeElement.classList.contains("entry")'), f'a button leaves {1 - count} datagrams open')
        self.shows('two_homes')
        self.browser.run('step(0); get("record").querySelector("button.entry").click()')
        self.must(self.browser.wait('get("record").querySelector(".parts").textContent.includes("no capture is made with a chain")'), 'it does not say why there are no bytes')

    def picture(self):
        """What is drawn is what `flow` makes, apart from the marks of the page."""
        self.begin()
        for words, has_ends in (((), False), (('--ends',), True)):
            if self.browser.run('return get("ends").checked') != has_ends:
                self.browser.run('get("ends").click()')
            made = flow_svg(self.program, EXAMPLE, *words)
            drawn = self.browser.run('''const svg = document.querySelector("#picture svg").cloneNode(true);
                svg.querySelectorAll(".hit, .now, .dot, .over").forEach((mark) => mark.remove()); svg.removeAttribute("role");
                const made = new DOMParser().parseFromString(arguments[0], "image/svg+xml").documentElement;
                return [new XMLSerializer().serializeToString(svg).trim() === new XMLSerializer().serializeToString(document.importNode(made, true)).trim(),
                        svg.querySelectorAll("*").length]''', made)
            self.must(drawn[0] and drawn[1] > 100, f'the picture with {words} is another one than that of flow')
        self.browser.run('step(36)')
        self.browser.keep('ports')

    def edit(self):
        self.begin()
        text = command.read(EXAMPLE)
        self.browser.type(text.replace('kind = "port"', 'kind = "prot"', 1))
        told = self.browser.run('''const band = get("band");
            return [get("faults").textContent, band.dataset.line, band.classList.contains("fault"), get("picture").className]''')
        line = text[:text.index('kind = "port"')].count('\n') + 1
        self.must('scenario nat[0].kind: range' in told[0] and 'did you mean port?' in told[0] and told[1] == str(line) and told[2]
                  and told[3] == 'stale', f'a refusal: {told}')
        self.browser.keep('refused')
        self.browser.run('get("faults").querySelector("button").click()')
        chosen = self.browser.run('const area = get("text"); return area.value.slice(area.selectionStart, area.selectionEnd)')
        self.must(chosen == '"prot"', f'the place of a fault is {chosen}')
        self.browser.type(text.replace('kind = "port"', 'kind = "cone"', 1))
        self.must(self.browser.run('return get("faults").textContent === "" && state.view.nodes.some((one) => one.about.startsWith("full cone"))'),
                  'a change is not played')
        self.browser.type(f'# {HOSTILE}\n{text}')
        self.must(self.browser.run('return document.title') == 'Teredo laboratory', 'a scenario runs a script')
        for broken in ('', 'x', '[' * 5000, 'seed = 1', '\x00', '9' * 6000, 'events = [' + '[' * 500, 'seed = ' + '9' * 6000):
            self.browser.type(broken)
            self.must(self.browser.run('return get("faults").textContent.length > 5 && !get("faults").textContent.includes("a fault of this tool")'),
                      f'{broken[:20]!r}: {self.browser.run("return get(`faults`).textContent")[:200]}')
        self.browser.type(text)

    def downloads(self):
        self.begin()
        lab = subprocess.run([self.program, 'lab', EXAMPLE], stdout=subprocess.PIPE).stdout
        wire = subprocess.run([self.program, 'wire', EXAMPLE], stdout=subprocess.PIPE).stdout
        with open(EXAMPLE, 'rb') as file:
            scenario = file.read()
        due = {'scenario': ('toml', scenario), 'report': ('txt', lab), 'capture': ('pcap', wire), 'picture': ('svg', flow_svg(self.program, EXAMPLE).encode()),
               'page': ('html', page.page_of(player.Player(self.program), scenario.decode(), os.path.basename(EXAMPLE)).encode())}
        for what, (ending, data) in due.items():
            self.must(self.browser.downloaded(what, f'two_port_restricted.{ending}') == data, f'another {what} is saved')

    def examples(self):
        """Each example of the gallery, by its button."""
        self.begin()
        self.browser.run('get("open-gallery").click()')
        self.browser.keep('gallery')
        count = self.browser.run('return document.querySelectorAll("#gallery-list button").length')
        self.must(count > 60, f'the gallery has {count} examples')
        for at in range(count):
            asked = self.browser.run('const before = state.asked; document.querySelectorAll("#gallery-list button")[arguments[0]].click(); return before', at)
            self.must(self.browser.wait('state.asked > arguments[0] && state.answered === state.asked', asked), f'example {at} is not played')
            name, faults, ended = self.browser.run('move(1e9); return [state.name, get("faults").textContent, get("where").textContent]')
            self.must(bool(faults) == (name == 'refused.toml'), f'{name}: {faults}')

    def two(self):
        self.begin()
        self.browser.run('get("open-two").click()')
        self.browser.keep('two')
        self.browser.run('get("a-kind").value = "symmetric"; get("b-kind").value = "cone"; get("two-form").requestSubmit()')
        self.must(self.browser.wait('state.name === "symmetric_and_cone.toml" && state.view.records.some((one) => one.fate === "symmetric")'),
                  'two hosts of its own are not played')
        self.browser.run('''get("open-two").click(); get("a-kind").value = "port"; get("carriers").value = "each"; get("a-carrier").value = "restricted";
            get("b-carrier").value = "port"; get("two-form").requestSubmit()''')
        self.must(self.browser.wait('state.view.chain === "n1:carrier_a,n2:carrier_b"'), 'carriers are not played')
        self.must(self.browser.run('return state.view.records[state.at].line.includes(" host a ")'), 'it does not begin with the first packet')
        self.browser.keep('carriers')
        self.choose('carriers', 'one')
        seen = self.browser.run('return [...get("two-carriers").querySelectorAll("select")].filter((one) => one.offsetParent).map((one) => one.id)')
        self.must(seen == ['carriers', 'carrier'], f'of one NAT for both the form asks for {seen}')
        self.browser.run('get("two-form").requestSubmit()')
        self.must(self.browser.wait('state.view.chain === "n1:carrier,n2:carrier" && state.view.reach.pairs.every(([, , word]) => word === "one_nat")'),
                  'two hosts behind one NAT of a carrier are said to reach each other')
        self.choose('b-kind', 'native')
        self.must(self.browser.run('return get("carriers").disabled && get("carriers").value === "none"'), 'an IPv6 host may have a carrier')
        self.browser.run('get("two").close()')

    def choose(self, menu, value):
        """Opens the form of two hosts, and chooses this of a menu as somebody does."""
        self.browser.run('get("two").open || get("open-two").click(); get(arguments[0]).value = arguments[1]; get(arguments[0]).dispatchEvent(new Event("change"))',
                         menu, value)

    def address(self):
        """A scenario in the address, and addresses that have none."""
        self.begin()
        text = '# \u00fc\u4e2d\U0001f600\n' + command.read(EXAMPLE).replace('"port"', '"restricted"')
        self.browser.type(text)
        self.browser.wait('location.hash.length > 100')
        address = self.browser.run('return location.href')
        self.must(self.browser.open(address) and self.browser.run('return state.text') == text, 'the address does not bring the scenario back')
        for word in ('#s=', '#s=%%%', '#s=____', '#x', '#s=' + base64.urlsafe_b64encode(b'\xff\xfe').decode().rstrip('=')):
            self.must(self.browser.open(self.running.address + word) and self.browser.run('return state.text') == command.read(EXAMPLE),
                      f'{word} shows another scenario')

    def matrix(self):
        """Where the program has the word `reach`, a pair leads to its packet; where it hasn't, there is no matrix."""
        self.begin()
        has_word = subprocess.run([self.program, 'reach', EXAMPLE, '-'], stdout=subprocess.PIPE).returncode != 2
        cells = self.browser.run('return document.querySelectorAll("#reach button").length')
        self.must(cells == (2 if has_word else 0) and self.browser.run('return get("reach-part").hidden') != has_word, f'the matrix has {cells} pairs')
        if not has_word:
            print('web: without the word reach there is no matrix')
            return
        before = self.browser.run('return state.view.count')
        self.browser.run('document.querySelectorAll("#reach button")[1].click()')
        self.must(self.browser.wait('''!get("banner").hidden && state.view.count > arguments[0]
            && state.view.records[state.at].line.includes(" host b ")''', before), 'a pair does not lead to its packet')
        self.must('within 1: it goes straight there' in self.browser.run('return get("banner-text").textContent'), 'its word is not told')
        self.browser.keep('matrix')
        self.browser.run('get("back").click()')
        self.must(self.browser.run('return [state.view.count, state.text]') == [before, command.read(EXAMPLE)], 'Back does not lead back')

    def narrow(self):
        for scheme in ('light', 'dark'):
            self.begin()
            self.browser.look(scheme, 390)
            self.browser.open(self.running.address)
            self.browser.run('step(37)')
            self.browser.keep(f'narrow_{scheme}')
            self.must(self.browser.run('return document.documentElement.scrollWidth <= innerWidth'), 'the page is wider than a phone')
            self.browser.run('get("nodes-part").scrollIntoView()')
            self.browser.keep(f'narrow_{scheme}_nodes')
        self.browser.look()

    def crowded(self):
        """Names of sixteen letters, and more than sixty records."""
        text = command.read(EXAMPLE)
        for short, long in (('a', 'a_client_of_mine'), ('b', 'b_client_of_hers'), ('n1', 'n1_a_home_router'), ('n2', 'n2_a_home_router'),
                            ('s1', 's1_a_server_here')):
            text = re.sub(rf'(["\s]){short}(?=["\s])', rf'\g<1>{long}', text)
        self.begin()
        self.browser.type(text.replace('  "host b', '  "advance 60000", "settle", "advance 60000", "settle",\n  "host b'))
        self.must(self.browser.run('return state.view.count') > 60 and not self.browser.run('return get("faults").textContent'),
                  'the crowded scenario is refused')
        self.browser.run('move(1e9)')
        self.browser.keep('crowded')
        boxes = self.browser.run('''return [...get("heads").children].map((head) => head.getBoundingClientRect())
            .map((box) => [box.left, box.right]).sort((one, other) => one[0] - other[0])''')
        self.must(all(left[1] < right[0] for left, right in zip(boxes, boxes[1:])), 'heads of columns overlap')

    def alone(self):
        """Pages by themselves, of a scenario and of a refused one."""
        for name, path in (('alone', EXAMPLE), ('alone_refused', REFUSED)):
            written = os.path.join(self.browser.folder, f'{name}.html')
            command.write(written, page.page_of(player.Player(self.program), command.read(path), os.path.basename(path)))
            self.browser.driver.get('file://' + written)
            self.must(self.browser.wait('typeof state === "object" && (state.view !== null || get("faults").children.length > 0)'), f'{name} shows nothing')
            self.browser.keep(name)
        self.browser.driver.get('file://' + os.path.join(self.browser.folder, 'alone.html'))
        keys(self.browser, 'END')
        self.must(self.browser.run('return state.at === state.view.records.length - 1 && get("text").readOnly'), 'a page by itself does not step')
        report = self.browser.downloaded('report', 'two_port_restricted.txt')
        self.must(report == command.read(EXAMPLE + '.stdout').encode(), 'a page by itself saves another report')
        capture = self.browser.downloaded('capture', 'two_port_restricted.pcap')
        self.must(capture == subprocess.run([self.program, 'wire', EXAMPLE], stdout=subprocess.PIPE).stdout, 'a page by itself saves another capture')
        if self.browser.run('return state.view.reach !== null'):
            self.browser.run('document.querySelectorAll("#reach button")[0].click()')
            self.must(self.browser.wait('!get("banner").hidden && state.view.records[state.at].line.includes(" host a ")'),
                      'a pair of a page by itself leads nowhere')


def check_browser(program, pictures):
    found = []
    with tempfile.TemporaryDirectory() as folder:
        without = script(folder, 'without', NO_REACH.format(program))
        for number, one in enumerate((program, without)):
            with Running(one, EXAMPLE) as running:
                browser = Browser(folder, pictures if number == 0 else None)
                try:
                    tour = Tour(one, running, browser)
                    if number == 0:
                        found += tour.whole()
                    else:
                        tour.matrix()
                        found += tour.found
                finally:
                    browser.driver.quit()
                said, status = running.end()
                found += [f'it ended with {status}, {said[-300:]}'] if status or 'Traceback' in said else []
    return found
