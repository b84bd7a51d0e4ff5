#!/usr/bin/env python3
"""A scenario as one page of HTML that needs nothing else: to be opened in a browser, kept, and sent to others.

FILE is a scenario. The page has its text, the report, the picture, what each record means and what every node then knows, and,
with the built program, who reaches whom. It asks nobody for anything. If the scenario is refused, the page shows the faults,
which standard error has too, and the status is 1.

  page FILE >NAME.html
  page FILE --out NAME.html
"""
import base64
import hashlib
import json
import os
import sys

sys.dont_write_bytecode = True

import chains
import command
import kept
import packets
import parts
import player
import probes
import view

FOLDER = os.path.join(command.TOP, 'tools', 'web')
SCRIPTS = ('page.js', 'links.js', 'ladder.js', 'scale.js', 'parts.js', 'nodes.js', 'choices.js')  # which make one script, in this order
PEERS = {'fresh': kept.FRESH_MS, 'listed': kept.LISTED_MS, 'gap': kept.TRY_GAP_MS, 'tries': kept.TRIES_MAX}
CAPTURE_MAX = 1 << 20  # bytes of a capture that are put into a page
PARTS_MAX = 256  # different datagrams whose parts are put into a page
PROBES_MAX = 24  # pairs whose next packet is played for a page
POLICY = ("default-src 'none'; script-src 'sha256-{hash}'; style-src 'unsafe-inline'; img-src data:; connect-src {connect}; "
          "base-uri 'none'; form-action 'none'")
SECONDS_MAX = 60  # that a play may take


def part(name):
    return command.read(os.path.join(FOLDER, name))


def script():
    return '\n'.join(part(name) for name in SCRIPTS)


def as_json(value):
    """JSON that may stand in a page: nothing in it ends the element that it is in."""
    text = json.dumps(value, separators=(',', ':'), ensure_ascii=True)
    return text.replace('<', '\\u003c').replace('>', '\\u003e').replace('&', '\\u0026')


def policy(connect):
    """What the page may do, of itself: run its own script, and ask `connect`."""
    digest = base64.b64encode(hashlib.sha256(script().encode()).digest()).decode()
    return POLICY.format(hash=digest, connect=connect)


def html(title, data, connect="'none'"):
    """The page; `data` is what its script begins with."""
    parts = {'POLICY': policy(connect), 'TITLE': title.replace('&', '&amp;').replace('<', '&lt;'), 'STYLE': part('page.css'),
             'DATA': as_json({**data, 'peers': PEERS}), 'SCRIPT': script()}
    made = []
    for piece in part('page.html').split('{{'):
        name, closed, rest = piece.partition('}}')
        made.append(parts[name] + rest if closed else piece)
    return ''.join(made)


def capture_of(playing, text):
    """The capture of a scenario; who asks for one that isn't made is told why."""
    if chains.chain_of(text) is not None:
        raise command.Refusal('no capture is made with a chain, so that the bytes of a datagram aren\'t known here')
    status, written = playing.wire(text)
    if status not in (0, 8):
        raise command.Refusal('the scenario is refused')
    return written


def payloads_of(capture):
    """What each entry of the wire carries."""
    try:
        return parts.payloads(capture)
    except (packets.NoCapture, packets.Torn):
        raise command.Refusal('the program wrote no whole capture') from None


def bytes_of(playing, text, shown):
    """What a page has of a scenario's bytes: its capture in Base64, where that isn't too long, and of each entry that is shown, up to so
    many different ones, its parts; or why it has none of them."""
    try:
        capture = capture_of(playing, text)
        carried = payloads_of(capture)
    except command.Refusal as fault:
        return {'capture': None, 'datagrams': {}, 'no_datagrams': str(fault)}
    made, datagrams = {}, {}
    for number in sorted({number for record in shown['records'] for number, _ in record['entries']}):
        data = carried[number] if number < len(carried) else None
        if data is not None and (data in made or len(made) < PARTS_MAX):
            if data not in made:
                made[data] = parts.parts_of(data, playing.show(data))
            datagrams[number] = made[data]
    return {'capture': base64.b64encode(capture).decode() if len(capture) <= CAPTURE_MAX else None, 'datagrams': datagrams,
            'no_datagrams': 'this page has the bytes of its first datagrams alone; ./teredo web opens each'}


def probes_of(playing, text, name, shown):
    """The views of the next packets of the pairs of a matrix, by their names; none where there are more records than are shown at once."""
    made = {}
    if shown['count'] > shown['most']:
        return made
    for sender, receiver, _ in (shown.get('reach') or {}).get('pairs', [])[:PROBES_MAX]:
        longer, event = probes.probe(text, sender, receiver, playing.play)
        made[f'{sender} {receiver}'] = {'text': longer, 'event': event, 'view': view.view_of(playing, longer, name, event=event)}
    return made


def page_of(playing, text, name):
    """The page of a scenario's text."""
    return page_with(playing, text, name, view.view_of(playing, text, name))


def page_with(playing, text, name, shown):
    """The page of a scenario's text, which shows this."""
    data = {'is_alone': True, 'name': name, 'text': text, 'view': shown}
    if 'faults' not in shown:
        data |= {'report': playing.play(text)[1], 'probes': probes_of(playing, text, name, shown), **bytes_of(playing, text, shown)}
    data['note'] = playing.note
    return html(name, data)


def main():
    parser = command.with_program(command.words(__doc__))
    parser.add_argument('file', metavar='FILE', help='a scenario')
    parser.add_argument('--out', metavar='NAME', help='write the page there, and not on standard output')
    options = parser.parse_args()
    text = command.read(options.file)
    if not options.out and sys.stdout.isatty():
        raise command.Refusal('a page is long: page FILE >NAME.html puts it into a file', command.WRONG_WORDS)
    playing, name = player.player_of(options.program, SECONDS_MAX, once=True), os.path.basename(options.file)
    shown = view.view_of(playing, text, name)
    made = page_with(playing, text, name, shown)
    if options.out:
        command.write(options.out, made)
    else:
        print(made, end='')
    for fault in shown.get('faults', []):
        command.tell(f'{options.file}: {fault["said"]}')
    return command.FOUND if 'faults' in shown else 0


if __name__ == '__main__':
    command.run(main)
