"""How processor time grows where there is more and more of one thing."""
import loads
import runs

STARTS = 20  # runs, the least of which is what a start takes


def groups():
    """For each thing: the unit of the work, and its rows, each a name, the work and a scenario."""
    yield 'events', [(f'{count:,} events of 64 clients', count, loads.clients(count)) for count in (12_500, 25_000, 50_000)]
    yield 'entries', [(f'a wire of {count:,} entries', count, loads.refreshes(count)) for count in (8_192, 16_384, 32_768, 65_536)]
    yield 'events', [(clients_with_peers(clients, peers), loads.PEER_EVENTS, loads.peers(clients, peers))
                     for clients in (1, 4, 16, 64) for peers in (1, 16, 64, 256)]
    yield 'events', [(f'a NAT with {counted(count, "mapping")}', loads.MAPPING_EVENTS, loads.mappings(count))
                     for count in (1, 64, 1_024, 4_096)]


def clients_with_peers(clients, peers):
    return f'{counted(clients, "client")} with {counted(peers, "peer")}' + (' each' if clients > 1 else '')


def counted(number, name):
    return f'{number:,} {name}' if number == 1 else f'{number:,} {name}s'


def starts(programs, folder):
    """What a start takes each program: the least processor time of a run on no nodes and no events."""
    return least_times(programs, [loads.nothing()], [1], STARTS, folder)[0]


def least_times(programs, texts, repeats, rounds, folder):
    """For each text the least processor time of each program. A round plays each text as often as `repeats` says."""
    paths = [runs.put(folder, f'growing.{number}.toml', text) for number, text in enumerate(texts)]
    measured = [runs.nothing_yet(programs, folder) for _ in texts]
    for _ in range(rounds):
        for path, count, of_text in zip(paths, repeats, measured):
            for _ in range(count):
                runs.take_turns(programs, ['lab', path], 0, of_text)
    return [[min(found.processors) for found in of_text] for of_text in measured]


def cells(programs, starts_taken, rows, rounds, folder):
    """For each row the time of each program, over the work, and that to the least of all rows."""
    names, works, texts = zip(*rows)
    repeats = [max(works) // work for work in works]
    times = [[taken - start for taken, start in zip(of_row, starts_taken)]
             for of_row in least_times(programs, texts, repeats, rounds, folder)]
    over = [[taken / work for taken in of_row] for work, of_row in zip(works, times)]
    leasts = [min(column) for column in zip(*over)]
    for name, work, of_row, over_work in zip(names, works, times, over):
        yield [name, f'{work:,}'] + [cell for taken, each, least in zip(of_row, over_work, leasts)
                                     for cell in (f'{taken * 1e3:.1f} ms', f'{each * 1e6:.2f} µs', f'{each / least:.2f}')]
