"""A scenario whose last events are typed, played anew with each of them: what `play` keeps."""
import chains
import command
import fates
import lint
from report import record_of
from toml_places import scenario_node

NEXT_MAX = 1000  # deliveries of one `all` or `until`


class Session:
    """A scenario whose last events are typed."""

    def __init__(self, program, path, chain=None):
        self.program, self.chain, self.text = program, chain, command.read(path)
        self.list = scenario_node(path, self.text).value['events']
        self.kept = len(self.list.value)  # events of the file that are still there
        self.added = []
        self.steps = []  # how many events each command added; 0 took one of the file
        self.asked = None  # the file that may be written over, once it is named again
        self.status, self.written = self.played()
        if self.status in (3, 12):
            raise command.Refusal(f'{path}: {command.said(self.status, self.written)}')

    def events(self):
        return [event.value for event in self.list.value[:self.kept]] + self.added

    def whole(self):
        """The scenario's text: what is typed stands behind the events of the file."""
        end = self.list.value[self.kept - 1].end if self.kept else self.list.start + 1
        if self.kept == len(self.list.value) and not self.added:
            return self.text
        lines = ''.join(f',\n  "{event}"' if at or self.kept else f'\n  "{event}"' for at, event in enumerate(self.added))
        return self.text[:end] + lines + ',\n]' + self.text[self.list.end:]

    def played(self):
        return command.play(self.program, self.whole(), self.chain)

    def records(self):
        return [record_of(line) for line in self.written.splitlines() if line[:1].isdigit()]

    def add(self, event):
        """Adds an event: the lines of its records, or what is wrong with it, and whether it is one."""
        if not event.isprintable() or '"' in event or '\\' in event:
            return [f'no event: {event!r}'], False
        before = self.status, self.written
        self.added.append(event)
        self.status, self.written = self.played()
        if self.status in (0, 8):
            number = len(self.events()) - 1
            return [shown(record) for record in self.records() if record.event == number] + self.full(), True
        said = self.refusal()
        self.added.pop()
        self.status, self.written = before
        return said, False

    def refusal(self):
        """What is said of a scenario that isn't played, and what is wanted there."""
        said = self.written.strip() or f'status {self.status}'
        if self.status not in (3, 12):
            return [said]
        chain = chains.chain_of(self.text) if self.chain is None else self.chain
        return [said, f'  wanted: {lint.found_of(self.status, self.whole(), said, chain).text}']

    def full(self):
        return ['wire full'] if self.status == 8 else []

    def deliver(self, is_enough):
        """Delivers until nothing is left or a record is enough: the lines, and how many events that were."""
        lines, count = [], 0
        while count < NEXT_MAX:
            said, is_event = self.add('next')
            if not is_event or self.status == 8:
                lines, count = lines + said, count + is_event
                break
            made = self.records()[-1]
            if made.fate == 'no_entry':
                self.take(1)
                break
            lines, count = lines + said, count + 1
            if is_enough(made):
                break
        else:
            lines.append(f'{count:,} deliveries: more may be left; type it again')
        return lines or ['nothing is left to deliver'], count

    def take(self, count):
        """Takes so many events back that were typed, and plays what is left."""
        if count:
            del self.added[len(self.added) - count:]
            self.status, self.written = self.played()

    def again(self):
        """Plays what there is, after something was broken off. What that had added stays, and undo takes it back."""
        extra = len(self.added) - sum(self.steps)
        self.steps += [extra] if extra > 0 else []
        self.status, self.written = self.played()

    def undo(self):
        if self.steps:
            taken = self.added[-self.steps[-1]:]
            self.take(self.steps.pop())
        elif self.kept:
            self.kept -= 1
            taken = [self.list.value[self.kept].value]
            self.status, self.written = self.played()
        else:
            return ['there is no event to take back']
        return [f'taken back: {event}' for event in taken]


def shown(record):
    """A record's line, in red where it is a drop."""
    return command.red(record.line, fates.is_drop(record.fate))
