"""What became of each packet that a host handed in, by `follow`, and why, by `state`."""
from __future__ import annotations

from dataclasses import dataclass

import causes
import command
import fates
from followed import ARRIVED, ENDS, GOES, HELD, LOST, WAITS, WIRE, Load, Packet, Step
from followed import End as Where
from report import HANDED_IN, Loss, Record
from told import Told

UNSAID = 'unsaid'  # of a packet whose end nobody says


@dataclass
class End:
    """Where a packet is in the end: a state, the record that decided, the fate or the loss there, and the reason where it isn't there."""
    state: str
    record: Record
    fate: str
    reason: str = ''
    answer: End | None = None  # to an echo request

    def __str__(self) -> str:
        node = self.record.node
        if self.state == ARRIVED:
            return f'arrived at {node}, {self.fate}' + (f'; its answer {self.answer}' if self.answer else '')
        if self.state in (WAITS, HELD):
            return f'{"waits" if self.state == WAITS else "is held"} at {node}: {self.reason}'
        if self.state == WIRE:
            return f'lies on the wire: {self.reason}'
        if self.state == UNSAID:
            return self.reason
        where = f'at {node}' if node != '-' else 'on the wire'
        return f'{command.red("lost")} {where}, {command.red(self.fate)}: {self.reason}'

    @property
    def words(self) -> str:
        """The same in two words."""
        return self.state if self.state == WIRE else f'{self.state} {self.fate}'


def end_of(told: Told, record: Record) -> End:
    """What became of what a host handed in."""
    packet = told.followed.by_record.get(record.index) if told.followed else None
    return of_packet(told, packet) if packet else End(UNSAID, record, record.fate, unsaid(told, record))


def unsaid(told: Told, record: Record) -> str:
    """What the lines of a report say of a packet: what came of it at its host, and what was delivered of that."""
    came = [f'{mark.text}: ' + (', '.join(f'{one.node} {painted(one)}' for one in told.report.delivered(mark)) or 'never delivered') for mark in record.entries]
    if fates.is_drop(record.fate):
        came.append(causes.of_drop(told, record))
    return '; '.join([painted(record), *came, *(command.red(loss.text) for loss in record.losses)])


def painted(record: Record) -> str:
    """A record's fate, in red where it is a drop."""
    return command.red(record.fate, fates.is_drop(record.fate))


def of_packet(told: Told, packet: Packet) -> End:
    end = of_load(told, packet.end, Load(packet.number))
    if packet.back is not None:
        end.answer = of_load(told, packet.back, Load(packet.number, True))
    return end


def of_load(told: Told, end: Where, load: Load) -> End:
    """The end of a load, with its reason."""
    assert told.followed is not None
    records, steps = told.report.records, told.followed.steps_of(load)
    if end.state == ARRIVED:
        return End(ARRIVED, records[end.number], records[end.number].fate)
    if end.state == WIRE:
        entry = told.report.entries[end.number]
        return End(WIRE, entry.maker, entry.maker.fate, causes.of_undelivered(told, entry))
    if end.state == LOST:
        return lost(told, steps[-1], steps)
    word = WAITS if end.state == WAITS else HELD
    step = next(step for step in reversed(steps) if step.word == word and step.node == end.node)
    record = records[step.record]
    return End(end.state, record, record.fate, (causes.of_waiting if word == WAITS else causes.of_held)(told, record))


def lost(told: Told, step: Step, steps: list[Step]) -> End:
    """A load that is lost, by its last step."""
    record = told.report.records[step.record]
    if step.word == GOES:
        loss = next((mark for mark in record.marks if mark.text == step.mark), None)
        if isinstance(loss, Loss):
            return End(LOST, record, f'!{loss.word}', causes.of_loss(told, loss))
        return End(LOST, record, record.fate, 'what carried it went on without it')
    if step.word != ENDS:
        return End(LOST, record, record.fate, f'{record.node} doesn\'t list its sender any more')
    before = next((one for one in reversed(steps[:-1]) if one.node == step.node and one.word in (WAITS, HELD) and one.record < step.record), None)
    return End(LOST, record, record.act if record.fate == 'done' else record.fate, reason_of_end(told, record, before))


def reason_of_end(told: Told, record: Record, before: Step | None) -> str:
    """Why a load ended at a record, where it waited or was held before, or came to it."""
    if fates.is_drop(record.fate) and record.delivered is not None or before is None or record.act in HANDED_IN:
        return causes.of_drop(told, record) if fates.is_drop(record.fate) else f'{record.node} takes it, and hands nothing to its host'
    verb = 'waited' if before.word == WAITS else 'was held'
    if record.act == 'restart':
        return f'it {verb} at {record.node}, which was restarted {causes.at(record)}'
    if record.fate == 'changed':
        return f'it {verb} at {record.node}, whose address changed {causes.at(record)}'
    if before.word == HELD:
        source = told.report.came_by(told.report.records[before.record]).source
        return f'it came from {source}, and {record.node} trusts its sender elsewhere'
    return causes.of_given_up(told, record, told.report.records[before.record])
