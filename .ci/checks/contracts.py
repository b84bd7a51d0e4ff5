"""The statements and the types that stand in a file of Rattle: the contracts of calls, ghost lines, types and constants."""
import collections
import re

from wording import BOTH_COMMENTS, CHARACTER, STRING, strange, uses, without_comments

TEXT = re.compile(rf'{STRING}|{CHARACTER}', re.S)
ITEM = re.compile(r'(?<![\w.#])(?:(?:(pub)|pub\([\w ]+\))\s+)?(?:const\s+(?=fn))?(fn|impl|trait|struct|enum|const|static|type|ghost|mod|use)\b')
PART = re.compile(r'\s*(requires|ensures|decreases)\b\s*(\w*)\s*(?=\{)')
LABEL = re.compile(r'\s*(\w+)\s*[:=]')
OPENING, CLOSING = '([{', ')]}'
MARK = re.compile(r'[()\[\]{};]')

# Of a statement: the call, type or trait that it stands at; its kind; its label; its text; is it on a public call?
Statement = collections.namedtuple('Statement', 'owner name kind label text is_public')

# Of a clause: the type or trait that has its call, or nothing; the call; its label; its line; is the call public? Of an `impl` of
# a trait the type, the trait, and no label.
Place = collections.namedtuple('Place', 'owner name label line is_public')


def ends_at(shape, start, ends):
    """Where one of these characters stands first, outside of brackets that begin behind the start."""
    depth = 0
    for found in MARK.finditer(shape, start):
        if depth == 0 and found[0] in ends:
            return found.start()
        depth += (found[0] in OPENING) - (found[0] in CLOSING)
    return len(shape)


def closed_at(shape, start):
    """Where the bracket that opens at the start is closed."""
    return ends_at(shape, start + 1, CLOSING)


def owner_of(head):
    """The type and the trait of an `impl`, or the trait and nothing."""
    head = re.sub(r'(?<!:):(?!:).*| where .*', '', without_parameters(head.replace('->', '  ')), flags=re.S)
    trait, _, owner = head.partition(' for ')
    return re.findall(r'\w+', owner or trait)[-1], re.findall(r'\w+', trait)[-1] if owner else ''


def without_parameters(head):
    shorter = re.sub(r'<[^<>]*>', '', head)
    return head if shorter == head else without_parameters(shorter)


class CodeFile:
    """What a file states and defines: `statements`; `calls`, each with its owner, its trait, and whether it is public; `types` and `constants`
    with their texts; the `traits` that a type has; `places`, of each `ensures` and each `impl` of a trait the number of its line, from 0."""

    def __init__(self, text):
        self.source, self.text, self.strange = text, without_comments(text, BOTH_COMMENTS), []
        self.shape = TEXT.sub(lambda found: '_' * len(found[0]), self.text)
        self.uses, self.code_uses = uses(self.shape)
        self.statements, self.calls, self.types, self.constants, self.traits, self.places = [], [], {}, {}, {}, []
        self.read(0, len(self.text), '', '')

    def read(self, start, end, owner, trait):
        """The items between two places, of an owner, for a trait."""
        while found := ITEM.search(self.shape, start, end):
            read = getattr(self, 'read_' + {'static': 'const'}.get(found[2], found[2]))
            start = max(read(found, owner, trait), found.end())

    def line_of(self, at):
        return self.source.count('\n', 0, at)

    def between(self, start, end, is_logic=False):
        """The text between two places, without comments."""
        found = strange(self.source[start:end], is_logic)
        self.strange += [found[0]] if found else []
        return self.text[start:end]

    def read_use(self, found, owner, trait):
        return ends_at(self.shape, found.end(), ';')

    def read_mod(self, found, owner, trait):
        return found.end()

    def read_type(self, found, owner, trait):
        end = ends_at(self.shape, found.end(), ';')
        if not owner:
            self.types[self.name_at(found.end())] = self.between(found.start(), end)
        return end

    def name_at(self, start):
        return re.compile(r'\s*(\w+)').match(self.text, start)[1]

    def read_const(self, found, owner, trait):
        end = ends_at(self.shape, found.end(), ';')
        name = self.name_at(found.end())
        self.constants[f'{owner}::{name}' if owner else name] = self.between(found.start(), end)
        return end

    def read_struct(self, found, owner, trait):
        end = ends_at(self.shape, found.end(), ';{')
        end = closed_at(self.shape, end) if self.shape[end:end + 1] == '{' else end
        self.types[self.name_at(found.end())] = self.between(found.start(), end + 1)
        return end

    read_enum = read_struct

    def body_from(self, start):
        """Behind the body that follows, or the semicolon in place of one."""
        at = ends_at(self.shape, start, ';{')
        return closed_at(self.shape, at) + 1 if self.shape[at:at + 1] == '{' else at + 1

    def read_impl(self, found, owner, trait):
        at = ends_at(self.shape, found.end(), '{')
        owner, trait = owner_of(self.text[found.end():at])
        if found[2] == 'trait':
            trait, self.types[owner] = owner, self.between(found.start(), at)
        self.traits.setdefault(owner, set()).update([trait] if trait != owner else [])
        if found[2] == 'impl' and trait:
            self.places.append(Place(owner, trait, None, self.line_of(found.start()), True))
        end = closed_at(self.shape, at)
        self.read(at + 1, end, owner, trait)
        return end

    read_trait = read_impl

    def read_ghost(self, found, owner, trait):
        name = LABEL.match(self.shape, found.end())
        end = ends_at(self.shape, found.end(), ';')
        if name:
            self.statements.append(Statement(owner, trait, 'ghost', name[1], self.between(found.end(), end, True), True))
        return end

    def read_fn(self, found, owner, trait):
        at = ends_at(self.shape, found.end(), ';{')
        contract = PART.search(self.shape, found.end(), at + 1)
        at = contract.start() if contract else at
        parts = [('signature', '', self.between(found.start(), at))]
        name, is_public = self.name_at(found.end()), bool(found[1] or trait)
        while part := PART.match(self.shape, at):
            at = closed_at(self.shape, part.end()) + 1
            parts.append((part[1], part[2], self.between(part.end() + 1, at - 1, True)))
            if part[1] == 'ensures':
                self.places.append(Place(owner, name, part[2], self.line_of(part.start(1)), is_public))
        self.calls.append((owner, name, trait, is_public))
        if len(parts) > 1:
            self.statements += [Statement(owner, name, *part, is_public) for part in parts]
        return self.body_from(at)
