"""What document 01 and the requests say, written down a second time and on its own: plain Python over bytes.

It shares nothing with the library but the layout of the bytes, and it prefers the obvious to the fast. A refusal is
the tuple (number, list, position); every function gives back its reply and the buffers as they are afterwards.
"""
from functools import cache, partial
from math import inf

RECORD = 8
DEEPEST = 1023
MOST_ELEMENTS = 4096
MOST_RULES = 8192
DENY, PERMIT, NONE = 0, 1, 2
SELF, ALL = 0, 1
N, MINUS, PLUS, BOTH = 0, 1, 2, 3
COST = (0, 1, 1, 2)


class Refused(Exception):
    """A refusal of the table: number, list, position."""

    def __init__(self, number, list_=0, position=0):
        super().__init__(number, list_, position)
        self.what = (number, list_, position)


def records(data):
    return [data[i:i + RECORD] for i in range(0, len(data) - RECORD + 1, RECORD)]


class Element:
    def __init__(self, record):
        self.depth = record[0] + 256 * record[3]
        self.decision, self.mark = record[1], record[2]
        self.key = int.from_bytes(record[4:8], "little")


class Rule:
    def __init__(self, record):
        self.bytes = bytes(record)
        self.target = int.from_bytes(record[0:2], "little")
        self.effect, self.reach = record[2], record[3]
        self.key = int.from_bytes(record[4:8], "little")


# ---- reading

def element_fault(element, first, last_depth):
    """The refusal number of an element, tested 5, 4, 6, or 0."""
    if element.depth > DEEPEST:
        return 5
    if first and element.depth != 0:
        return 4
    if not first and not 1 <= element.depth <= last_depth + 1:
        return 4
    if element.decision > 1 or element.mark > 3:
        return 6
    return 0


def elements_of(dossier):
    if len(dossier) == 0:
        raise Refused(1)
    if len(dossier) % RECORD:
        raise Refused(2)
    if len(dossier) // RECORD > MOST_ELEMENTS:
        raise Refused(3)
    found = []
    for position, record in enumerate(records(dossier)):
        element = Element(record)
        number = element_fault(element, position == 0, found[-1].depth if found else 0)
        if number:
            raise Refused(number, 0, position)
        found.append(element)
    return found


def rules_of(elements, rules, list_):
    if len(rules) % RECORD:
        raise Refused(2, list_)
    if len(rules) // RECORD > MOST_RULES:
        raise Refused(3, list_)
    found = []
    for position, record in enumerate(records(rules)):
        rule = Rule(record)
        if (rule.target >= len(elements) or rule.effect > 1 or rule.reach > 1
                or rule.key != elements[rule.target].key):
            raise Refused(7, list_, position)
        found.append(rule)
    return found


# ---- the tree

def parents(elements):
    """The last earlier element with a depth one smaller; None for the root."""
    found = []
    last = {}
    for position, element in enumerate(elements):
        found.append(last.get(element.depth - 1) if position else None)
        last[element.depth] = position
    return found


def children(elements):
    below = [[] for _ in elements]
    for position, parent in enumerate(parents(elements)):
        if parent is not None:
            below[parent].append(position)
    return below


def at_or_above(parent, position):
    chain = set()
    while position is not None:
        chain.add(position)
        position = parent[position]
    return chain


# ---- deciding

def applying(parent, rules, element):
    chain = at_or_above(parent, element)
    return [r for r in rules if r.target == element or (r.reach == ALL and r.target in chain)]


def combined(effects, combining):
    """The answer of rules that all apply, from their effects in list order."""
    if not effects:
        return NONE
    if combining == 0:
        return effects[0]
    over = DENY if combining == 1 else PERMIT
    return over if over in effects else 1 - over


def asked(dossier, house, recipient, combining, element):
    elements = elements_of(dossier)
    rules = rules_of(elements, house, 1) + rules_of(elements, recipient, 2)
    if combining > 2:
        raise Refused(11)
    if element >= len(elements):
        raise Refused(10)
    return applying(parents(elements), rules, element)


def decide(dossier, house, recipient, combining, element):
    return combined([r.effect for r in asked(dossier, house, recipient, combining, element)], combining)


def deciding(dossier, house, recipient, combining, element):
    try:
        rules = asked(dossier, house, recipient, combining, element)
    except Refused:
        return b""
    answer = combined([r.effect for r in rules], combining)
    return next((r.bytes for r in rules if r.effect == answer), b"")


def answered(elements, rules, combining):
    """What a rule list answers for each element. Only the rules on it and above it are tried: no other can apply."""
    parent, on = parents(elements), [[] for _ in elements]
    for place, rule in enumerate(rules):
        on[rule.target].append(place)
    for position in range(len(elements)):
        tried = sorted(place for t in at_or_above(parent, position) for place in on[t])
        yield combined([r.effect for r in applying(parent, [rules[place] for place in tried], position)], combining)


# ---- marks

def walked(mark, decision, above):
    """By the walk: what an element is answered, and what it hands down."""
    return above if mark == N else decision, (above, above, decision, 1 - decision)[mark]


def walk(elements, marks):
    answers, handed = [], {}
    for element, mark in zip(elements, marks):
        above = handed[element.depth - 1] if element.depth else NONE
        answer, handed[element.depth] = walked(mark, element.decision, above)
        answers.append(answer)
    return answers


def own_effects(mark, decision):
    """Effect and reach of the rules that a mark sets, in their order."""
    return ([], [(decision, SELF)], [(decision, ALL)], [(decision, SELF), (1 - decision, ALL)])[mark]


def rule_bytes(target, effect, reach, key):
    return target.to_bytes(2, "little") + bytes((effect, reach)) + key.to_bytes(4, "little")


def own_rules(position, element, mark):
    return [rule_bytes(position, effect, reach, element.key) for effect, reach in own_effects(mark, element.decision)]


def listed(elements, marks):
    """All children's rules, in document order, before the element's own."""
    below, found = children(elements), []
    stack = [(0, False)]
    while stack:
        position, done = stack.pop()
        if done:
            found += own_rules(position, elements[position], marks[position])
        else:
            stack.append((position, True))
            stack += [(child, False) for child in reversed(below[position])]
    return found


def into_area(written, area):
    if len(area) < sum(map(len, written)):
        raise Refused(8)
    front = b"".join(written)
    return front + area[len(front):]


def list_rules(dossier, area):
    elements = elements_of(dossier)
    rules = listed(elements, [e.mark for e in elements])
    return len(rules), into_area(rules, area)


def with_marks(dossier, marks):
    changed = bytearray(dossier)
    changed[2::RECORD] = bytes(marks)
    return bytes(changed)


def read_back(dossier, rules):
    elements = elements_of(dossier)
    given = rules_of(elements, rules, 1)
    on = {}
    for rule in given:
        on.setdefault(rule.target, []).append(rule.bytes)
    marks = []
    for position, element in enumerate(elements):
        fits = [m for m in (N, MINUS, PLUS, BOTH) if own_rules(position, element, m) == on.get(position, [])]
        if not fits:
            raise Refused(9, 1)
        marks.append(fits[0])
    if listed(elements, marks) != [r.bytes for r in given]:
        raise Refused(9, 1)
    return len(elements), with_marks(dossier, marks)


# ---- the walk that a gateway keeps: what each depth hands down, the last record's depth, the records taken

FRESH = (bytes([NONE] * (DEEPEST + 1)), 0, 0)


def could_be_left(state):
    """Some accepted records after a fresh walk leave exactly this one."""
    handed, depth, taken = state
    if taken == 0:
        return state == FRESH
    if depth > DEEPEST or taken > MOST_ELEMENTS or taken < depth + 1 or (depth == 0 and taken != 1):
        return False
    above = NONE
    for value in handed[:depth + 1]:
        if value > NONE or (value == NONE and above != NONE):
            return False
        above = value
    return all(value == NONE for value in handed[depth + 1:])


def walk_step(state, record):
    handed, depth, taken = state
    if not could_be_left(state):
        raise Refused(17)
    if len(record) != RECORD:
        raise Refused(2)
    if taken >= MOST_ELEMENTS:
        raise Refused(3)
    element = Element(record)
    number = element_fault(element, taken == 0, depth)
    if number:
        raise Refused(number, 0, taken)
    above = handed[element.depth - 1] if element.depth else NONE
    answer, hands = walked(element.mark, element.decision, above)
    now = bytes(handed[:element.depth]) + bytes([hands])
    return answer, (now + bytes([NONE]) * (DEEPEST + 1 - len(now)), element.depth, taken + 1)


# ---- least marks: a step, as by the walk, says for a mark what an element is answered and what it hands down

@cache
def ruled(combining, mark, decision, above):
    """The step by the rules: an element's own come before those from above, and these count by their answer alone."""
    own, from_above = own_effects(mark, decision), [] if above == NONE else [above]
    return (combined([effect for effect, _ in own] + from_above, combining),
            combined([effect for effect, reach in own if reach == ALL] + from_above, combining))


def best(elements, step):
    """For each element and each value from above: the least number of rules of its branch, the first mark that attains it.

    Where no mark is right, as on a permit under a deny that overrides, the number is infinite.
    """
    below = children(elements)
    table = [None] * len(elements)
    for position in reversed(range(len(elements))):
        decision = elements[position].decision
        table[position] = []
        for above in (DENY, PERMIT, NONE):
            choices = []
            for mark in (N, MINUS, PLUS, BOTH):
                answer, hands = step(mark, decision, above)
                if answer == decision:
                    choices.append((COST[mark] + sum(table[c][hands][0] for c in below[position]), mark))
            table[position].append(min(choices, default=(inf, N)))
    return table


def least_marks(elements, step):
    table, handed, marks = best(elements, step), {}, []
    for position, element in enumerate(elements):
        above = handed[element.depth - 1] if element.depth else NONE
        mark = table[position][above][1]
        marks.append(mark)
        _, handed[element.depth] = step(mark, element.decision, above)
    return table[0][NONE][0], marks


def asked_for(dossier, combining):
    elements = elements_of(dossier)
    if combining > 2:
        raise Refused(11)
    return elements


def fold(dossier):
    count, marks = least_marks(elements_of(dossier), walked)
    return count, with_marks(dossier, marks)


def fold_for(dossier, combining):
    count, marks = least_marks(asked_for(dossier, combining), partial(ruled, combining))
    return count, with_marks(dossier, marks)


LEAST, LONGER, WRONG = 0, 1, 2


def verdict(elements, answers, step):
    """The count of the given marks, the verdict, its number, and the answer where it is wrong."""
    count = sum(COST[e.mark] for e in elements)
    for position, (element, answer) in enumerate(zip(elements, answers)):
        if answer != element.decision:
            return count, WRONG, position, answer
    excess = count - least_marks(elements, step)[0]
    return (count, LONGER, excess, 0) if excess else (count, LEAST, 0, 0)


def judge(dossier):
    elements = elements_of(dossier)
    return verdict(elements, walk(elements, [e.mark for e in elements]), walked)


def judge_for(dossier, combining):
    elements = asked_for(dossier, combining)
    rules = [Rule(r) for r in listed(elements, [e.mark for e in elements])]
    return verdict(elements, answered(elements, rules, combining), partial(ruled, combining))


# ---- the view

def shown(elements):
    """The positions of the elements that are permitted and have only permitted ones above them."""
    answers = walk(elements, [e.mark for e in elements])
    parent = parents(elements)
    return [p for p in range(len(elements)) if all(answers[t] == PERMIT for t in at_or_above(parent, p))]


def view(dossier, area):
    found = records(dossier)
    kept = [found[p] for p in shown(elements_of(dossier))]
    return len(kept), into_area(kept, area)
