#!/usr/bin/env python3
"""Writes the stories of the crate `stories` from the oracle's answers.

    oracle/stories.py > crates/stories/specs/Cases.antt

Runs `answers tree 1 3000`, which `cargo build --release` makes. A story begins where a plan is read at
place 0. Every directed story of the list is taken whole, save what the definitions do not have (refused
plans, live estimates of a bin). Of the stories made by chance, the cheapest beginning that shows each thing
wanted is taken. The output depends on nothing but the oracle.
"""

import pathlib
import struct
import subprocess
import sys

SEED, COUNT = 1, 3000
ANSWERS = pathlib.Path(__file__).parent / "target" / "release" / "answers"

PLAN, LOAD, DRAW, PROBE, TRAIN, UPDATE, MERGE, MERGEABLE, COPY, SUMMARY, LIVE = range(1, 12)
RECORD = 21
NEW_SAMPLES = 12
WIDTH = 150


def real(word):
    return struct.unpack("<d", struct.pack("<Q", word))[0]


def first_unit(s1):
    """The next unit draw of a stream, which depends on its second word alone."""
    x = s1 * 5 % 2**64
    x = (x << 7 | x >> 57) % 2**64
    return (x * 9 % 2**64 >> 11) / 2**53


# ---- plans


class Plan:
    """A grid's plan, with its term."""

    def __init__(self, data, at=0):
        tag, size = data[at], data[at + 1] + 256 * data[at + 2]
        body = data[at + 3 : at + 3 + size]
        self.end = at + 3 + size
        self.axes = tag == 1
        self.children, self.evolution = [], []
        if self.axes:
            self.dimensions, self.bins, self.least, flag, floor = struct.unpack("<BHIBQ", body)
            self.floor = real(floor)
            if data[self.end : self.end + 1] == b"\2":
                size = data[self.end + 1]
                self.evolution = list(struct.unpack(f"<{size // 2}H", data[self.end + 3 : self.end + 3 + size]))
                self.end += 3 + size
            self.term = f"axes_grid {self.dimensions} {self.bins} {self.least} {truth(flag)} {listed(self.evolution)} {word(floor)}"
        else:
            self.bins, ratio, flag = struct.unpack("<HQB", body)
            for _ in range(self.bins):
                if data[self.end] == 4:
                    self.children.append(None)
                    self.end += 3
                else:
                    self.children.append(Plan(data, self.end))
                    self.end = self.children[-1].end
            children = [f"grid ({c.term})" if c else "nothing" for c in self.children]
            self.term = f"bins_grid {word(ratio)} {truth(flag)} ({' ∷ '.join(children + ['[]'])})"
        self.averages = flag == 1

    def kinds(self):
        return {"nothing" if c is None else "axes" if c.axes else "bins" for c in self.children}


class State:
    """A dump: a grid's own record; its axes, or its probabilities, records and children."""

    def __init__(self, plan, words, at=0):
        self.own = words[at : at + RECORD]
        at += RECORD
        self.recuts, self.counters, self.children = [], [], []
        if plan.axes:
            for _ in range(plan.dimensions):
                n = words[at]
                self.recuts.append(words[at + 1])
                self.counters.append(words[at + 3 + 2 * n : at + 3 + 3 * n])
                at += 9 * n + 3
        else:
            self.probabilities = words[at : at + plan.bins]
            at += plan.bins * (1 + RECORD)
            for child in plan.children:
                if child:
                    self.children.append(State(child, words, at))
                    at = self.children[-1].end
        self.end = at

    def waiting(self):
        return self.own[NEW_SAMPLES]


# ---- the list


class Call:
    """One record: its opcode, place and term, and the words from the refusal's number on."""

    def __init__(self, words, plans):
        self.op, self.place = words[:2]
        self.words = words
        self.at = 2
        self.term = getattr(self, "read_%d" % self.op)(plans)
        self.told = words[self.at :]
        self.refusal = self.told[0]
        answers = {PLAN, TRAIN, UPDATE, MERGE, COPY}
        self.state = State(plans[self.place], self.told, 2) if self.op in answers and self.refusal == 0 else None

    def take(self, n):
        self.at += n
        return self.words[self.at - n : self.at]

    def several(self):
        return self.take(self.take(1)[0])

    def read_1(self, plans):
        size = self.take(1)[0]
        data = struct.pack(f"<{-(-size // 8)}Q", *self.take(-(-size // 8)))[:size]
        if self.words[self.at]:
            return None
        plans[self.place] = Plan(data)
        return f"plan ({plans[self.place].term})"

    def read_2(self, plans):
        return f"load {listed(self.several())}"

    def read_3(self, plans):
        state = self.take(4)
        self.unit = first_unit(state[1])
        return f"draw (stream {' '.join(map(word, state))})"

    def read_4(self, plans):
        self.path, given = self.several(), []
        for _ in range(self.take(1)[0]):
            is_open, x = self.take(2)
            given.append("open'" if is_open else f"at {word(x)}")
        self.given = sum(g != "open'" for g in given)
        coordinates = f"({' ∷ '.join(given + ['[]'])})" if given else "[]"
        return f"probe {listed(self.path)} {coordinates}"

    def read_5(self, plans):
        self.path, weights, self.coordinates = self.several(), self.several(), self.several()
        e, number = self.take(2)
        return f"train {listed(self.path)} {listed(weights)} {listed(self.coordinates)} {word(e)} {number}"

    def read_6(self, plans):
        rates = self.take(2)
        self.bins_rate, self.axes_rate = map(real, rates)
        return "update " + " ".join(map(word, rates))

    def read_7(self, plans):
        return "merge"

    def read_8(self, plans):
        return "mergeable"

    def read_9(self, plans):
        plans[1 - self.place] = plans[self.place]
        return "copy"

    def read_10(self, plans):
        return "summary"

    def read_11(self, plans):
        return None if self.several() else "live"


def stories():
    """The list's stories, those directed and those made by chance."""
    lines = subprocess.run([ANSWERS, "tree", str(SEED), str(COUNT)], check=True, capture_output=True, text=True).stdout
    directed = subprocess.run([ANSWERS, "tree", str(SEED), "0"], check=True, capture_output=True, text=True).stdout
    told, plans = [], {}
    for number, line in enumerate(lines.splitlines()):
        call = Call([int(w, 16) for w in line.split()], plans)
        if call.op == PLAN and call.place == 0 and call.term:
            told.append((number < len(directed.splitlines()), plans[0], []))
        if call.term:
            told[-1][2].append(call)
    return [s[1:] for s in told if s[0]], [s[1:] for s in told if not s[0]]


# ---- terms


def truth(flag):
    return "true" if flag else "false"


def word(n):
    if n < 1 << 20:
        return str(n)
    digits = f"{n:016x}"
    return "0x" + "_".join(digits[i : i + 4] for i in range(0, 16, 4))


def listed(words):
    return f"({' ∷ '.join([word(w) for w in words] + ['[]'])})" if words else "[]"


def wrapped(text, indent):
    """A term over several lines, broken before `∷` and argument lists."""
    lines, line = [], indent
    for piece in text.replace(" ∷ ", "\n∷ ").split("\n"):
        if len(line) + 1 + len(piece) > WIDTH and line.strip():
            lines.append(line.rstrip())
            line = indent
        line += piece if line == indent else " " + piece
    return "\n".join(lines + [line])


def claim(name, about, calls):
    rows = []
    for call in calls:
        rows.append("row %d (%s)" % (call.place, call.term))
        rows[-1] = wrapped("%s%s" % ("∷ " if len(rows) > 1 else "", rows[-1]), "    ")
        rows[-1] += "\n" + wrapped(listed(call.told), "    ")
    story = "\n".join(rows)
    return f"""
-- {about}
pub {name} : List Row
{name} =
{story}
    ∷ []

pub {name}-right : right {name} ≡ true
unfolding {name} right
{name}-right = refl
"""


# ---- what is wanted of the stories made by chance


class Past:
    """The beginning of a story: its root's plan, its calls, and each change of place 0 with the states around it."""

    def __init__(self, plan, calls):
        self.plan, self.calls = plan, calls
        self.changes, held = [], [None, None]
        for number, call in enumerate(calls):
            if call.op == LOAD:
                held[call.place] = None
            if call.state:
                place = 1 - call.place if call.op == COPY else call.place
                if held[place] and place == 0:
                    self.changes.append((number, call, held[0], call.state, held[1]))
                held[place] = call.state

    def updates(self, test):
        """The numbers of the updates for which a test on call, state before and state after holds."""
        return [n for n, call, before, after, _ in self.changes if call.op == UPDATE and test(call, before, after)]

    def recuts(self, least_waiting, rate=None):
        """The updates that cut the first axis of an axes root anew."""

        def test(call, before, after):
            fits = rate is None or call.axes_rate == rate
            return fits and before.waiting() >= least_waiting and after.recuts[0] > before.recuts[0]

        return self.updates(test)

    def adapted(self):
        return self.updates(lambda call, before, after: before.probabilities != after.probabilities)

    def count(self, op, since, test=lambda call: True):
        return sum(call.op == op and call.refusal == 0 and bool(test(call)) for call in self.calls[since:])

    def trained(self, depth):
        """Samples along paths of some depth that end in an axes grid."""
        return self.count(TRAIN, 0, lambda call: len(call.path) >= depth and call.coordinates)


def small(plan):
    """An axes grid of one or two axes that never hold a single bin."""
    return plan.axes and plan.dimensions <= 2 and all(2 <= n <= 4 for n in [plan.bins] + plan.evolution)


def below(plan, depth):
    """The small axes grids that hang so many bins grids below."""
    if depth == 0:
        return [plan] if small(plan) else []
    return [grid for child in plan.children if child for grid in below(child, depth - 1)]


def squares(past):
    plan = past.plan
    return small(plan) and not plan.averages and plan.floor == 0 and past.recuts(2, 1.5) and len(past.recuts(1)) >= 2


def averages(past):
    plan = past.plan
    return small(plan) and plan.averages and plan.dimensions == 2 and past.recuts(3)


def floor_between(past):
    if not (small(past.plan) and 0.1 < past.plan.floor < 0.9 and past.recuts(2)):
        return False
    since = past.recuts(2)[0]
    even = past.count(DRAW, since, lambda call: call.unit < past.plan.floor)
    adaptive = past.count(DRAW, since, lambda call: call.unit >= past.plan.floor)
    return even and adaptive and past.count(PROBE, since, lambda call: call.given)


def floor_one(past):
    if not (small(past.plan) and past.plan.floor == 1 and past.recuts(2)):
        return False
    since = past.recuts(2)[0]
    return past.count(DRAW, since) >= 2 and past.count(PROBE, since, lambda call: call.given)


def evolution(past):
    values = past.plan.evolution
    return past.plan.axes and len(set(values)) >= 2 and len(past.recuts(0)) > len(values)


def least_samples(past):
    if not (small(past.plan) and past.plan.least >= 2 and past.recuts(1)):
        return False
    short = past.updates(lambda call, before, after: before.waiting() > 0 and call.axes_rate > 0 and sum(after.counters[0]) > 0)
    return short != [] and short[0] < past.recuts(1)[0]


def reset(past):
    return small(past.plan) and past.updates(
        lambda call, before, after: call.axes_rate == 0 and before.waiting() >= max(2, past.plan.least)
    )


def bare(plan):
    return plan.kinds() == {"nothing"} and 2 <= plan.bins <= 4


def errors(past):
    return bare(past.plan) and not past.plan.averages and past.adapted() and past.count(DRAW, past.adapted()[0]) >= 2


def sizes(past):
    return bare(past.plan) and past.plan.averages and past.adapted() and past.count(DRAW, past.adapted()[0]) >= 2


def every_child(past):
    return len(past.plan.kinds()) == 3 and past.trained(2) and past.adapted()


def deeper(past):
    return below(past.plan, 2) and past.trained(2) and past.updates(
        lambda call, before, after: any(
            not plan.axes and b.probabilities != a.probabilities
            for plan, b, a in zip([c for c in past.plan.children if c], before.children, after.children)
        )
    )


def merged(past):
    return any(
        call.op == MERGE and before.waiting() and other and other.waiting() and below(past.plan, 1)
        for _, call, before, _, other in past.changes
    ) and past.trained(1)


def copied(past):
    held = None
    for call in past.calls:
        if call.op == COPY and call.place == 0 and call.state and held and held.waiting():
            if below(past.plan, 1) and any(child.waiting() for child in call.state.children):
                return True
        if call.state and call.place == 0 and call.op != COPY:
            held = call.state
    return False


def early(past):
    return below(past.plan, 1) and past.updates(
        lambda call, before, after: call.bins_rate == 0
        and before.waiting() >= 2
        and any(b.recuts != a.recuts for b, a in zip(before.children, after.children))
    )


def rates(past):
    return any(call.op == UPDATE and call.refusal == 3 for call in past.calls)


def flat(past):
    return past.plan.children and past.updates(
        lambda call, before, after: call.bins_rate > 0 and before.waiting() >= 2 and after.waiting() >= 2
    )


WANTED = [
    ("squares", squares, "an axes grid on squares, floor 0, re-cut at rate 1.5 and once more"),
    ("averages", averages, "two axes on averages, re-cut"),
    ("floor_between", floor_between, "a floor between 0 and 1: the choice word, even and adaptive draws on uneven edges"),
    ("floor_one", floor_one, "floor 1: even draws without a choice word"),
    ("evolution", evolution, "a list of bin numbers, re-cut past its end"),
    ("least_samples", least_samples, "an update below the least samples, and one that reaches them"),
    ("reset", reset, "rate 0: the importances start anew, the edges stay"),
    ("rates", rates, "an update whose rate is outside its range"),
    ("errors", errors, "probabilities from errors"),
    ("sizes", sizes, "probabilities from averages"),
    ("every_child", every_child, "bins that carry nothing, an axes grid and a bins grid, trained along paths"),
    ("deeper", deeper, "the probabilities of a nested bins grid adapted, an axes grid at the path's end"),
    ("merged", merged, "a merge of waiting samples into waiting samples"),
    ("copied", copied, "a copy of a bins root: what waits in nested grids stays"),
    ("early", early, "the early return at bins rate 0, a nested axis re-cut all the same"),
    ("flat", flat, "the early return where no bin leaves anything to adapt to"),
]

DIRECTED = [
    ("moved_edge", "an edge moves by one place with nothing trained"),
    ("crowded_edges", "and with a closer neighbour the update is 9"),
    ("edge_above_one", "a re-cut whose inner edge lies above 1 is 9"),
    ("infinite_last_edge", "the last edge is set to 1, whatever the formula gives there"),
    ("small_weight", "a weight that vanishes under a floor of one half"),
    ("smallest_floor", "the smallest floor"),
    ("minus_zeros", "minus zero as floor, coordinate, evaluation, rate and first edge"),
    ("undefined_error", "a bin whose error is undefined makes the update 9; at rate 0 it returns early"),
    ("eight_beside_nine", "9 in one child; then 8 in the other comes before it"),
    ("infinite_weight", "a probability so small that its weight is infinite: answered, and 7 in training"),
    ("two_thirds", "a floor of one half on a weight of one half"),
    ("last_bin", "a draw past the last running sum"),
    ("running_sum", "a draw equal to a running sum, and one just above"),
    ("paths", "probes and trainings along every path, good and bad: 3, 4, 5, 6 and 7 in their order"),
    ("unequal_bins", "merges of bins grids: 11 for probabilities, 4 for a child on one side"),
    ("unequal_axes", "merges of axes grids: what of the plan is compared and what is not, 11 for floors, 4 for bins held"),
    ("strange_bins", "a number of bins that the plan does not know is 12"),
    ("overflows", "sums and counts past their ends are 8"),
    ("ill_formed", "every call on a grid whose sum is not finite is 12"),
]


def cost(calls):
    return sum(len(call.words) + 200 * (call.op == UPDATE) for call in calls)


def cheapest(chance, test):
    best = None
    for plan, calls in chance:
        for end in range(1, len(calls) + 1):
            if best and cost(calls[:end]) >= cost(best):
                break
            if test(Past(plan, calls[:end])):
                best = calls[:end]
                break
    return best


HEAD = """\
-- Stories that the oracle told, written by oracle/stories.py: each row is a call at one of two places and the words of its answer.
use Rattle.std.specs.Prelude.{◌≡◌, refl, true, false, List, [], ◌∷◌}
use Rattle.model.specs.Grid.{nothing, grid}
use Rattle.model.specs.Probe.{open'}
use Rattle.stories.specs.Story.{plan, load, draw, probe, train, update, mergeable, merge, copy, summary, live}
use Rattle.stories.specs.Story.{Row, row, axes_grid, bins_grid, stream, at, right}
"""


def main():
    directed, chance = stories()
    assert len(directed) == len(DIRECTED)
    out = [HEAD]
    for (name, about), (_, calls) in zip(DIRECTED, directed):
        out.append(claim(name, about, calls))
    for name, test, about in WANTED:
        calls = cheapest(chance, test)
        assert calls, f"no story shows {name}"
        out.append(claim(name, about, calls))
    sys.stdout.write("".join(out))


if __name__ == "__main__":
    main()
