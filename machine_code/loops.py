"""Loops whose number of turns is unknown: what holds after any number of turns, by induction.

A subject makes a call with so many turns to do, and says what the definitions have after each. The head of its loop is an
instruction that each turn executes. Three kinds of runs show that the loop computes what the definitions say:

- the entry: from the beginning to the head;
- a turn: from the head after any number of turns, with any number left, back to the head;
- the end: from the head with the last turns to do, to the end of the call or up to another loop.

At the head each place, of a register or of memory, is what it is at the entry plus the turns done times a number; or a word
of the definitions' state; or anything. Two turns suggest which. The three runs then show it: a suggestion that is wrong can
make a check fail, and not pass. In a turn the number of turns that are left becomes smaller by one, so the loop ends.
"""
import collections
import copy
from functools import partial

import values
from machine import side_by_side
from values import Differs, Stop, Undecided, add, cut, extend, join, mul, number, number_in, sub, unknown, width_of

SIZE = 60  # an array has fewer than 2^60 bytes
# A machine at the head of a loop, the words of the definitions' state there, what each place is, and how many turns are done.
Head = collections.namedtuple("Head", "run words places turns")


def on_each_path(run):
    """Runs a case anew for either outcome of a choice that depends on unknowns, until all are decided. Returns what each path
    gives."""
    paths, results = [()], []
    while paths:
        ways = paths.pop()
        try:
            with values.case(*ways):
                results.append(run())
        except Undecided as choice:
            if len(ways) == 12:
                raise
            paths += [(*ways, way) for way in choice.ways]
    return results


# ---- places: 64 bits of a register, or eight bytes of memory or one

def places_of(run):
    found = {}
    for name, value in run.registers.items():
        found |= {(name, at): cut(value, at, min(64, width_of(value) - at)) for at in range(0, width_of(value), 64)}
    words = {}
    for base, at in run.bytes:
        if (base, at) in run.writable or base in run.areas:
            words.setdefault((base, at - at % 8), []).append(at)
    for (base, start), bytes in words.items():
        if len(bytes) == 8:
            found["word", base, start] = side_by_side([run.bytes[base, start + i] for i in range(8)])
        else:
            found |= {("byte", base, at): cut(*run.bytes[base, at], 8) for at in bytes}
    return found


def set_places(run, new):
    registers = {}
    for place, value in new.items():
        if place[0] in ("word", "byte"):
            run.bytes |= {(place[1], place[2] + i): (value, 8 * i) for i in range(width_of(value) // 8)}
        else:
            registers.setdefault(place[0], {})[place[1]] = value
    for name, parts in registers.items():
        run.registers[name] = join(*(parts[at] for at in sorted(parts)))
    run.flags = None


class Fixed:
    """Something whose attributes are set once, so that none can come from another path. What belongs to a call is the
    machine's."""

    def __init__(self, **attributes):
        vars(self).update(attributes)

    def __setattr__(self, name, value):
        raise AttributeError(f"{name} is fixed")

    def with_other(self, **attributes):
        other = copy.copy(self)
        vars(other).update(attributes)
        return other


class Subject(Fixed):
    """A call with a loop of so many turns. A turn has `per` elements: pieces of an input, numbers or keys.

    `start(count)` gives a machine at the beginning of a call with `count` turns to do. The words are the state of the
    definitions, of which `optional` ones need not be in the loop. A way is one of the cases that a turn is split into.
    """

    name, per, optional = "loop", 1, 0
    element_bytes, length_bits = 8, SIZE  # of the largest array: the size of an element, and how many bits its length has
    tries = 4, 8  # by calls with so many turns or more the head is found

    def some(self, what, least=0):
        """A number of turns."""
        return extend(unknown((what, self.name), self.length_bits - (self.per * self.element_bytes - 1).bit_length(), least))

    def elements_written(self, run):
        """How many are written at the first arrival, if the loop writes any; else None."""
        return None

    def reach(self, count, done):
        """As `start`, for calls that arrive at the head once so many elements are done."""
        return self.start(count)

    def suggestion(self, count):
        """As `start`, for the two turns that suggest what each does."""
        return self.start(count)

    def words_after(self, n):
        return []

    def words_at_entry(self, n):
        return self.words_after(n)

    def any_words(self):
        return []

    def step(self, words, turns, done, way):
        return []

    def assume(self, head, done, way):
        """What is so at the head, and what a way assumes."""

    def entered(self, run, done):
        """What must be so at the first arrival: so many elements are done."""

    def turned(self, head, done):
        """What must be so after a turn."""

    def ways(self, begin):
        """`begin` is what gives the head of a turn of a way, in a case."""
        return [None]

    def travel(self, begin, way, *target):
        """The head of a turn, from which the machine has gone on to a target, and whether it came there."""
        head = begin(way)
        return head, head.run.go(*target)

    def leave(self, head, done, way):
        """What must be so if a turn ends the call."""
        raise Stop("the loop ends before its last turn")

    def finish(self, loop):
        """Shows the rest of the call, from the head with the last turns to do."""
        on_each_path(lambda: self.end(loop))


class Loop(Fixed):
    """A loop of a subject. `least` is the fewest turns of the calls that reach it; with `last` turns left it ends. A late head
    is behind the choice whether a turn is left: for a loop that reads an element a turn ahead. What a turn does may be
    suggested by another loop, `like`."""

    def __init__(self, subject, least, last, is_late=False, like=None):
        super().__init__(subject=subject, least=least, last=last, is_late=is_late)
        if like:
            vars(self).update(head=like.head, arrivals=like.arrivals, done=like.done, roles=like.roles)
        else:
            self.find_head()
            with values.case():
                self.suggest()
        on_each_path(lambda: self.enter(subject.some("total", least)))
        self.check_turns()

    def find_head(self):
        """A choice that depends on how many turns are left is made once a turn. From it to the next time is a turn, and the
        head is what the first one begins with."""
        counts = []
        for least in self.subject.tries:
            with values.case():
                trace, choice = self.trace(least)
            found = [i for i, at in enumerate(trace[:-1]) if at == trace[-1]]
            if not found:
                raise choice
            turn = trace[found[-1] + 1 :]
            once = [at for at in turn if turn.count(at) == 1]
            head = once[0] if self.is_late else min(once, key=trace.index)
            counts.append(trace.count(head))
        arrivals, rest = divmod(counts[1] - counts[0], self.subject.tries[1] - self.subject.tries[0])
        if rest or not arrivals:
            raise Stop("a turn of the loop is none of the subject")
        vars(self).update(head=head, arrivals=arrivals)

    def trace(self, least):
        """The instructions up to the first choice that is open, and this."""
        run = self.subject.suggestion(self.subject.some("total", least))
        begin = len(run.executed)
        try:
            run.go()
        except Undecided as choice:
            return run.executed[begin:], choice
        raise Stop("there is no loop")

    def suggest(self):
        """What each place becomes in a turn, as the first two show: pairs of "by" and a number, or "word" and an index."""
        run, seen = self.subject.suggestion(self.subject.some("total", 8)), []
        for arrivals in (1, self.arrivals, self.arrivals):
            self.go_to_head(run, arrivals)
            if not seen:
                written = self.subject.elements_written(run)
            seen.append(places_of(run))
        most = None  # words that are found
        for done in [written] if written is not None else range(4):
            words = [self.subject.words_after(done + k * self.subject.per) for k in range(3)]
            if None in words:
                continue
            roles = {place: self.role([here.get(place) for here in seen], words) for place in seen[0]}
            found = len({role[1] for role in roles.values() if role and role[0] == "word"})
            if found + self.subject.optional >= len(words[0]) and (most is None or self.is_late and found >= most):
                vars(self).update(done=done, roles=roles)
                most = found
        if most is None:
            raise Stop("the words of the definition are not found in the loop")

    def role(self, seen, words):
        if None in seen or len({width_of(value) for value in seen}) > 1:
            return None
        for i in range(len(words[0])):
            if seen == [here[i] for here in words] and seen[0] != seen[1]:
                return "word", i
        if seen[0] == seen[1] == seen[2]:
            return "by", 0
        first, second = (number_in(sub(after, before)) for before, after in zip(seen, seen[1:]))
        return ("by", first) if first is not None and first == second else None

    def go_to_head(self, run, arrivals=1):
        if not run.go(self.head, arrivals):
            raise Stop("the loop is not reached")
        return run

    def enter(self, total):
        run = self.go_to_head(self.subject.reach(total, self.done))
        words, now = self.subject.words_at_entry(self.done), places_of(run)
        for place, role in self.roles.items():
            if role and role[0] == "word" and now[place] != words[role[1]]:
                raise Stop(f"at the entry of the loop {place} is not what the definitions say")
        self.subject.entered(run, self.done)

    def at(self, turns, left, way=None):
        """The head after so many turns, with so many left."""
        run = self.go_to_head(self.subject.reach(add(turns, left), self.done))
        words = self.subject.any_words()
        for place, value in (here := places_of(run)).items():
            role = self.roles.get(place)
            if role and role[0] == "word":
                here[place] = words[role[1]]
            elif role:
                here[place] = add(value, mul(turns, number(role[1]))) if role[1] else value
            else:
                here[place] = unknown(("anything", self.subject.name, place), width_of(value))
        set_places(run, here)
        values.begin("loop", "call", "loop")
        run.heads.append(Head(run, words, here, turns))
        self.subject.assume(run.heads[-1], self.done, way)
        return run.heads[-1]

    def in_turn(self, way):
        """Any turn, but for the last ones."""
        total, turns = self.subject.some("total", max(self.least, self.last + 1)), self.subject.some("turns")
        values.assume_at_most(turns, total, self.last + 1)
        return self.at(turns, sub(total, turns), way)

    def at_end(self, way=None):
        """With the last turns to do."""
        return self.at(self.turns_at_end(), number(self.last), way)

    def turns_at_end(self):
        return sub(self.subject.some("total", max(self.least, self.last)), number(self.last))

    def turn(self, way):
        """The places that are not as suggested."""
        head, came = self.subject.travel(self.in_turn, way, self.head, self.arrivals)
        if not came:
            self.subject.leave(head, self.done, way)
            return set()
        new, now, wrong = self.subject.step(head.words, head.turns, self.done, way), places_of(head.run), set()
        for place, role in self.roles.items():
            if role and place in head.places:
                before = head.places[place]
                expected = new[role[1]] if role[0] == "word" else add(before, number(role[1], width_of(before)))
            if role and (place not in head.places or now.get(place) != expected):
                wrong.add(place)
        if not wrong:
            self.subject.turned(head, self.done)
        return wrong

    def check_turns(self):
        """A place that is not as suggested is anything. Then all turns are checked anew."""
        def wrong_places(way):
            return set().union(*on_each_path(lambda: self.turn(way)))

        while wrong := next(filter(None, map(wrong_places, self.subject.ways(self.in_turn))), None):
            vars(self).update(roles=self.roles | dict.fromkeys(wrong))


def first_shown(attempts):
    """What the first attempt gives that is not refused."""
    faults = []
    for attempt in attempts:
        try:
            return attempt()
        except Stop as stop:
            if isinstance(stop, Differs) and stop.input:
                raise
            faults.append(str(stop))
    raise Stop(" | ".join(dict.fromkeys(faults)))


def prove(make, pers, like=None, finish=lambda loop: loop.subject.finish(loop)):
    """Makes a subject whose turn has as many elements as the code's, and shows its loop: from the entry to the end. `like` is
    a loop that perhaps does the same."""
    def attempt(per, *way):
        loop = Loop(make(per), *way)
        finish(loop)
        return loop

    ways = [(like.subject.per, like.least, like.last, like.is_late, like)] if like else []
    ways += [(per, least, last) for per in pers for least, last in ((1, 1), (2, 1), (3, 2), (4, 1))]
    ways += [(per, 2, 2, True) for per in pers]
    return first_shown(partial(attempt, *way) for way in ways)


def prove_each_rest(make, rests=1, lead=0):
    """For calls of any number of elements, each of which can have so many rests; then the few that reach no loop. If they are
    not shown, some calls of few may be wrong, which says more."""
    few = 4 * max(rests, 16)
    try:
        loops = [prove(lambda per: make(number(0), per), (1, 2, 4, 8, 16))]
        per = loops[0].subject.per
        if rests * per > 1:
            loops = prove_rests(partial(make, per=per), rests, per, loops[0])
        few = max(loop.least for loop in loops) * per * rests
    finally:
        for n in range(lead + few):
            on_each_path(make(number(n - lead), 1).few)


def prove_rests(make, rests, per, like):
    """The rests that are not 0. The loop is shown for all of them at once; or, where what comes before it depends on them, for
    those that are as long but for some pieces; or for each. What comes after it is shown for each."""
    def attempt(groups):
        loops = [like]
        for rest, members in groups:
            def finish(loop):
                for n in members:
                    subject = make(number(n))
                    subject.finish(loop.with_other(subject=subject))  # of which the loop's is the general case

            loops.append(prove(lambda per: make(rest), [per] * (len(members) == 1), loops[-1], finish))
        return loops

    count = rests * per
    pieces = unknown("pieces of the rest", (per - 1).bit_length())
    everything = [(extend(unknown("rest", (count - 1).bit_length(), 1)), range(1, count))]
    as_long = [(extend(join(number(n, (rests - 1).bit_length()), pieces)), range(n, count, rests)) for n in range(rests)]
    each = [(number(n), [n]) for n in range(1, count)]
    return first_shown(partial(attempt, groups) for groups in ([everything, as_long, each] if per > 1 else [everything, each]))
