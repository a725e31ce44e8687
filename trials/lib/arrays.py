"""A model of a table's arrays: the slots of the current one, and the units of an old one.

A resize depends only on the numbers of pairs in some buckets, and happens only while there is no old
array. Then each pair is in its home, so the map alone determines these numbers. During a rehash, the
rules by which buckets move and tickets are issued ask of a pair only whether moving it allocates. So
as long as no allocation has failed, each line leaves one state, and that judges every reply about
slots, the rehash word and tickets.

The replies don't say which allocation failed: if one may have, the arrays have one more state. A
resize that failed leaves the slots as they were; a unit or a bucket whose move failed stays in the
old array. A reply that fits none of the states is wrong.
"""

from typing import NamedTuple

from beside import HASHES

BUCKET = 32
UNIT = 64
MOST_OPEN = 2047
FULL_SAMPLE = 128


class Old(NamedTuple):
    """An old array: its length, its next unit, the killed buckets, and the open units."""

    length: int
    position: int
    killed: frozenset
    open: tuple

    def word(self):
        return 2048 * self.position + len(self.open)

    def buckets(self, unit):
        return range(UNIT * unit, min(UNIT * unit + UNIT, self.length))

    def next_unit(self):
        is_left = UNIT * self.position < self.length and len(self.open) < MOST_OPEN
        return self.position if is_left else None


class State(NamedTuple):
    """The slots of the current array, the old array or None, and how many more allocations may fail."""

    slots: int
    old: object
    refusals: int

    def refused(self):
        return self._replace(refusals=self.refusals - 1)


def power_for(number):
    """The least power of two that is at least this number."""
    return 1 << max(number - 1, 0).bit_length()


def slots_for(capacity):
    return max(64, power_for(min(capacity, 2**62)))


def is_crowded(capacity, pairs):
    return pairs > capacity // 16 * 13


def is_deserted(capacity, pairs):
    return pairs < capacity // 8


def best_capacity(capacity, pairs, minimum, maximum):
    if capacity < minimum or is_crowded(capacity, pairs):
        grown = min(maximum, max(power_for(minimum), capacity))
        while grown // 2 < pairs and grown < maximum:
            grown *= 2
        return grown
    if is_deserted(capacity, pairs):
        return power_for(max(2 * pairs, minimum, 64))
    return capacity


def large_sample(length):
    return power_for(length.bit_length() - 1)


def small_sample(length):
    return power_for(large_sample(length).bit_length())


class Arrays:
    """The states that the arrays may be in, and the number of pairs in each home of the longest array."""

    def __init__(self, kind, hash, minimum, maximum, refusals):
        self.kind, self.hash = kind, HASHES[hash]
        self.minimum, self.maximum = minimum, maximum
        self.pairs = [0] * (maximum // BUCKET)
        self.states = {State(0, None, refusals)}

    def follow(self, line, reply):
        """Takes a line and a reply that the map gives, and returns whether it fits a state."""
        verb, *words = line.split()
        if verb in ("put", "remove"):
            self.states = set(getattr(self, verb)(self.hash(int(words[0])), reply))
        else:
            self.resettle(verb, words)
            steps = [self.step(state, verb, words, reply) for state in self.states]
            self.states = {after for step in steps for after in step}
        return bool(self.states)

    def resettle(self, verb, words):
        """Updates the minimum, if the line changes it."""
        if verb == "reserve" and int(words[0]) <= self.maximum - self.minimum:
            self.minimum += int(words[0])
        if verb == "release" and int(words[0]) <= self.minimum:
            self.minimum -= int(words[0])

    def step(self, state, verb, words, reply):
        """The states after a line that changes no pair."""
        if verb in ("reserve", "release"):
            is_set = reply == words[0]
            return self.resized(state) if is_set else [state]
        if verb in ("count", "has"):
            return self.counted(state)
        if verb == "read":
            return [after for after, _ in self.prepared(state, self.hash(int(words[0])))]
        if verb in ("start", "work", "end"):
            return [after for after, said in self.ticketed(state, verb, words) if said == reply]
        said = {"slots": str(state.slots), "word": str(state.old.word()) if state.old else "none"}
        return [state] if said.get(verb, reply) == reply else []

    def home(self, hash, length):
        return hash * length >> 64

    def len_of(self, bucket, length):
        """How many pairs have this home in an array of this length."""
        width = len(self.pairs) // length
        return sum(self.pairs[bucket * width : bucket * width + width])

    def sample(self, start, size, length):
        """An estimate of an array's number of pairs, from some of its buckets."""
        width = len(self.pairs) // length
        return sum(self.pairs[start * width : (start + size) * width]) * (length // size)

    def plan(self, slots):
        """The slots after a resize of an array with these; 0 if the array is dropped."""
        length, minimum, maximum = slots // BUCKET, self.minimum, self.maximum
        large, full = large_sample(length), min(length, FULL_SAMPLE)
        last = self.sample(length - large, large, length)
        if last == 0 and minimum == 0:
            return slots if any(self.pairs) else 0
        if not is_crowded(slots, last) and not is_deserted(slots, last):
            return slots
        middle = self.sample((length - full) // 2, full, length)
        capacity = best_capacity(slots, middle, minimum, maximum)
        first = self.sample(0, large, length)
        if capacity < slots and best_capacity(slots, first, minimum, maximum) > capacity:
            return slots
        return slots if capacity == slots else slots_for(capacity)

    def resized(self, state):
        if state.old or not state.slots:
            return [state]
        slots = self.plan(state.slots)
        if slots == state.slots:
            return [state]
        if slots == 0:
            return [state._replace(slots=0)]
        old = Old(state.slots // BUCKET, 0, frozenset(), ())
        refused = [state.refused()] if state.refusals else []
        return [State(slots, old, state.refusals), *refused]

    def near(self, index, length):
        """The slots, and the pairs, of the small sample of buckets near this one."""
        small = small_sample(length)
        start = index % small
        return small * BUCKET, sum(self.len_of(start + at, length) for at in range(small))

    def grown(self, state, hash):
        """After a call that writes to the home of a hash."""
        length = state.slots // BUCKET
        home = self.home(hash, length)
        is_largest = self.kind == "cache" and state.slots == self.maximum
        is_sampled = hash % 256 & large_sample(length) - 1 == 0
        if is_largest or not is_sampled or self.len_of(home, length) < BUCKET - 1:
            return [state]
        return self.resized(state) if is_crowded(*self.near(home, length)) else [state]

    def shrunk(self, state, hash):
        """After the last pair of a home was removed."""
        length = state.slots // BUCKET
        is_least = state.slots <= self.minimum
        if is_least or not is_deserted(*self.near(self.home(hash, length), length)):
            return [state]
        return self.resized(state)

    def takes_memory(self, state, bucket):
        """Whether moving an old bucket may allocate."""
        length = state.old.length
        pairs = 0 if bucket in state.old.killed else self.len_of(bucket, length)
        return pairs > BUCKET or pairs > 0 and length > state.slots // BUCKET

    def moved(self, state, buckets):
        """The states after old buckets moved in turn, each with whether all of them did."""
        moved = []
        for bucket in buckets:
            if state.refusals and self.takes_memory(state, bucket):
                moved.append((state.refused(), False))
            killed = state.old.killed | {bucket}
            state = state._replace(old=state.old._replace(killed=killed))
        return [(state, True), *moved]

    def worked(self, state):
        """After working a unit, if one is left."""
        unit = state.old.next_unit() if state.old else None
        if unit is None:
            return [state]
        worked = []
        for after, is_done in self.moved(state, state.old.buckets(unit)):
            started = after.old._replace(position=unit + 1)
            worked.append(self.ended(after._replace(old=started)) if is_done else after)
        return worked

    def ended(self, state):
        """Without the old array, if its last unit is done and no ticket is open."""
        old = state.old
        is_over = not old.open and UNIT * old.position >= old.length
        return state._replace(old=None) if is_over else state

    def prepared(self, state, hash):
        """After a unit, and the move of a home's old pairs, each with whether these moved."""
        prepared = []
        for after in self.worked(state):
            if after.old is None:
                prepared.append((after, True))
                continue
            length, old = after.slots // BUCKET, after.old.length
            home, ratio = self.home(hash, length), max(old // length, 1)
            first = home * old // length
            prepared += self.moved(after, range(first, first + ratio))
        return prepared

    def counted(self, state):
        is_empty = self.minimum == 0 and not any(self.pairs)
        worked = self.worked(state)
        return [it for after in worked for it in (self.resized(after) if is_empty else [after])]

    def put(self, hash, reply):
        """The states after a put; the reply says whether its pair was inserted."""
        for state in self.states:
            if not state.slots:
                if state.refusals and reply == "refused 3":
                    yield state.refused()
                state = state._replace(slots=slots_for(self.minimum))
            for after, is_ready in self.prepared(state, hash):
                put = self.inserted(after, hash, reply) if is_ready else self.kept(after, reply)
                yield from put
        if reply == "ok":
            self.pairs[self.home(hash, len(self.pairs))] += 1

    def kept(self, state, reply):
        """The state if old pairs couldn't move: then nothing is inserted."""
        return [state] if reply in ("refused 3", "present") else []

    def inserted(self, state, hash, reply):
        """A pair that finds no own slot may need a block; in an index, with its tombstones, any pair may."""
        length = state.slots // BUCKET
        is_full = self.kind == "index" or self.len_of(self.home(hash, length), length) >= BUCKET
        grown = self.grown(state, hash)
        if reply != "refused 3":
            return grown
        return [after.refused() for after in grown if is_full and after.refusals]

    def remove(self, hash, reply):
        """The states after a removal; the reply says whether a pair was removed, from either array."""
        prepared = [it for state in self.states for it in self.prepared(state, hash)]
        goes = reply.startswith("pair")
        self.pairs[self.home(hash, len(self.pairs))] -= goes
        for after, _ in prepared:
            length = after.slots // BUCKET
            is_emptied = goes and length and not self.len_of(self.home(hash, length), length)
            yield from self.shrunk(after, hash) if is_emptied else [after]

    def ticketed(self, state, verb, words):
        """The states after a ticket call, each with its reply."""
        old = state.old
        if verb == "start":
            unit = old.next_unit() if old else None
            if unit is None:
                return [(state, "none")]
            started = old._replace(position=unit + 1, open=tuple(sorted((*old.open, unit))))
            return [(state._replace(old=started), f"ticket {2048 * unit}")]
        if verb == "work":
            bucket = int(words[0])
            if not old or bucket >= old.length:
                return [(state, "none")]
            return [(it, "ok" if done else "refused 3") for it, done in self.moved(state, [bucket])]
        return [self.closed(state, int(words[0]), words[1] == "done")]

    def closed(self, state, ticket, is_done):
        """The state after the end of a ticket, with the reply."""
        unit, rest = divmod(ticket, 2048)
        old = state.old
        if not old or rest or unit not in old.open:
            return state, "refused 1"
        if is_done and not old.killed.issuperset(old.buckets(unit)):
            return state, "refused 2"
        at = old.open.index(unit)
        left = old._replace(open=old.open[:at] + old.open[at + 1 :])
        if not is_done:
            return state._replace(old=left._replace(position=min(old.position, unit))), "stays"
        after = self.ended(state._replace(old=left))
        return after, "stays" if after.old else "gone"
