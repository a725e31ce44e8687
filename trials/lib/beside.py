"""A plain map as a model of a table: which replies a line may get, and how they change the map."""

import re

HASHES = {
    "zero": lambda key: 0,
    "id": lambda key: key,
    "spread": lambda key: (key << 56 | key & 255) % 2**64,
}

# The map doesn't know arrays and tickets: to these lines it accepts any reply of the right form.
FORMS = {
    "epoch": "ok",
    "slots": "[0-9]+",
    "word": "[0-9]+|none",
    "start": "ticket [0-9]+|none",
    "work": "ok|none|refused 3",
    "end": "gone|stays|refused [12]",
}

# The lines that may fail to allocate. One that changes a present pair never does.
REFUSABLE = {"put", "evict", "walk"}


class Beside:
    """The maps that the table may hold: one, until a `clear` fails."""

    def __init__(self):
        self.maps = []

    def follow(self, line, reply):
        """Takes a valid line, and returns whether its reply is one that the map gives."""
        verb, *words = line.split()
        if verb == "new":
            self.kind, self.hash = words[0], HASHES[words[1]]
            self.minimum, self.maximum = int(words[2]), int(words[3])
            self.maps = [{}]
            return reply == "ok"
        if verb in FORMS:
            return bool(re.fullmatch(FORMS[verb], reply))
        if verb == "reserve":
            return reply == self.reserved(int(words[0]))
        if verb == "release":
            return reply == self.released(int(words[0]))
        numbers = [int(word) for word in words]
        self.maps = [after for map in self.maps for after in self.steps(map, verb, numbers, reply)]
        return bool(self.maps)

    def reserved(self, number):
        if number > self.maximum - self.minimum:
            return "0"
        self.minimum += number
        return str(number)

    def released(self, number):
        if number > self.minimum:
            return "0"
        self.minimum -= number
        return str(number)

    def steps(self, map, verb, numbers, reply):
        """The maps that the table may hold afterwards: none, if this map doesn't give the reply."""
        if verb in ("touch", "evict") and self.kind != "cache":
            return [map] if reply == "wrong kind" else []
        if reply == "refused 3":
            return self.refused(map, verb, numbers)
        if verb == "evict":
            taken = re.fullmatch("pair ([0-9]+) ([0-9]+)", reply)
            if not taken:
                return [map] if reply == "nothing" else []
            key, value = int(taken[1]), int(taken[2])
            return [without(map, key)] if map.get(key) == value else []
        if verb == "walk":
            return [map] if re.fullmatch(f"walked [0-9]+ {len(map)}", reply) else []
        expected, after = answer(map, verb, *numbers)
        return [after] if reply == expected else []

    def refused(self, map, verb, numbers):
        """The maps that a failed line may leave. A put fails only if its key is absent."""
        if verb == "clear":
            return self.cleared(map)
        is_right = verb in REFUSABLE and not (verb == "put" and numbers[0] in map)
        return [map] if is_right else []

    def cleared(self, map):
        """What a failed `clear` may leave: the pairs whose hash is not below some bound."""
        bounds = {0, 2**64, *(self.hash(key) for key in map)}
        return [{k: map[k] for k in map if self.hash(k) >= bound} for bound in sorted(bounds)]


def answer(map, verb, key=None, value=None):
    """The reply of a map to a line, and the map afterwards."""
    there = map.get(key)
    if verb == "count":
        return str(len(map)), map
    if verb == "has":
        return str(bool(map)).lower(), map
    if verb == "clear":
        return f"cleared {len(map)}", {}
    if verb == "put":
        return ("ok", {**map, key: value}) if there is None else ("present", map)
    if there is None:
        return "absent", map
    if verb == "write":
        return f"old {there}", {**map, key: value}
    if verb == "remove":
        return f"pair {key} {there}", without(map, key)
    return ("ok" if verb == "touch" else f"value {there}"), map


def without(map, key):
    return {k: map[k] for k in map if k != key}
