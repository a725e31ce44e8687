"""The hash of a seed, observed in the order of the keys: the highest bits of a hash are the index of its bucket, so the keys of one
array come in ascending order of these. A seed that isn't zero must give the order of SipHash-1-3 with the seed as its keys, which is
reimplemented here, and another seed another order."""

import itertools
import os
import subprocess
import sys
import unittest

import bucket

PAIRS = 4000
MASK = (1 << 64) - 1


def rotated(word, by):
    return (word << by | word >> (64 - by)) & MASK


def sip_round(v):
    v[0] = v[0] + v[1] & MASK
    v[2] = v[2] + v[3] & MASK
    v[1] = rotated(v[1], 13) ^ v[0]
    v[3] = rotated(v[3], 16) ^ v[2]
    v[0] = rotated(v[0], 32)
    v[2] = v[2] + v[1] & MASK
    v[0] = v[0] + v[3] & MASK
    v[1] = rotated(v[1], 17) ^ v[2]
    v[3] = rotated(v[3], 21) ^ v[0]
    v[2] = rotated(v[2], 32)


def sip_hash(seed, message):
    keys = [int.from_bytes(seed[:8], "little"), int.from_bytes(seed[8:], "little")]
    v = [keys[0] ^ 0x736F6D6570736575, keys[1] ^ 0x646F72616E646F6D, keys[0] ^ 0x6C7967656E657261, keys[1] ^ 0x7465646279746573]
    whole = len(message) // 8 * 8
    last = message[whole:].ljust(7, b"\0") + bytes([len(message) % 256])
    for at in range(0, whole + 8, 8):
        word = int.from_bytes((message[:whole] + last)[at : at + 8], "little")
        v[3] ^= word
        sip_round(v)
        v[0] ^= word
    v[2] ^= 0xFF
    for _ in range(3):
        sip_round(v)
    return v[0] ^ v[1] ^ v[2] ^ v[3]


def word_message(key):
    return key.to_bytes(8, "little", signed=True)


def text_message(key):
    """A str has Python's hash as its word."""
    return word_message(hash(key))


def of_one_bucket(seed, count):
    """That many strs that are in the first of 64 buckets of a cache. A cache inverts the other half of a seed."""
    seed = seed[:8] + bytes(255 - byte for byte in seed[8:])
    texts = (f"key {number}" for number in itertools.count())
    return list(itertools.islice((text for text in texts if sip_hash(seed, text_message(text)) >> 58 == 0), count))


def filled(keys, seed):
    """The keys in the order of a map whose growth has ended."""
    bucket.seeded(seed)
    made = bucket.Map.fromkeys(keys)
    for _ in range(200):
        key, value = made.popitem()
        made[key] = value
    bucket.seeded(None)
    return list(made)


def is_ordered(seed, keys, message):
    """Whether keys in a table of 64 or more buckets are ordered by the highest six bits of their hashes."""
    bits = [sip_hash(seed, message(key)) >> 58 for key in keys]
    return bits == sorted(bits)


@unittest.skipIf("BUCKET_OTHER_HASH" in os.environ, "the order by SipHash, since the library has another hash")
class Seeds(unittest.TestCase):
    def test_a_seed_is_the_keys_of_sip_hash(self):
        seeds = [bytes(range(16)), bytes([1] + [0] * 15), bytes([0] * 15 + [1]), os.urandom(16)]
        words = list(range(-5, PAIRS))
        texts = [f"key {number}" for number in range(PAIRS)]
        for seed in seeds:
            self.assertTrue(is_ordered(seed, filled(texts, seed), text_message))
            for other in seeds:
                self.assertEqual(other == seed, is_ordered(seed, filled(words, other), word_message))
        fixed = filled(words, bytes(16))
        self.assertEqual(fixed, filled(words, bytes(16)))
        self.assertFalse(is_ordered(bytes(16), fixed, word_message))

    def test_each_process_has_another_seed(self):
        self.assertNotEqual(self.order_by({}), self.order_by({}))
        self.assertEqual(self.order_by({"PYTHONHASHSEED": "7"}), self.order_by({"PYTHONHASHSEED": "7"}))
        self.assertNotEqual(self.order_by({"PYTHONHASHSEED": "7"}), self.order_by({"PYTHONHASHSEED": "8"}))
        self.assertNotEqual(self.order_by({"PYTHONHASHSEED": "random"}), self.order_by({"PYTHONHASHSEED": "random"}))

    def order_by(self, variables):
        environment = {name: value for name, value in os.environ.items() if name != "PYTHONHASHSEED"}
        program = "import bucket; print(list(bucket.Map.fromkeys(range(1000))))"
        command, environment = [sys.executable, "-c", program], {**environment, **variables}
        return subprocess.run(command, env=environment, capture_output=True, check=True).stdout


if __name__ == "__main__":
    unittest.main()
