"""CPython's own tests of mappings and sets, where they are installed, with a Map and a Set in place of dict and set.

test_dict.DictTest writes its dicts as literals, so its tests are rewritten in test_map.py, test_views.py and
test_lives.py: bool, clear, constructor, container_iterator, contains, copy, dict_items_result_gc,
dictview_mixed_set_operations, dictview_set_operations_on_.., eq, equal_operator_modifying_operand,
errors_in_view_containment_check, free_after_iterating, fromkeys, get, getitem, init_use_after_free,
invalid_keyword_arguments, items, items_symmetric_difference, iterator_pickling and the like, keys, keys_contained,
len, literal_constructor, merge_and_mutate, merge_operator, missing, mutating_iteration.., pop, popitem, repr,
repr_deep, setdefault, tuple_keyerror, update, values, views_mapping.

Tests of dict and of set that are left out, and why:

- Keys with their own `__eq__` or `__hash__`, or of another type: they can't be put, and no equality is called.
  Of a dict: bad_key, dict_contain_use_after_free, dictitems_contains_use_after_free, mutating_lookup,
  reentrant_insertion, resize1, resize2, setdefault_atomic, setitem_atomic_at_resize, str_nonstr,
  object_set_item_single_instance_non_str_key, instance_dict_getattr_str_subclass, fromkeys_operator_modifying_...
  Of a set: badcmp, cyclical_repr, deepcopy (whose key is a Tracer), do_not_rehash_dict_keys, setOfFrozensets.
- An unhashable key, which is absent for a look-up here: contains, discard, remove, difference,
  difference_update and intersection_update of a set, all of whose other lines test_set.py has.
- The order of insertion, and reversal: dict_copy_order, reversed and all of reverse.., popitem's last in
  first out, merge_operator's order.
- How a dict is stored in memory: copy_fuzz, copy_noncompact, copy_maintains_tracking, empty_presized_dict_in_freelist,
  oob_indexing_dictiter_iternextitem, splittable_.., string_keys_can_track_values, track_..
- Texts and attributes: repr's, which names the type here; pickling's attribute of a plain Set, which has none;
  copy's of a subclass of Map, which is a Map, as that of a subclass of dict is a dict.
"""

import unittest

import bucket

try:
    from test import mapping_tests, test_set
except ImportError:
    mapping_tests = test_set = None

WHY = "CPython's own tests, since they aren't installed"
OF_A_SET = ["badcmp", "cyclical_repr", "deepcopy", "do_not_rehash_dict_keys", "setOfFrozensets"]
OF_A_SET += ["contains", "discard", "remove", "difference", "difference_update", "intersection_update"]
OF_A_MAP = ["bad_key", "eq", "getitem", "fromkeys", "pop", "repr", "setdefault", "mutatingiteration"]


class MapBelow(bucket.Map):
    pass


class SetBelow(bucket.Set):
    pass


def without(tests, names):
    """A class of tests without the given ones."""
    return type(tests.__name__, (tests,), {f"test_{name}": None for name in names if hasattr(tests, f"test_{name}")})


def classes():
    for kind, more in (bucket.Map, []), (MapBelow, ["copy"]):
        for tests in mapping_tests.BasicTestMappingProtocol, mapping_tests.TestMappingProtocol, mapping_tests.TestHashMappingProtocol:
            members = {"type2test": kind, "test_popitem": seeded(tests)}
            base = without(tests, OF_A_MAP + more)
            yield type(f"{kind.__name__}{tests.__name__}", (base,), members)
    for kind, more in (bucket.Set, ["pickling"]), (SetBelow, []):
        members = {"thetype": kind, "basetype": bucket.Set}
        yield type(f"{kind.__name__}Joint", (without(test_set.TestJointOps, OF_A_SET + more),), members | {"test_gc": None})
        yield type(f"{kind.__name__}Tests", (without(test_set.TestSet, OF_A_SET + more),), members)
    for left, right in (bucket.Set, bucket.Set), (bucket.Set, set):
        yield mixed(test_set.TestBinaryOps, left, right)
        yield mixed(test_set.TestUpdateOps, left, right)
    for name in "TestSubsetEqualEmpty", "TestSubsetEqualNonEmpty", "TestSubsetEmptyNonEmpty", "TestSubsetPartial", "TestSubsetNonOverlap":
        tests = getattr(test_set, name)
        yield type(name, (tests,), {"left": bucket.Set(tests.left), "right": bucket.Set(tests.right)})


def seeded(tests):
    """Two maps that are filled alike yield their pairs in the same order only with the same seed."""

    def test_popitem(self):
        bucket.seeded(bytes(range(16)))
        self.addCleanup(bucket.seeded, None)
        tests.test_popitem(self)

    return test_popitem


def mixed(tests, left, right):
    """Its set is of one type; what the tests write as a set literal or as set(..) remains a set."""

    def set_up(self):
        tests.setUp(self)
        self.set = left(right(self.set))

    return type(f"{tests.__name__}{right.__name__}", (tests,), {"setUp": set_up, "test_pickling": None})


if mapping_tests is not None:
    for made in classes():
        globals()[f"Of{len(globals())}{made.__name__}"] = made


@unittest.skipIf(mapping_tests is None, WHY)
class AreInstalled(unittest.TestCase):
    def test_what_is_left_out_is_there(self):
        for name in OF_A_SET:
            self.assertTrue(hasattr(test_set.TestSet, f"test_{name}"), name)


if __name__ == "__main__":
    unittest.main()
