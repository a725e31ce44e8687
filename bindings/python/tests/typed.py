"""A program that a type checker must accept, except for the marked lines. It also runs."""

import bucket
from bucket import Cache, Map, Set


class Page:
    title: str = "home"


class Counts(Map[str, int]):
    def __missing__(self, key: str) -> int:
        return 0


def maps() -> None:
    ages: Map[str, int] = Map({"Ann": 30}, Bob=27)
    mixed: Map[int | str | bytes, Page] = Map()
    mixed[1] = mixed["a"] = mixed[b"b"] = Page()
    age: int | None = ages.get("Ann")
    sure: int = ages.get("Ann", 0) + ages.pop("Bob", 0)
    names: list[str] = sorted(ages.keys() | {"Cid"})
    pairs: list[tuple[str, int]] = sorted(ages.items())
    wider: Map[str | int, int | Page] = ages | {1: Page()}
    ages |= [("Dee", 5)]
    ages.update(Eve=6)
    counts = Counts()
    counts["a"] += 1
    keyed: Map[int, str] = Map.fromkeys([1, 2], "x")
    page: Page = mixed[1]
    if len(ages) > 50:
        ages[1.5] = 3  # type: ignore[index]
    print(age, sure, names, pairs, len(wider), counts, keyed, page.title, ages.copy() == ages)


def sets() -> None:
    seen: Set[int] = Set([1, 2])
    wider: Set[int | str] = seen | {"a"}
    seen &= {1}
    if len(seen) > 5:
        seen.add("a")  # type: ignore[arg-type]
    is_below: bool = seen <= {1, 2} and seen.issubset([1]) and not seen.isdisjoint({1})
    both: Set[int] = seen.intersection([1], (2,))
    print(seen, wider, is_below, both, seen ^ {"b"}, seen - {2})


def caches() -> None:
    pages: Cache[str, Page] = Cache(maxsize=2)
    gone: tuple[str, Page] | None = pages.put("/", Page())
    info: bucket.CacheInfo = pages.cache_info()
    title: str = pages["/"].title
    rate: float = info.hits / max(1, info.hits + info.misses)
    print(gone, title, rate, pages.maxsize, pages.peek("/a"), pages.capacity)


if __name__ == "__main__":
    maps()
    sets()
    caches()
