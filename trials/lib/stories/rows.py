"""Rows of a story: lines for the program, each with its reply."""


def each(numbers, lines, replies):
    """The same lines for each number, which replaces each `#`."""
    numbers = [str(number) for number in numbers]
    return tuple("\n".join(text.replace("#", it) for it in numbers) for text in (lines, replies))
