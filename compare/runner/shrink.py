"""A smaller request that shows the same difference."""

import re

ROUNDS = 60
HEX = re.compile(rb"([0-9a-f]{2})+\Z")


def shrunk(request, still_shows):
    """`still_shows` takes lines and answers which of them show it."""
    for _ in range(ROUNDS):
        tries = sorted(set(smaller(request)), key=lambda line: (len(line), line))
        shows = still_shows(tries) if tries else []
        better = [line for line, it in zip(tries, shows) if it]
        if not better:
            return request
        request = better[0]
    return request


def smaller(request):
    """Lines with one word made smaller, or left out."""
    words = request.split(b" ")
    if words[0] == b"spread" and len(words) > 2:
        yield from smaller_rows(words)
    if words[0] == b"received" and len(words) > 6:
        yield from fewer_handles(words)
    for place, word in enumerate(words):
        for less in [*fewer_bytes(word), *lower_numbers(word)]:
            if (len(less), less) < (len(word), word):
                yield b" ".join(words[:place] + [less] + words[place + 1:])
        if place > 0:
            yield b" ".join(words[:place] + words[place + 1:])


def smaller_rows(words):
    """Of spreading, size and areas only shrink together."""
    size, areas = words[1], len(words[2]) // 2
    if not size.isdigit() or not 0 < int(size) <= areas:
        return
    for less in lower_numbers(size):
        for count in {1, 2, areas // int(size)}:
            row = b"00" * (int(less) * count) or b"-"
            yield b" ".join([words[0], less, row, *words[3:]])
    for count in range(1, areas // int(size)):
        row = b"00" * (int(size) * count)
        yield b" ".join([words[0], size, row, *words[3:]])


def fewer_handles(words):
    """Of a list, the count and an item only go together."""
    if not words[1].isdigit():
        return
    for place in range(2, len(words) - 4, 4):
        yield b" ".join([words[0], b"%d" % max(0, int(words[1]) - 1),
                         *words[2:place], *words[place + 4:]])


def fewer_bytes(word):
    """Runs of pairs left out, at both ends and inside; bytes set to zero."""
    if not HEX.match(word):
        return
    yield b"-"
    pairs = len(word) // 2
    run = pairs
    while run:
        run //= 2
        for start in range(0, pairs, max(run, pairs // 8, 1)):
            yield word[:2 * start] + word[2 * (start + run):] or b"-"
            zeros = b"00" * min(run, pairs - start)
            yield word[:2 * start] + zeros + word[2 * start + len(zeros):]


def lower_numbers(word):
    if not word.isdigit() or len(word) > 12:
        return
    number = int(word)
    step = number
    while step:
        yield b"%d" % (number - step)
        step //= 2
