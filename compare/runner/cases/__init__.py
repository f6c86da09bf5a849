"""The requests, by topic. All follow from the seed.

A topic has `small()`, all its small cases and its boundaries, and `some(rng)`,
a handful of random requests that belong together. The independent program is
used as a library, so that a request can go on from the answer before it.
"""

import random
from math import ceil

from . import (
    frames, malformed, ports, ranges, received, setup, sii, spread, strings,
)

# Each topic with its share of the requests, in hundredths. Those of `setup`
# and two of `ports`, to which the Rust has no answer, and those of `received`
# come on top.
TOPICS = (
    (ranges, 16),
    (sii, 22),
    (strings, 16),
    (ports, 16),
    (frames, 18),
    (spread, 8),
    (malformed, 6),
    (setup, 6),
    (received, 6),
)


def requests(count, seed, notes=None, topics=TOPICS):
    """About `count` request lines. `notes` is told what share of the small
    cases was taken."""
    for topic, share in topics:
        yield from of_topic(topic, ceil(count * share / 100), seed, notes)


def often(*chosen):
    """The topics' shares where half of the requests are of these."""
    return [(topic, share / 2 + (50 / len(chosen) if topic in chosen else 0))
            for topic, share in TOPICS]


def of_topic(topic, wanted, seed, notes=None):
    name = topic.__name__.rpartition(".")[2]
    rng = random.Random(f"{seed} {name}")
    small = list(topic.small())
    taken = min(len(small), wanted // 2)
    if notes is not None:
        notes.append(f"{name} {taken} of {len(small)}")
    # Where there is no room for all and for random ones besides: a part.
    yield from rng.sample(small, taken)
    yield from random_ones(topic, rng, wanted - taken)


def random_ones(topic, rng, wanted):
    while wanted > 0:
        for request in topic.some(rng):
            yield request
            wanted -= 1
