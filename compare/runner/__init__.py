"""The comparison: the same requests to three programs, answers line by line.

    compare/run       makes requests, asks, compares, fails on any difference
                      that docs/DIFFERENCES.md doesn't list
    compare/changed   lists the answers that a request changed
    compare/replay    writes the sample that `rt ci` replays through the desk
    compare/tshark    has tshark read the frames that were built

Where things are:

    programs.py     the desk, the oracle, the independent program; asking them
    request.py      a request line taken apart, an answer line taken apart
    cases/          the requests, by topic
    differences.py  a rule for each entry of docs/DIFFERENCES.md
    allowed.py      for each request, which answers it may change
    looked.py       what a request's image, ports and frame hold, for these two
    listed.py       the entries' own examples, as the document gives them
    bench.py        the cases of compare/bench.txt
    shrink.py       a smaller request that shows the same difference
    tally.py        what was asked and answered, in numbers
    compare.py      `compare/run`
    changed.py      `compare/changed`
    replay.py       `compare/replay`
    tshark.py       `compare/tshark`
"""
