"""A second opinion on docs/RULES.md, in plain Python.

What it is for: the comparison asks the desk, the original Rust and this
program the same questions and looks for different answers. The Rust has no
frame reader, no spreading and not all refusals; there this program is the
only other voice.

It was written from the words: the rules, the open points of
docs/DECISIONS.md and the desk's line protocol. Its writers saw neither the
Rattle nor the Rust. Where the words left a choice, UNCLEAR.md says what was
chosen.

How to run it, from the repository's root:

    python3 compare/independent < requests > answers
    python3 compare/independent/tests.py

One request a line goes in, one answer a line comes out. It needs Python 3
and nothing else. Answers are written as soon as the lines of one read are
done, so it can also be asked in batches through a pipe. With `--before E1`
it answers by the rules as they were before that request (see amended.py).

Where things are:

    amended.py   which amendments of the rules are in force
    refusal.py   the refusals
    crc.py       the checksum
    eeprom.py    the EEPROM range
    category.py  finding a category
    sii.py       alias, identity, mailbox, size, General, lists
    setup.py     PDI, bootstrap mailbox, version, checksum, clocks
    strings.py   strings, device name, description
    ports.py     ports, topology, delays
    frames.py    the builder and the frame reader
    received.py  reading what came back, with the handles of its pushes
    spread.py    the spreading
    lines.py     reading words and printing answers
    requests.py  the table of requests
    desk.py      the loop over the lines
    morel.py     what the program `morel` prints
"""
