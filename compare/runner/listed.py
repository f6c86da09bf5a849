"""docs/DIFFERENCES.md, so far as the comparison reads it.

An entry is a section `### D1. ..`. Indented lines in it that open with a
request's word are examples: the runner asks each, and it must show the
entry's difference. `00*128` is short for 128 pairs.
"""

import os
import re

from .bench import expanded
from .programs import ROOT
from .request import OTHER, kind_of

DOCUMENT = os.path.join("docs", "DIFFERENCES.md")


def examples():
    """(entry, request) for each example of the document."""
    entry = None
    with open(os.path.join(ROOT, DOCUMENT), encoding="utf-8") as file:
        for text in file:
            if text.startswith("#"):
                heading = re.match(r"### (D\d+)\.", text)
                entry = heading.group(1) if heading else None
            elif entry and text.startswith("    "):
                request = text.strip()
                if kind_of(request.encode()) != OTHER:
                    yield entry, expanded(request)
