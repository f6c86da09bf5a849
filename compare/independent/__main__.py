"""`python3 compare/independent`, or `python3 -m independent` from compare."""

import os
import sys

if not __package__:
    # Run as a folder: the package's own parent isn't on the path yet.
    sys.path.insert(
        0, os.path.dirname(os.path.dirname(os.path.abspath(__file__))))

from independent import amended  # noqa: E402
from independent.desk import main  # noqa: E402

try:
    amended.take_words(sys.argv[1:])
except amended.NoAmendment as why:
    print(f"independent: {why}", file=sys.stderr)
    sys.exit(2)
main()
