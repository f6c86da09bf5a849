"""When the desk says no."""

ADDRESS = 1
OVERRUN = 2
NO_CATEGORY = 3
STRING_TOO_LONG = 4
DECODE = 5
CAPACITY = 6
NOT_WRITABLE = 7
TOO_LONG = 8
NO_PORT = 9
BAD_PORT = 10
SUM = 11
BAD_FRAME = 12
NO_ROOM = 13
BAD_ARGUMENT = 14
WRONG_FRAME = 19
WRONG_COMMAND = 20
WRONG_INDEX = 21
WRONG_LENGTH = 22

# "Absent" is an answer, not a refusal.
ABSENT = None


class Refusal(Exception):
    """A refusal with its number and the values that it gives."""

    def __init__(self, number, *values):
        super().__init__(number, *values)
        self.number = number
        self.values = values


def refuse_unless(holds, number, *values):
    if not holds:
        raise Refusal(number, *values)
