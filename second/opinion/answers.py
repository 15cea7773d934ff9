"""How a run ends: with a status and one line, which is a verdict or a refusal."""

USAGE = 2
INPUT_REFUSED = 3
WIDE_STATE = 5  # a sum of a state does not fit into 128 bits
UNREADABLE = 6
EVIDENCE_REFUSED = 9
TOO_LONG = 11

FIRST_OF_EVIDENCE = 50  # the least number of a refusal of a certificate or a state


class Answer(Exception):
    """A status, and the line that is written. A verdict is returned, a refusal raised."""

    def __init__(self, status, *words):
        super().__init__(status, *words)
        self.status = status
        self.text = " ".join(map(str, words)) + "\n"


def need(right, number, *words):
    """Refuses, under that number and with those words, unless all is right.

    A refused input has status 3. Refused evidence, whose numbers begin at 50, has status 9.
    """
    if not right:
        status = INPUT_REFUSED if number < FIRST_OF_EVIDENCE else EVIDENCE_REFUSED
        raise Answer(status, "refused", number, *words)
