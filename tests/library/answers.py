"""What a call gives and what the program says of the same, and how both are run."""

import pocsag
from tally import ENDS, PROGRAM, call

# The words of the program for each end, and what its `check` tells of it.
WORDS = dict(zip((pocsag.OPEN, pocsag.CLOSED, pocsag.IDLE), ENDS.values()))
TOLD = dict(zip(WORDS, (b"", b" with a closed end", b" with an idle last")))


def program(*words):
    """What the program prints where it is done, or else why it is not."""
    ran = call(PROGRAM, *words)
    return ran.returncode, (ran.stdout if ran.returncode == 0 or not ran.stderr else ran.stderr)


def said(fault):
    """What the program prints where a call gives this fault, by the text that the package has for it."""
    return f"pocsag: {fault.text.format(**vars(fault))}\n".encode()


def is_same(answer, told):
    """Whether a call gives what the program prints with its status, or the same fault. A text alone is an answer with status 0."""
    if isinstance(answer, pocsag.Fault):
        return told[0] != 0 and said(answer) == told[1]
    return told == (answer if isinstance(answer, tuple) else (0, answer))


def attempt(call, *words, **named):
    try:
        return call(*words, **named)
    except pocsag.Fault as fault:
        return fault


def check_fault(tally, name, wanted, call, *words, told=None, **named):
    """Whether a call gives a fault of this kind, and with this text where one is due; gives the fault."""
    fault = attempt(call, *words, **named)
    tally.check(name, type(fault) is wanted and told in (None, str(fault)), (fault, str(fault)))
    return fault
