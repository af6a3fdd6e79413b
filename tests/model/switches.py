"""What the program that is tested has: withdrawals, unless the variable WITHDRAWALS is 0 or empty, which its processes have too: then
it is one from before them; and with them grants that name the statements that their proofs cite, unless NAMES is 0 or empty. The
words `--withdrawals` and `--names` among the words of a test say that it has them."""
import os

WORD = "--withdrawals"
NAMES_WORD = "--names"
withdrawals = os.environ.get("WITHDRAWALS", "1") not in ("", "0")
names = withdrawals and os.environ.get("NAMES", "1") not in ("", "0")


def switch_on():
    """From here on there are withdrawals, also in the processes that begin here."""
    global withdrawals
    withdrawals = True
    os.environ["WITHDRAWALS"] = "1"


def switch_names_on():
    """From here on grants name what their proofs cite, also in the processes that begin here."""
    global names
    switch_on()
    names = True
    os.environ["NAMES"] = "1"


def taken(words):
    """The words but those that switch withdrawals and names on."""
    if WORD in words:
        switch_on()
    if NAMES_WORD in words:
        switch_names_on()
    return [word for word in words if word not in (WORD, NAMES_WORD)]
