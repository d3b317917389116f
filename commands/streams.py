"""Standard input, output and error, whatever they are, and the signals that stop a command."""
import os
import signal
import sys
import termios
from contextlib import contextmanager

STOPPING = signal.SIGINT, signal.SIGTERM, signal.SIGHUP


class Stopped(KeyboardInterrupt):
    """By a signal, so that what was begun is cleared away. As an interrupt it leaves a child time to end by itself."""

    def __init__(self, number):
        super().__init__(number)
        self.number = number


def stop(number, _):
    signal.signal(number, signal.SIG_IGN)
    raise Stopped(number)


def prepare():
    """A closed stream would give its number to the next file that is opened. A signal that is ignored stays so."""
    for number in range(3):
        try:
            os.fstat(number)
        except OSError:
            os.open(os.devnull, os.O_RDWR)
    sys.stderr = sys.stderr or open(os.devnull, "w", encoding="utf-8")
    if sys.stdout is not None:
        sys.stdout.reconfigure(errors="backslashreplace")
    for number in STOPPING:
        if signal.getsignal(number) == signal.SIG_DFL:
            signal.signal(number, stop)


@contextmanager
def terminal_restored():
    """Where what runs here is stopped while somebody types what is not to be seen: the terminal shows letters again."""
    try:
        terminal = os.open("/dev/tty", os.O_RDWR | os.O_NOCTTY | os.O_CLOEXEC)
        state = termios.tcgetattr(terminal)
    except (OSError, termios.error):
        yield
        return
    try:
        yield
    except KeyboardInterrupt:
        if os.tcgetpgrp(terminal) == os.getpgrp():
            termios.tcsetattr(terminal, termios.TCSANOW, state)
        raise
    finally:
        os.close(terminal)


def give_up_output():
    """What is left to be written to standard output goes nowhere, so that Python's own end is silent."""
    os.dup2(os.open(os.devnull, os.O_WRONLY), 1)


def end_by(number):
    """As whoever started the command expects of a program that a signal ends."""
    signal.signal(number, signal.SIG_DFL)
    os.kill(os.getpid(), number)
    return 128 + number
