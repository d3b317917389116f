"""tools/lock.sh for a test in Python: nobody else proves in this clone until the test, and what it called, ends."""
import os
import sys
from pathlib import Path

ROOT = Path(__file__).resolve().parents[1]


def lock():
    """Starts the test again under the lock, unless whoever called it holds the lock. What is called with
    close_fds=False goes on holding it where the test is killed."""
    if os.environ.get("FRONDICARE_LOCKED") != str(ROOT):
        under = 'here=$(pwd) && cd "$0" && . tools/lock.sh && cd "$here" && exec "$@"'
        os.execvp("sh", ["sh", "-c", under, str(ROOT), sys.executable, *sys.argv])
