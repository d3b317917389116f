"""./frondicare as people call it, in a folder of its own. A stand-in for rt proves nothing, since the programs are
proved already, and notes that it was called."""
import os
import signal
import subprocess
from concurrent.futures import ThreadPoolExecutor
from pathlib import Path

ROOT = Path(__file__).resolve().parents[2]
COMMAND = ROOT / "frondicare"
STOPPING = signal.SIGINT, signal.SIGTERM, signal.SIGHUP


def hear_signals():
    """For a process that begins: what a shell starts in the background ignores an interrupt otherwise."""
    for number in STOPPING:
        signal.signal(number, signal.SIG_DFL)


class Caller:
    def __init__(self, folder):
        self.folder, self.proofs = Path(folder) / "here", Path(folder) / "proofs"
        self.folder.mkdir()
        self.programs = Path(folder) / "bin"
        self.programs.mkdir()
        (self.programs / "rt").write_text(f'#!/bin/sh\necho "$*" >>"{self.proofs}"\necho "rt: running it" >&2\n')
        (self.programs / "rt").chmod(0o755)
        # Nobody waits for the lock, as there is nothing to spoil. The stand-in is called, in the gate too.
        self.environment = {**os.environ, "PATH": f"{self.programs}:{os.environ['PATH']}",
                            "FRONDICARE_LOCKED": str(ROOT), "FRONDICARE_BUILT": "", "PYTHONUNBUFFERED": ""}
        self.calls = 0

    def run(self, *words, **more):
        """Whatever goes wrong, it is told in words."""
        self.calls += 1
        given = {"cwd": self.folder, "env": self.environment, "capture_output": True, "text": True, **more}
        if "input" not in given:
            given.setdefault("stdin", subprocess.DEVNULL)
        done = subprocess.run(words, **given)
        assert "Traceback" not in (done.stderr or ""), done
        assert "Exception ignored" not in (done.stderr or ""), done
        return done

    def said(self, *words, **more):
        """By a command that does what it is asked for, and has nothing to say on standard error."""
        done = self.run(COMMAND, *words, **more)
        assert done.returncode == 0 and done.stderr == "", done
        return done.stdout

    def refused(self, status, text, *words, **more):
        """A refusal prints nothing, and says why."""
        done = self.run(COMMAND, *words, **more)
        assert done.returncode == status and done.stdout == "" and text in done.stderr, (text, done)
        assert status != 1 or done.stderr.startswith("./frondicare"), done
        assert status != 2 or done.stderr.startswith("usage: ./frondicare"), done

    def all_refused(self, status, cases, **more):
        """Each is a text and the words that it answers. As many at once as there are processors."""
        with ThreadPoolExecutor(os.cpu_count()) as pool:
            for done in [pool.submit(self.refused, status, text, *words, **more) for text, words in cases]:
                done.result()

    def all_refused_at_once(self, status, cases, **more):
        """Before anything is proved."""
        self.proofs.unlink(missing_ok=True)
        self.all_refused(status, cases, **more)
        assert not self.proofs.exists(), self.proofs.read_text()

    def shell(self, line, **more):
        """A line of shell, with the command as $F."""
        return self.run("bash", "-c", line, env={**self.environment, "F": str(COMMAND)}, **more)
