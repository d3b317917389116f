"""./frondicare where something is not installed, or not proved."""
import os
import shutil

from tests.command.called import COMMAND, ROOT


def check_installed(caller, few, board):
    """openssl is missing, then rt; a proof fails; and no bytecode is written, which one may have no right to."""
    for name in ("python3", "sh", "dirname", "flock"):
        (few / name).symlink_to(shutil.which(name))
    bare = {"env": {**caller.environment, "PATH": str(few)}}
    key = ["--key", board]
    caller.all_refused_at_once(1, [("openssl, which signs and checks signatures, cannot be run", words)
                                   for words in (["verify", board, *key], ["pack", board, "--version", "2", *key])],
                               **bare)
    caller.refused(1, "rt, the command of the Rattle kit, is not on the PATH", "digest", board, **bare)
    (few / "rt").write_text("#!/bin/sh\nexec >&2\necho 'rt: chose --jobs 2 for digest'\n"
                            "echo 'fn digest::main: not proved'\necho 'logic=not-proved'\nexit 1\n")
    (few / "rt").chmod(0o755)
    done = caller.run(COMMAND, "digest", board, **bare)
    assert (done.returncode, done.stdout, done.stderr) == (1, "", "digest or something that it rests on has changed: "
                                                           "it is proved and built again\n./frondicare digest: "
                                                           "digest is not proved. rt says:\n"
                                                           "fn digest::main: not proved\nlogic=not-proved\n"), done
    copy = caller.folder / "copy"
    for name in ("commands", "model", "picture", "include"):
        shutil.copytree(ROOT / name, copy / name, ignore=shutil.ignore_patterns("__pycache__"))
    shutil.copy(COMMAND, copy)
    given = {name: value for name, value in os.environ.items() if name != "PYTHONDONTWRITEBYTECODE"}
    assert caller.run(copy / "frondicare", "--version", env=given).returncode == 0
    assert not [*copy.rglob("__pycache__")]
