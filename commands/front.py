"""./frondicare: its commands, their help and their exit status."""
import argparse
import re
import shutil
import signal
import subprocess
import sys
import textwrap
from importlib import import_module

from commands.failure import Failed, Misused
from commands.inputs import told
from commands.options import Shown
from commands.programs import ROOT
from commands.streams import Stopped, end_by, give_up_output, prepare

COMMANDS = ["digest", "pack", "verify", "tags", "simulate", "explain", "picture"]
END = """./frondicare COMMAND --help says more about each, with examples.

exit status: 0 done; 1 something failed, or a board or an image is refused; 2 the command is not understood

A command proves and builds the program that it runs, where that has not been done since its last change. It waits while
another one does that here."""


def version():
    header = (ROOT / "include/frondicare.h").read_text(encoding="utf-8")
    return re.search(r'^#define FRONDICARE_VERSION "(.*)"', header, re.MULTILINE)[1]


def fitted(text):
    """In lines of the terminal's width; a part with indented lines as it is."""
    width = min(shutil.get_terminal_size().columns, 120) - 2
    parts = [part if "\n  " in part else textwrap.fill(" ".join(part.split()), width) for part in text.split("\n\n")]
    return "\n\n".join(parts)


def parser(words):
    """Of a command that is named first, its file alone is loaded."""
    layout = {"formatter_class": argparse.RawDescriptionHelpFormatter, "allow_abbrev": False, "add_help": False}
    front = argparse.ArgumentParser(prog="./frondicare", description="Frondicare's loader, for the desk.",
                                    epilog=fitted(END), **layout)
    front.add_argument("-h", "--help", action=Shown, help="prints this")
    front.add_argument("--version", action=Shown, text=f"frondicare {version()}", help="prints the version")
    commands = front.add_subparsers(metavar="COMMAND", dest="command", required=True)
    for name in words[:1] if words and words[0] in COMMANDS else COMMANDS:
        command = import_module(f"commands.{name}")
        own = commands.add_parser(name, help=command.HELP, description=fitted(command.__doc__),
                                  epilog=getattr(command, "EXAMPLES", ""), **layout)
        own.add_argument("-h", "--help", action=Shown, help="prints this")
        command.options(own)
        own.epilog = fitted(own.epilog)
        own.set_defaults(run=command.run, parser=own)
    return front


def run(words):
    """The exit status, with everything written."""
    given, others = parser(words).parse_known_args(words)
    if others:
        # The word after an unknown option is taken for something else: the options alone tell what is wrong.
        unknown = [word for word in others if word.startswith("-")] or others
        given.parser.error(f"unrecognized arguments: {' '.join(unknown)}")
    try:
        status = given.run(given)
    except Misused as misuse:
        given.parser.error(misuse)
    except (Failed, subprocess.SubprocessError) as failure:
        print(f"./frondicare {given.command}: {failure}", file=sys.stderr)
        status = 1
    sys.stdout.flush()
    return status


def main(words):
    """The exit status. What went wrong with standard output is seen here."""
    prepare()
    if sys.stdout is None:
        print("./frondicare: standard output is closed", file=sys.stderr)
        return 1
    try:
        return run(words)
    except Stopped as stopped:
        give_up_output()
        return end_by(stopped.number)
    except BrokenPipeError:
        give_up_output()
        return end_by(signal.SIGPIPE)
    except OSError as error:
        give_up_output()
        print(f"./frondicare: {told(error.filename or 'standard output', error)}", file=sys.stderr)
        return 1
