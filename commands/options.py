"""How options are taken."""
import argparse
import re

from model.writer import tag


def at_least(least):
    """The type of an option that is a whole number."""
    def number(text):
        if not text.isascii() or not text.isdigit() or int(text) < least:
            raise argparse.ArgumentTypeError(f"{text} is no number of at least {least}")
        return int(text)
    return number


def below(bits):
    """The type of an option that is a number of so many bits, decimal or, with 0x before it, hexadecimal."""
    def number(text):
        digits = re.fullmatch("0*([0-9]{1,20})", text) or re.fullmatch("0x0*([0-9A-Fa-f]{1,16})", text)
        value = digits and int(digits[1], 16 if text.startswith("0x") else 10)
        if digits is None or value >> bits:
            raise argparse.ArgumentTypeError(f"{text} is no number below 2^{bits}, decimal or 0x and hexadecimal")
        return value
    return number


def custom_tag(text):
    """TYPE=HEX as the bytes of a tag."""
    kind, equals, content = text.partition("=")
    if not equals or not re.fullmatch("([0-9A-Fa-f]{2})*", content):
        raise argparse.ArgumentTypeError(f"{text} is not TYPE=HEX, with two hexadecimal digits for each byte")
    return tag(below(16)(kind), bytes.fromhex(content))


class Shown(argparse.Action):
    """--help or --version. argparse's own says nothing where its text cannot be written."""

    def __init__(self, *, text="", **more):
        super().__init__(nargs=0, **more)
        self.text = text

    def __call__(self, parser, namespace, values, option_string=None):
        print(self.text or parser.format_help().rstrip(), flush=True)
        parser.exit()


class Once(argparse.Action):
    """An option that may be given once: the last of two would win unseen."""

    def __call__(self, parser, namespace, values, option_string=None):
        given = namespace.__dict__.setdefault("given_once", set())
        if self.dest in given:
            parser.error(f"{option_string} is given twice")
        given.add(self.dest)
        setattr(namespace, self.dest, values)
