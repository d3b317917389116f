"""Says what an image is and whether the loader takes it, which is the proved verdict. With --key its signature is
checked too, by openssl; without, the verdict is that on an image whose signature is good. A refusal has status 1."""
import subprocess

from commands import tags
from commands.failure import Failed, Misused
from commands.header_words import NAMES, dated, in_hex
from commands.inputs import contents, told
from commands.keys import read_key
from commands.options import Once
from commands.outputs import work_folder
from commands.programs import built
from model.header import HINT, uncovered
from model.refusals import in_words

HELP = "what an image is, and whether the loader takes it"
EXAMPLES = """examples:
  ./frondicare verify crates/verify/data/image
  ./frondicare verify target/image.bin --key target/desk.pem

The key and the image of the second example are those that the examples of ./frondicare pack --help make."""
UNSIGNED = "(not covered by the digest, so not signed)"
# The number for what the digest has to cover and doesn't.
UNCOVERED = 30


def options(parser):
    parser.add_argument("image", metavar="IMAGE", help="its file; - is standard input")
    parser.add_argument("--key", metavar="FILE", action=Once,
                        help="an Ed25519 key, public or private, PEM or DER: the one that must have signed it")


def answer(program, path, signature_ok):
    """The verdict's number, 0 where it passes, and what the header says, by the names of its lines."""
    done = subprocess.run([program, path, "yes" if signature_ok else "no"], stdin=subprocess.DEVNULL,
                          capture_output=True, text=True)
    if done.stderr or done.returncode != 0:
        raise Failed(done.stderr.strip() or "the program was stopped")
    verdict, *lines = map(str.split, done.stdout.splitlines())
    return 0 if verdict == ["PASS"] else int(verdict[1]), dict(lines)


def whose(hint, key):
    if hint is None or key is None:
        return ""
    return f", {'that' if bytes.fromhex(hint) == key.hint() else 'not that'} of {key.name}"


def described(fields, data, key):
    """The header for a person. Of a custom tag or a hint that the digest doesn't cover, it is said."""
    listed, _ = tags.listed(data)
    marks = {tag: f" {UNSIGNED}" if word == "no" else "" for tag, word in tags.covered(listed).items()}
    size, hint = int(fields["size"]), fields.get("hint")
    behind = len(data) - 256 - size
    yield f"version    {fields['version']}"
    yield f"timestamp  {dated(int(fields['timestamp']))}"
    yield f"type       {fields['type']}"
    yield f"firmware   {size} bytes" + (f"; the {behind} bytes behind it do not count" if behind else "")
    for tag in [tag for tag in listed if tag[0] not in NAMES]:
        yield f"custom     0x{tag[0]:04x}{marks[tag]} {in_hex(data[tag[1]:tag[1] + tag[2]])}"
    hinted = next((marks[tag] for tag in listed if tag[0] == HINT and hint), "")
    yield f"key hint   {hint or 'none of 32 bytes'}{whose(hint, key)}{hinted}"
    yield f"digest     {fields['digest']}"


def looked_at(program, path, key, folder):
    """The verdict's number, the header's fields and what is to be said about the signature."""
    if key is None:
        return *answer(program, path, True), "not checked: no --key is given"
    number, fields = answer(program, path, False)
    if not fields:
        return number, fields, ""
    if not key.fits(folder, bytes.fromhex(fields["digest"]), bytes.fromhex(fields["signature"])):
        return number, fields, f"not by {key.name}"
    return *answer(program, path, True), f"by {key.name}"


def run(given):
    if given.image == given.key == "-":
        raise Misused("- is given for more than one file")
    data = contents(given.image)
    key = read_key(given.key) if given.key is not None else None
    program = built("verify")
    with work_folder() as folder:
        path = folder / "image"
        path.write_bytes(data)
        number, fields, signature = looked_at(program, path, key, folder)
    if fields:
        print(*described(fields, data, key), f"signature  {signature}", sep="\n")
    if number == UNCOVERED:
        print("uncovered ", ", ".join(NAMES[kind] for kind in uncovered(tags.listed(data)[0])))
    passes = "passes" if key else "passes, if the signature is good"
    print(told(given.image, f"refused: {in_words(number)}" if number else passes))
    return 1 if number else 0
