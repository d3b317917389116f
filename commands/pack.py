"""Packs a firmware: prints the digest to sign or, with --output, writes the signed image.

With --key PRIVATE.pem and --output it signs and packs in one step, by openssl. Where the private key is elsewhere, as
in an HSM: the digest first, with --key PUBLIC.pem or --hint; then the same options with --signature and --output."""
import subprocess
import time

from commands.failure import Failed, Misused
from commands.inputs import contents, told
from commands.keys import read_key
from commands.options import Once, below, custom_tag
from commands.outputs import can_be_written, work_folder, write_whole
from commands.programs import built
from model.refusals import in_words

HELP = "the digest to sign of a firmware, or its signed image"
EXAMPLES = """examples:
  ./frondicare pack --version 2 --hint crates/pack/data/hint crates/pack/data/firmware
  openssl genpkey -algorithm ed25519 -out target/desk.pem
  ./frondicare pack --version 2 --timestamp now --key target/desk.pem --output target/image.bin README.md

A FILE may be -, standard input. A number is decimal, or hexadecimal with 0x before it. The image is written whole or
not at all: an old one stays until the new one is whole.

A custom tag has none of the types 0, 1, 2, 3, 0x10, 0x20 and 0x30, nor one that ends with FF, as 0x34FF. All of them
have at most 82 bytes, 4 of each for its type and length. The signature is plain Ed25519 (no Ed25519ph) with the
digest's 32 bytes as the message, as openssl pkeyutl -sign -rawin makes it.

as wolfBoot's keytools have it:
  sign --ed25519 IMAGE KEY 2      pack --version 2 --key KEY --output OUT IMAGE
  sign --sha-only ..              pack without --output
  sign --manual-sign ..           pack with --signature
  --custom-tlv 0x34 4 0xAABBCCDD  --custom-tag 0x34=DDCCBBAA
  keygen --ed25519 ..             openssl genpkey -algorithm ed25519 -out KEY"""
FILES = "firmware", "hint", "custom", "signature"
# What a refusal's own words leave open.
MORE = {27: "; pack --help says what they may be"}


def seconds(text):
    return text if text == "now" else below(64)(text)


def options(parser):
    def option(name, meta, text, **more):
        parser.add_argument(name, metavar=meta, help=text, **{"action": Once, **more})
    parser.add_argument("firmware", metavar="FIRMWARE", help="its file, of at most 261,888 bytes")
    option("--version", "N", "the firmware's version; that of an update must be greater", type=below(32), required=True)
    option("--timestamp", "SECONDS", "when it was made, in Unix seconds: 0 where it is left out; now, where it is "
           "signed and packed in one step", type=seconds, default=0)
    option("--type", "N", "the firmware's type: 0 where it is left out", type=below(16), default=0)
    option("--key", "FILE", "an Ed25519 key, private or public, PEM or DER: it signs, or a signature given must fit it")
    option("--hint", "FILE", "the key hint, 32 bytes: the SHA-256 digest of the public key's 32 bytes where it is left "
           "out and there is a key")
    option("--custom", "FILE", "a run of custom tags: type and length, 2 bytes each, little-endian, and the content")
    option("--custom-tag", "TYPE=HEX", "a custom tag with these bytes; may be repeated", type=custom_tag,
           action="append")
    option("--signature", "FILE", "the signature over the digest, 64 bytes")
    option("--digest-out", "FILE", "writes the digest there too, as its 32 bytes")
    option("--output", "IMAGE", "where the signed image is written")


def check_usage(given):
    """Options that need or exclude each other."""
    if given.hint is None and given.key is None:
        raise Misused("--key or --hint is missing: whose key signs this")
    if given.custom is not None and given.custom_tag:
        raise Misused("--custom and --custom-tag exclude each other")
    if given.output is None and given.signature is not None:
        raise Misused("--output is missing: where the image is to be written")
    if given.output is not None and given.signature is None and given.key is None:
        raise Misused("--key or --signature is missing: an image is signed")
    if given.output is not None and given.digest_out is not None:
        raise Misused("--digest-out and --output exclude each other: first the digest, then the image")
    if given.timestamp == "now" and (given.output is None or given.signature is not None):
        raise Misused("--timestamp now: digest and image would differ; give the number, and both times the same")
    if "-" in (given.output, given.digest_out):
        raise Misused("- is standard input, and nothing can be written there")
    if [*[getattr(given, name) for name in FILES], given.key].count("-") > 1:
        raise Misused("- is given for more than one file")


def answer(*words):
    """What the program prints. Its status says nothing: what is wrong it says on standard error."""
    done = subprocess.run(words, stdin=subprocess.DEVNULL, capture_output=True)
    said = done.stderr.decode(errors="replace").strip()
    if said.startswith("REFUSE "):
        number = int(said.split()[1])
        raise Failed(f"refused: {in_words(number)}{MORE.get(number, '')}")
    if said or done.returncode != 0:
        raise Failed(said or "the program was stopped")
    return done.stdout


def everything_read(given):
    """The files' bytes and the key, before anything is proved."""
    names = {name: getattr(given, name) for name in FILES if getattr(given, name) is not None}
    for name in given.output, given.digest_out:
        if name is not None:
            can_be_written(name, [*names.values(), given.key or ""])
    files = {"custom": b"".join(given.custom_tag or []), **{name: contents(names[name]) for name in names}}
    key = read_key(given.key) if given.key is not None else None
    if given.output is not None and given.signature is None and key.private is None:
        raise Failed(f"{key.name}: a public key, and signing takes the private one")
    return {"hint": key and key.hint(), **files}, key


def signed(given, files, key, folder, digest):
    """The signature, which fits the key where there is one."""
    if given.signature is None:
        return key.sign(folder, digest)
    if len(files["signature"]) != 64:
        raise Failed(told(given.signature, "the signature is not of 64 bytes"))
    if key is not None and not key.fits(folder, digest, files["signature"]):
        raise Failed(told(given.signature, f"no signature over the digest {digest.hex()} by {key.name}"))
    return files["signature"]


def packed(given, files, key):
    """The digest, and the image where one is to be written. The program gets copies: a pipe is read once."""
    stamp = int(time.time()) if given.timestamp == "now" else given.timestamp
    numbers = map(str, (given.version, stamp, given.type))
    with work_folder() as folder:
        for name, data in files.items():
            (folder / name).write_bytes(data)
        words = [built("pack"), folder / "firmware", *numbers, folder / "hint", folder / "custom"]
        digest = bytes.fromhex(answer(*words).decode())
        if given.output is None:
            return digest, None
        (folder / "signature").write_bytes(signed(given, files, key, folder, digest))
        return digest, answer(*words, folder / "signature")


def run(given):
    check_usage(given)
    files, key = everything_read(given)
    digest, image = packed(given, files, key)
    if image is None:
        if given.digest_out is not None:
            write_whole(given.digest_out, digest)
        print(digest.hex())
        return 0
    write_whole(given.output, image)
    by = f"signed by {key.name}" if key else "with the signature given, which was not checked: there is no --key"
    print(f"{given.output}: version {given.version}, {len(files['firmware'])} bytes of firmware, {by}")
    return 0
