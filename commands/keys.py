"""Ed25519 keys, by openssl: what a key file holds, signing, and checking a signature. A private key is kept in memory
only; where it is encrypted, openssl asks for the pass phrase on the terminal, once."""
import hashlib
import subprocess
from typing import NamedTuple

from commands.failure import Failed
from commands.inputs import contents, named, told
from commands.streams import terminal_restored

# Of an Ed25519 public key in DER (RFC 8410), what comes before its 32 bytes.
DER = bytes.fromhex("302a300506032b6570032100")


def openssl(*words, given):
    try:
        with terminal_restored():
            return subprocess.run(["openssl", *words], input=given, capture_output=True)
    except OSError as error:
        raise Failed(f"openssl, which signs and checks signatures, cannot be run: {error.strerror}") from error


def failed(done):
    said = done.stderr.decode(errors="replace").strip().splitlines() or ["no word why"]
    return Failed(f"openssl 3 is needed, and it failed: {said[0]}")


class Key(NamedTuple):
    """By the name of its file. The private part is None where the file has the public one only."""
    name: str
    private: bytes | None
    public: bytes

    def hint(self):
        """Says in a header which key signed it."""
        return hashlib.sha256(self.public).digest()

    def sign(self, folder, digest):
        """The signature, by the private part. openssl reads what is signed from a file."""
        (folder / "digest").write_bytes(digest)
        done = openssl("pkeyutl", "-sign", "-inkey", "/dev/stdin", "-rawin", "-in", folder / "digest",
                       given=self.private)
        if done.returncode != 0:
            raise failed(done)
        return done.stdout

    def fits(self, folder, digest, signature):
        """Whether this key made the signature over the digest."""
        (folder / "digest").write_bytes(digest)
        (folder / "signature").write_bytes(signature)
        done = openssl("pkeyutl", "-verify", "-pubin", "-keyform", "DER", "-inkey", "/dev/stdin", "-rawin",
                       "-in", folder / "digest", "-sigfile", folder / "signature", given=DER + self.public)
        if done.returncode != 0 and b"Signature Verification Failure" not in done.stdout + done.stderr:
            raise failed(done)
        return done.returncode == 0


def read_key(name):
    """From PEM or DER, private or public. Of a file with both parts the private one counts."""
    data = contents(name)
    named_private = b"PRIVATE KEY" in data
    private = openssl("pkey", given=data).stdout or None if named_private or b"PUBLIC KEY" not in data else None
    if private is not None:
        der = openssl("pkey", "-pubout", "-outform", "DER", given=private)
    elif not named_private:
        der = openssl("pkey", "-pubin", "-outform", "DER", given=data)
    if private is None and named_private or der.returncode != 0:
        pass_phrase = ", or the pass phrase is wrong" if b"ENCRYPTED" in data else ""
        raise Failed(told(name, f"openssl finds no key there{pass_phrase}"))
    if len(der.stdout) != len(DER) + 32 or not der.stdout.startswith(DER):
        raise Failed(told(name, "not an Ed25519 key; openssl genpkey -algorithm ed25519 makes one"))
    return Key(named(name), private, der.stdout[len(DER):])
