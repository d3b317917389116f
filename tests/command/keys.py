"""Keys for the commands' tests, made and used by openssl alone."""
import hashlib
import subprocess


def openssl(*words, folder):
    return subprocess.run(["openssl", *words], cwd=folder, check=True, capture_output=True).stdout


def make_key(folder, name, *how):
    """NAME.pem and NAME.pub; an Ed25519 key unless it is said how."""
    openssl("genpkey", *(how or ("-algorithm", "ed25519")), "-out", f"{name}.pem", folder=folder)
    openssl("pkey", "-in", f"{name}.pem", "-pubout", "-out", f"{name}.pub", folder=folder)


def hint(folder, name):
    """The digest of the public key's 32 bytes, which are the last of its DER form."""
    der = openssl("pkey", "-in", f"{name}.pem", "-pubout", "-outform", "DER", folder=folder)
    return hashlib.sha256(der[-32:]).digest()


def signature(folder, name, digest):
    (folder / "signed").write_bytes(digest)
    return openssl("pkeyutl", "-sign", "-inkey", f"{name}.pem", "-rawin", "-in", "signed", folder=folder)
