#!/usr/bin/env python3
"""Writes the file stdout of the program sha256_vectors with Python's hashlib, an implementation that owes ours nothing.
The published digests stand here as FIPS 180-4's examples print them, and hashlib is held to them first.
Usage: sha256.py > crates/sha256_vectors/stdout"""
import hashlib

PUBLISHED = [
    ("empty", b"", "e3b0c442 98fc1c14 9afbf4c8 996fb924 27ae41e4 649b934c a495991b 7852b855"),
    ("abc", b"abc", "ba7816bf 8f01cfea 414140de 5dae2223 b00361a3 96177a9c b410ff61 f20015ad"),
    ("448-bit", b"abcdbcdecdefdefgefghfghighijhijkijkljklmklmnlmnomnopnopq",
     "248d6a61 d20638b8 e5c02693 0c3e6039 a33ce459 64ff2167 f6ecedd4 19db06c1"),
    ("896-bit", b"abcdefghbcdefghicdefghijdefghijkefghijklfghijklmghijklmn"
     b"hijklmnoijklmnopjklmnopqklmnopqrlmnopqrsmnopqrstnopqrstu",
     "cf5b16a7 78af8380 036ce59e 7b049237 0b249b11 e8f07a51 afac4503 7afee9d1"),
    ("million", b"a" * 1000000, "cdc76e5c 9914fb92 81a1c7e2 84d73e67 f1809a48 a497200e 046d39cc c7112cd0"),
]


def digest(message):
    return hashlib.sha256(message).hexdigest()


for name, message, printed in PUBLISHED:
    assert digest(message) == printed.replace(" ", ""), name
    print(name, digest(message))
pattern = bytes((7 * i + 3) % 256 for i in range(200))
for n in range(201):
    print(n, digest(pattern[:n]))
    print(f"{n // 3}+{n - n // 3}", digest(pattern[:n]))
