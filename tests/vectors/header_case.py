"""One case of header_cases: what is asked, and the answer where a reader of document 01 can write it down."""
from dataclasses import dataclass


@dataclass
class Case:
    name: str
    command: str
    body: bytes
    says: str = None
    kind: int = 0
    any: int = 0
    start: int = 0
    signature_ok: int = 0
    custom: bytes = b""
    fields: tuple = (0, 0, 0)
    buffer_length: int = 0
    hint: bytes = b""
    signature: bytes = b""
