"""Tests from outside the proofs. Every module is imported from the repository's root, as tests.vectors.stored."""
