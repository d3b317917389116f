#!/usr/bin/env python3
"""Prints the samples in the comment of include/frondicare.h, for tests/c/samples.c to compile."""
import re
from pathlib import Path

HEADER = Path(__file__).resolve().parents[2] / "include/frondicare.h"

for number, line in enumerate(HEADER.read_text().splitlines(), 1):
    if sample := re.match(r" \*     (.*)", line):
        print(f'#line {number} "include/frondicare.h"\n{sample[1]}')
