"""Chance for a test. The seed is printed, and SEED=.. repeats a run."""
import os
import random
import time


def seeded(name):
    seed = int(os.environ.get("SEED", time.time_ns()))
    print(f"{name}: SEED={seed}", flush=True)
    return random.Random(seed)
