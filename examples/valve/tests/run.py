#!/usr/bin/env python3
"""The valve's two loaders, tested by their commands. The seed is printed, and SEED=.. repeats a run. UNDER=.. names a
program, such as valgrind, under which each command runs.
Usage: run.py FOLDER.. [TEST..]     a folder has the programs valve and valve_memory"""
import os
import random
import sys
import time
from pathlib import Path

if __name__ == "__main__":
    sys.path.append(str(Path(__file__).resolve().parents[3]))
import commands
import power_loss
from valve import Valve

OF_EACH = [commands.updated_and_returned, commands.confirmed, commands.verified, commands.too_long,
           commands.passed_over, commands.boot_damaged, commands.trailer_damaged]
OF_BOTH = [power_loss.stopped_after_each_step, power_loss.cut_at_each_command, power_loss.cut_again_and_again,
           power_loss.cut_while_staging, power_loss.damaged_in_mid_swap, power_loss.worn_out]


def main():
    folders = [Path(word) for word in sys.argv[1:] if Path(word).is_dir()]
    names = [word for word in sys.argv[1:] if not Path(word).is_dir()]
    seed = int(os.environ.get("SEED", time.time_ns()))
    print(f"valve: SEED={seed}")
    chance, passed = random.Random(seed), 0
    for folder in folders:
        driver, memory = (Valve(folder / name) for name in ("valve", "valve_memory"))
        tests = [(test, [valve]) for test in OF_EACH for valve in (driver, memory)]
        tests += [(test, [driver, memory]) for test in OF_BOTH]
        for test, valves in tests:
            if not names or test.__name__ in names:
                test(*valves, chance)
                passed += 1
    assert passed > 0, "no such test"
    print(f"valve: {passed} tests with {Valve.runs} commands passed")


main()
