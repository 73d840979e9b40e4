"""What check-oracle and check-port share: running the driver's commands and counting those that found nothing."""
import argparse
import os
import subprocess
import sys
import time
from importlib.machinery import SourceFileLoader
from importlib.util import module_from_spec, spec_from_loader
from pathlib import Path

import rounding

HERE = Path(__file__).resolve().parent


def load_build():
    """The script `build` as a module."""
    loader = SourceFileLoader("build", str(HERE / "build"))
    module = module_from_spec(spec_from_loader("build", loader))
    loader.exec_module(module)
    return module


class Checks:
    def __init__(self, build):
        self.runner = build.runner
        self.passed = 0
        self.failed = 0
        self.start = time.time()

    def count(self, good):
        self.passed += good
        self.failed += not good

    def tell(self, driver, *words):
        """What a command of the driver does."""
        command = [*self.runner(driver), str(driver), *map(str, words)]
        return subprocess.run(command, text=True, capture_output=True)

    def run(self, driver, *words):
        """A command that must find no difference."""
        done = self.tell(driver, *words)
        print(done.stdout + done.stderr, end="", flush=True)
        self.count(done.returncode == 0)

    def must_find(self, name, driver, *words):
        """A command that must find a difference, since a fault was put in."""
        done = self.tell(driver, *words)
        told = [line for line in done.stdout.splitlines() if " differences (" in line and ", 0 differences (" not in line]
        good = done.returncode == 1 and told != []
        print(f"slip {name}: {'noticed: ' + told[0] if good else 'NOT NOTICED ' + done.stderr}", flush=True)
        self.count(good)

    def rounding(self, driver, seed, count, file):
        """The stand-in's interval arithmetic against fractions."""
        self.run(driver, "rounding", seed, count, file)
        asked, found = rounding.differences(file)
        for line in found[:5]:
            print("DIFFERENCE", line)
        print(f"rounding: {asked} operations held against fractions, {len(found)} differences", flush=True)
        self.count(asked == count and not found)

    def close(self):
        print(f"{time.time() - self.start:.0f} s")
        print(f"{self.passed} checks passed, {self.failed} failed")
        sys.exit(self.failed > 0)


def series(checks, driver, given):
    """The comparison of the driver's two engines, small cases first, and of their boxes."""
    print(f"seed {given.seed}", flush=True)
    checks.run(driver, "worked")
    if given.vectors:
        checks.run(driver, "vectors", given.vectors)
    if given.traces:
        checks.run(driver, "replay", given.traces)
    checks.run(driver, "leaves", given.seed, 1_100_000 * given.times)
    checks.run(driver, "exhaustive", 9, 1)
    checks.run(driver, "exhaustive", 2, 2)
    checks.run(driver, "random", given.seed, 20_000 * given.times, 200)
    checks.run(driver, "odd", given.seed, 20_000 * given.times, 20)
    checks.run(driver, "long", given.seed, 24 * given.times, 4000)
    checks.run(driver, "damaged", given.seed, 50_000 * given.times)
    checks.rounding(driver, given.seed, 30_000, Path(driver).parent / "rounding.txt")
    checks.run(driver, "boxes", given.seed, 4_000 * given.times)


def arguments(doc):
    """A parser with the arguments that both commands take; its commands run at a low priority."""
    os.nice(10)
    parser = argparse.ArgumentParser(description=doc, formatter_class=argparse.RawDescriptionHelpFormatter)
    parser.add_argument("folder")
    parser.add_argument("--vectors")
    parser.add_argument("--traces")
    parser.add_argument("--seed", type=int, default=1)
    parser.add_argument("--times", type=int, default=1)
    return parser
