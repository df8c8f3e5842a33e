#!/usr/bin/env python3
"""Proves and builds the program, and then runs it with the given words. `./syclrun` calls this where there is no program.

The kit's command proves one crate after another, and locks the folders of a crate and of all below it. So this makes a few
copies of the checkout in build/copies, each of which proves one crate at a time, the lowest first, and hands the library
that comes of it on to the others and to the checkout. What was proved stays there, so that a build that was stopped goes
on. The program is put in its place only when it stands and ran.
"""

import os
import shutil
import signal
import subprocess
import sys
import time

HERE = os.path.dirname(os.path.abspath(__file__))
BUILD = os.path.join(HERE, "build")
PROGRAM = os.path.join(BUILD, "syclrun")
TOP = "syclrun"
# What a copy of the checkout has beside its crates, and what of a crate a proof reads.
TOP_FILES = ("crates.txt", "HANDLES")
PARTS = ("src", "specs", "proofs")
# The memory that the proof of a crate may need, in bytes.
ROOM = 4 << 30


def say(text):
    print(f"syclrun: {text}", file=sys.stderr, flush=True)


def folder(root, crate):
    return os.path.join(root, "crates", crate)


def library(root, crate):
    return os.path.join(folder(root, crate), "out", "rlib")


def crates_below(top):
    """Returns the crates of the repository that one stands on, and its own, the lowest first, each with those it names."""
    named, below = {}, {}
    with open(os.path.join(HERE, "crates.txt"), encoding="utf-8") as lines:
        for line in lines:
            crate, colon, uses = line.partition("#")[0].partition(":")
            if colon:
                named[crate.split()[0]] = uses.split()

    def add(crate):
        if crate in named and crate not in below:
            for use in named[crate]:
                add(use)
            below[crate] = [use for use in named[crate] if use in named]

    add(top)
    return below


def longest_chains(crates):
    """Returns for each crate how many crates stand on one another above it, at most."""
    chains = dict.fromkeys(crates, 0)
    for crate, below in reversed(crates.items()):
        for use in below:
            chains[use] = max(chains[use], chains[crate] + 1)
    return chains


def copy_checkout(to):
    """Copies the sources of all crates; what was proved in the copy before stays."""
    os.makedirs(to, exist_ok=True)
    for file in TOP_FILES:
        shutil.copy2(os.path.join(HERE, file), to)
    for crate in os.listdir(os.path.join(HERE, "crates")):
        for part in PARTS:
            one, other = os.path.join(folder(HERE, crate), part), os.path.join(folder(to, crate), part)
            shutil.rmtree(other, ignore_errors=True)
            if os.path.isdir(one):
                shutil.copytree(one, other)


def copies_at_once():
    """Returns for how many crates at once there are processors and memory."""
    with open("/proc/meminfo", encoding="utf-8") as lines:
        free = next(int(line.split()[1]) << 10 for line in lines if line.startswith("MemAvailable:"))
    return max(1, min(len(os.sched_getaffinity(0)), free // ROOM))


class Build:
    """The copies of the checkout, what is proved, and which crate each copy is at."""

    def __init__(self, crates):
        self.crates, self.chains = crates, longest_chains(crates)
        self.proved, self.at_work, self.began = set(), {}, time.time()
        self.copies = [os.path.join(BUILD, "copies", str(number)) for number in range(1, copies_at_once() + 1)]
        for copy in self.copies:
            copy_checkout(copy)

    def ready(self):
        """Returns the crates that may be begun, those under the longest chains first."""
        begun = {crate for crate, _ in self.at_work.values()} | self.proved
        found = [it for it, below in self.crates.items() if it not in begun and self.proved.issuperset(below)]
        return sorted(found, key=lambda it: -self.chains[it])

    def log(self, copy):
        return os.path.join(BUILD, f"log-{os.path.basename(copy)}")

    def begin(self, crate, copy):
        processes = max(1, len(self.copies) // (len(self.ready()) + len(self.at_work)))
        with open(self.log(copy), "w", encoding="utf-8") as log:
            process = subprocess.Popen(
                ["rt", "lib", "--jobs", str(processes)],
                cwd=folder(copy, crate),
                stdin=subprocess.DEVNULL,
                stdout=log,
                stderr=log,
                start_new_session=True,
            )
        self.at_work[copy] = crate, process

    def end(self, copy):
        """Takes up a crate that a copy was at, and returns whether it is proved."""
        crate, process = self.at_work.pop(copy)
        if process.returncode:
            failed(crate, self.log(copy))
            return False
        for other in {HERE, *self.copies} - {copy}:
            shutil.rmtree(library(other, crate), ignore_errors=True)
            shutil.copytree(library(copy, crate), library(other, crate), copy_function=os.link)
        self.proved.add(crate)
        return True

    def step(self):
        """Takes up what ended and begins what may be, and returns whether all that ended is proved."""
        ended = [copy for copy, (_, process) in self.at_work.items() if process.poll() is not None]
        if not all([self.end(copy) for copy in ended]):
            return False
        for copy in self.copies:
            if copy not in self.at_work and self.ready():
                self.begin(self.ready()[0], copy)
        return True

    def minutes(self):
        return int(time.time() - self.began) // 60

    def report(self):
        at_work = ", ".join(sorted(crate for crate, _ in self.at_work.values()))
        # the last one is the program itself
        return f"{len(self.proved)} of {len(self.crates) + 1} crates proved, {at_work} at work, minute {self.minutes()}"

    def stop(self):
        for _, process in self.at_work.values():
            os.killpg(process.pid, signal.SIGKILL)


def failed(crate, log):
    say(f"the program wasn't built, since {crate} wasn't proved; {log} ends so:")
    with open(log, encoding="utf-8", errors="replace") as lines:
        sys.stderr.writelines(lines.readlines()[-5:])


def prove(build):
    """Proves all crates below the program, and returns whether that worked."""
    told = None
    try:
        while len(build.proved) < len(build.crates):
            if not build.step():
                return False
            if build.at_work and build.report() != told:
                told = build.report()
                say(told)
            time.sleep(0.5)
        return True
    finally:
        build.stop()


def link(build):
    """Proves and builds the program itself, tries it, and puts it in its place; returns whether that worked."""
    say(f"{len(build.crates)} of {len(build.crates) + 1} crates proved, {TOP} at work, minute {build.minutes()}")
    log = os.path.join(BUILD, "log")
    with open(log, "w", encoding="utf-8") as out:
        command = ["rt", "run", "--", "serial"]
        ran = subprocess.run(command, cwd=folder(HERE, TOP), input=b"int main(){}", stdout=out, stderr=out)
    if ran.returncode:
        failed(TOP, log)
        return False
    shutil.copy2(os.path.join(folder(HERE, TOP), "out", TOP), f"{PROGRAM}.new")
    os.replace(f"{PROGRAM}.new", PROGRAM)
    say(f"proved and built in {build.minutes()} minutes")
    return True


def main():
    if not shutil.which("rt"):
        say("the program isn't built yet, and the command rt of the Rattle kit, which builds it, isn't on the path")
        return 1
    say(f"proving and building the program, which is done once; what is told of it is in {BUILD}")
    signal.signal(signal.SIGTERM, lambda *_: sys.exit(1))
    try:
        os.makedirs(BUILD, exist_ok=True)
        crates = crates_below(TOP)
        del crates[TOP]
        build = Build(crates)
        if not prove(build) or not link(build):
            return 1
    except KeyboardInterrupt:
        say("stopped; what is proved so far is kept")
        return 1
    os.execv(PROGRAM, [PROGRAM, *sys.argv[1:]])


if __name__ == "__main__":
    sys.exit(main())
