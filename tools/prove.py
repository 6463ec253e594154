#!/usr/bin/env python3
"""Proves crates and their tests as `rt ci` does, but for what an earlier run has proved of the same text.

usage: tools/prove.py [NAME..]     the crates of these names and all below them; without names every crate

It is for kits whose `rt ci` keeps nothing between runs (`rt doc` says whether it does). What is proved is kept in a folder for
temporary files, by a sum of a crate's text and of all below it, for every checkout on the machine; the libraries then stand in
out/ too, so that `rt check` finds them. No edits are tried and no program is run: only `rt ci` has the last word.
"""
import hashlib
import os
import shutil
import sys
import tempfile
import threading
import time

import kit

STORE = f"{tempfile.gettempdir()}/proved-crates"
TOP = os.path.dirname(os.path.dirname(os.path.abspath(__file__)))


def load():
    """The kit's rt, which remembers the sums of the crates' texts too, and proves as `rt ci` does."""
    module = kit.load(TOP)
    anew = module.rtlib.Crate.stamp

    def stamp(crate):
        if "own_stamp" not in crate.__dict__:
            crate.own_stamp = anew(crate)
        return crate.own_stamp

    module.rtlib.Crate.stamp = module.Crate.stamp = stamp
    module.rtlib.Crate = module.Crate
    module.Crate.cuts_libraries = True
    return module


def key(crate):
    return hashlib.sha256(f"{crate.name} {crate.stamp()}".encode()).hexdigest()[:32]


def place(crate, what):
    return f"{STORE}/{crate.name}/{key(crate)}.{what}"


def take(crate):
    """Puts the library that is kept into the checkout, and tells whether there is one."""
    kept, out = place(crate, "rlib"), f"{crate.folder}/out/rlib"
    if not os.path.isdir(kept):
        return False
    # (libraries fit together only as they were proved over each other, so one that was built here apart goes)
    stands = os.path.exists(f"{crate.rlib}/format") and os.path.samefile(f"{kept}/format", f"{crate.rlib}/format")
    if not stands or not crate.is_built():
        shutil.rmtree(out, ignore_errors=True)
        os.makedirs(out)
        shutil.copytree(kept, crate.rlib, copy_function=os.link)
        with open(f"{out}/stamp", "w") as it:
            it.write(crate.stamp())
    return True


def keep(crate):
    """Keeps the library that was just proved."""
    kept = place(crate, "rlib")
    os.makedirs(os.path.dirname(kept), exist_ok=True)
    shutil.copytree(crate.rlib, f"{kept}.part", copy_function=os.link, dirs_exist_ok=True)
    os.rename(f"{kept}.part", kept)
    with open(f"{crate.folder}/out/rlib/stamp", "w") as it:
        it.write(crate.stamp())


def mark(crate, what):
    os.makedirs(os.path.dirname(place(crate, what)), exist_ok=True)
    open(place(crate, what), "w").close()


def prove(rt, crate, tests, jobs, log):
    """Proves the crate or its tests, and runs these, and tells whether all is well."""
    is_library = not tests and not crate.is_program
    if is_library and take(crate):
        return True
    what = "tests" if tests else "program"
    if not is_library and os.path.exists(place(crate, what)):
        return True
    began = time.time()
    if not tests and rt.rtlib.fmt(crate.folder, "--check", crate.out):
        return False
    if crate.ci(["--jobs", str(jobs)], tests):
        return False
    if is_library:
        keep(crate)
    elif tests and not rt.run(crate, True):
        return False
    else:
        mark(crate, what)
    log(f"{crate.name}{': its tests' if tests else ''} proved, in {time.time() - began:.0f} s with {jobs} jobs")
    return True


def main(names):
    os.chdir(TOP)
    rt = load()
    rt.rtlib.guarded()
    crates = {it.name: it for it in rt.rtlib.crates_below(TOP)}
    wanted = {below.name: below for name in names or crates for below in [*crates[name].below(), crates[name]]}
    printing = threading.Lock()

    def log(line):
        with printing:
            print(line, flush=True)

    def task(crate, tests):
        def run(given, jobs):
            if not all(given[it.name, False] for it in crate.below()) or (tests and not given[crate.name, False]):
                return False
            with tempfile.TemporaryFile("a+", errors="replace") as crate_out:
                it = crate.__class__.__new__(crate.__class__)
                it.__dict__.update(crate.__dict__, out=crate_out)
                os.makedirs(f"{it.folder}/out", exist_ok=True)
                well = False
                try:
                    well = prove(rt, it, tests, jobs, log)
                except SystemExit:
                    pass
                if not well:
                    crate_out.seek(0)
                    log(f"== {crate.name}{': tests' if tests else ''}\n{crate_out.read()}{crate.name} NOT PROVED")
            return well

        waits = [(it.name, False) for it in crate.below()] + [(crate.name, False)] * tests
        is_done = os.path.isdir(place(crate, "rlib")) if not tests else os.path.exists(place(crate, "tests"))
        return waits, 0 if is_done else crate.count(rb"\n"), rt.need(crate), run

    tasks = {(it.name, False): task(it, False) for it in wanted.values()}
    tasks.update({(it.name, True): task(it, True) for it in wanted.values() if it.has_tests()})
    given = rt.in_lanes(tasks)
    failed = [f"{name}{' (tests)' * tests}" for (name, tests), well in given.items() if not well]
    print(f"{len(given) - len(failed)} of {len(given)} proved{': not ' if failed else ''}{' '.join(failed)}")
    return 1 if failed else 0


if __name__ == "__main__":
    sys.exit(main(sys.argv[1:]))
