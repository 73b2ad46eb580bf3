"""Proves and builds programs, several crates at a time.

usage: build.py NAME ..     at the top of the repository; each stands as crates/NAME/out/NAME then

It builds by the kit's own module. Where KIT=any takes a kit whose module this script doesn't know, `rt` builds one crate after
another, which takes longer. Ends with status 1 where one isn't proved."""
import concurrent.futures
import os
import re
import subprocess
import sys
import tempfile

try:
    from kit import rt, rtlib
except Exception:  # of another kit, it may fail in any way
    rt = rtlib = None

# From so many lines on a crate of the chain is checked by four jobs, and all else by two: two take 1.2 times the work of
# one, four take 1.5 times.
LONG = 900
# What the kit says in the place of a check where the program stands built and proved of the same text.
UNCHANGED = "rt: nothing has changed since the last proved build"


def keep(crate, name, call):
    """Calls, and keeps the last line of the crate's check as out/NAME. Returns whether that went well, and prints why it didn't."""
    with tempfile.TemporaryFile("a+", errors="replace") as crate.out:
        status = call()
        crate.out.seek(0)
        said = crate.out.read()
    crate.out = sys.stdout
    return is_kept(status, said, f"{crate.folder}/out/{name}")


def is_kept(status, said, path):
    """Keeps the last line of a check, which ended with this status and said this. Returns whether it is proved, by this check or,
    where nothing was checked, by the one whose line is kept."""
    last = re.findall(r"^logic=.*\n", said, re.M)[-1:]
    if status == 0 and last:
        with open(path, "w", encoding="utf-8") as file:
            file.writelines(last)
    well = status == 0 and (bool(last) or UNCHANGED in said or os.path.isfile(path))
    if not well:
        print(said or f"{path}: the check said nothing of a proof\n", end="", flush=True)
    return well


def build(crate, jobs):
    """Proves and builds a library, or a program, which then says its version, and returns whether that went well."""
    # No lock is held, for which programs over the same libraries would wait: a crate is built once those below it are.
    crate.held, flags = [], ["--jobs", str(jobs)]
    if crate.is_program:
        return keep(crate, "verdict", lambda: crate.run(flags, ["--version"]))
    return crate.is_built() or keep(crate, "verdict", lambda: crate.build_rlib(flags, anew=False))


def build_all(crates):
    """Builds each crate once those below it are built, and returns those with which that went well."""
    built, done = {}, 0

    def of(crate):
        nonlocal done
        is_built = all(built[it].result() for it in crate.below()) and build(crate, jobs[crate])
        done += 1
        print(f"build: {crate.name}: {'proved' if is_built else 'FAILED'} ({done} of {len(crates)})", flush=True)
        return is_built

    lines = {it: it.count(rb"\n") for it in crates}
    # A crate waits only for crates that were handed in before it, so some work always goes on.
    crates = sorted(crates, key=lambda it: (len(it.below()), -lines[it]))
    # What the longest crate stands on, and what stands on it, is one long chain: all else gives way to it, one at a time.
    longest = max(crates, key=lines.get)
    chain = [it for it in crates if it in (longest, *longest.below()) or longest in it.below()]
    jobs = {it: 4 if it in chain and lines[it] > LONG else 2 for it in crates}
    pool = concurrent.futures.ThreadPoolExecutor(rt.processors())
    giving_way = concurrent.futures.ThreadPoolExecutor(1, initializer=os.nice, initargs=[19])
    with pool, giving_way:
        for it in crates:
            built[it] = (pool if it in chain else giving_way).submit(of, it)
        return [it for it in crates if built[it].result()]


def crates_of(names):
    """These programs and what they stand on, or nothing where the kit's module isn't as expected."""
    try:
        rtlib.guarded()
        programs = [it for it in rtlib.crates_below(os.getcwd()) if it.name in names]
        crates = {*programs, *[dep for it in programs for dep in it.below()]}
        used = [rt.processors, *(getattr(it, call) for it in crates for call in ("run", "build_rlib", "is_built", "count", "is_program"))]
        return crates if used else set()
    except (AttributeError, TypeError):
        print("build: the kit's module isn't as expected: one crate after another", flush=True)
        return set()


def build_in_turn(names):
    """Builds these programs and what they stand on by the kit's command, as crates.txt has them, the lowest first."""
    with open("crates.txt", encoding="utf-8") as file:
        below = {name: deps.split() for name, deps in re.findall(r"^(\w+):(.*)$", file.read(), re.M)}
    wanted = {*names}
    for name in reversed(below):
        wanted |= {*below[name]} if name in wanted else set()
    for name in (it for it in below if it in wanted):
        words = ["rt", "run", "--", "--version"] if name in names else ["rt", "lib"]
        ran = subprocess.run(words, cwd=f"crates/{name}", stdout=subprocess.PIPE, stderr=subprocess.STDOUT, text=True, check=False)
        well = is_kept(ran.returncode, ran.stdout, f"crates/{name}/out/verdict")
        print(f"build: {name}: {'proved' if well else 'FAILED'}", flush=True)
        if not well:
            return False
    return True


def main(names):
    crates = crates_of(names)
    if not crates:
        return 0 if build_in_turn(names) else 1
    return 0 if len(build_all(crates)) == len(crates) else 1


if __name__ == "__main__":
    sys.exit(main(sys.argv[1:]))
