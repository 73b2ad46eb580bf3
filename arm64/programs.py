"""Builds proved programs for ARM64, over the libraries and the kept proofs that build.py left.

usage: arm64/programs.py NAME ..     at the top of the repository; each stands as crates/NAME/out/NAME.arm64 then

One that was built of the same sources is left as it is.

The kit's `rt` builds for x86-64 alone. Its compiler makes the object file of a program for ARM64 as well, and Debian's
gcc-aarch64-linux-gnu links it as the kit links: with arm64/foreign.c in place of the kit's C functions, from any address,
with what is relocated read-only, and without a stack that can be executed."""
import concurrent.futures
import hashlib
import os
import shutil
import subprocess
import sys

sys.path.insert(0, os.path.join(os.path.dirname(os.path.abspath(__file__)), "../tools"))
from build import keep
from kit import rtlib

GCC = "aarch64-linux-gnu-gcc"
TARGET = ["--backend", "llvm", "--target", "aarch64-unknown-linux-gnu"]
COMPILE = ["-O2", "-Wall", "-Wextra", "-Werror", "-fPIE", "-fstack-clash-protection"]
# So many at a time: each takes up to 2 GB of memory.
JOBS = 2
LINK = ["-pie", "-Wl,--as-needed,--gc-sections,-z,relro,-z,now,-z,noexecstack,-z,separate-code,--build-id=sha1"]


def stamp(crate):
    """A sum of all that the program is made from."""
    texts = [crate.stamp(), *(rtlib.text_of(it) for it in ("arm64/foreign.c", __file__))]
    return hashlib.sha256(repr(texts).encode()).hexdigest()


def build(crate):
    """Proves the program, if its proofs aren't kept, compiles and links it. Returns whether that went well."""
    missing = [it.name for it in crate.below() if not it.is_built()]
    if missing:
        sys.exit(f"arm64: {crate.name}: {', '.join(missing)} isn't built: make")
    made = f"out/{crate.name}.arm64"
    kept = f"{crate.folder}/{made}.stamp"
    if os.path.isfile(f"{crate.folder}/{made}") and rtlib.text_of(kept) == stamp(crate):
        return True
    if not keep(crate, "verdict.arm64", lambda: crate.compile(TARGET, f"{made}.o")):
        return False
    words = [GCC, *COMPILE, *LINK, "-o", made, f"{made}.o", os.path.abspath("arm64/foreign.c")]
    if subprocess.run(words, cwd=crate.folder, check=False).returncode != 0:
        return False
    with open(kept, "w", encoding="utf-8") as file:
        file.write(stamp(crate))
    return True


def main(names):
    if not shutil.which(GCC):
        sys.exit(f"arm64: {GCC} isn't there: apt-get install gcc-aarch64-linux-gnu libc6-dev-arm64-cross")
    rtlib.guarded()
    programs = [it for it in rtlib.crates_below(os.getcwd()) if it.name in names]
    with concurrent.futures.ThreadPoolExecutor(JOBS) as pool:
        return 0 if len(programs) == len(names) and all(pool.map(build, programs)) else 1


if __name__ == "__main__":
    sys.exit(main(sys.argv[1:]))
