"""The kit's own command as a module, for scripts that build and judge as it does. As a program it checks that `rt` is of the kit
that is wanted, and says nothing where it is. The variable KIT=any takes any kit."""
import importlib.machinery
import importlib.util
import os
import shutil
import subprocess
import sys

sys.dont_write_bytecode = True
# The kit by whose logic the proofs of this source hold: the end of what its `rt version` prints.
WANTED = "logic dac8208d650f15bf"


def version_of(rt):
    """The first line of what `rt version` says."""
    try:
        ran = subprocess.run([rt, "version"], stdin=subprocess.DEVNULL, stdout=subprocess.PIPE, stderr=subprocess.STDOUT, timeout=20, check=False)
    except (OSError, subprocess.TimeoutExpired):
        return ""
    return ran.stdout.decode(errors="replace").partition("\n")[0].strip()


def wanted_kit():
    """The path of its `rt`. Where there is none, or another one, this ends with a line that says so."""
    rt = shutil.which("rt") or sys.exit("rt isn't on the PATH: README.md, The toolchain")
    said = WANTED if os.environ.get("KIT") == "any" else version_of(rt)
    if not said.endswith(WANTED):
        sys.exit(f'{rt} says "{said[:60]}": not of the kit that is wanted, {WANTED} (README.md, The toolchain); KIT=any takes it')
    return rt


RT = wanted_kit()
if __name__ == "__main__":
    sys.exit()
KIT = os.path.dirname(os.path.dirname(os.path.realpath(RT)))
LOADER = importlib.machinery.SourceFileLoader("rt_of_the_kit", f"{KIT}/bin/rt")
rt = importlib.util.module_from_spec(importlib.util.spec_from_loader(LOADER.name, LOADER))
sys.modules[LOADER.name] = rt
LOADER.exec_module(rt)
rtlib = rt.rtlib
