#!/usr/bin/env python3
"""README: the limits that it names, and what its commands print; `make` and its tests aren't run here. And that the version stands in one
place, from which the programs, the package and the changelog have it."""
import os
import pathlib
import re
import subprocess

from replaying import HERE, Bench, built, each

PROGRAMS = built("upsd", "upsc", "upsrw", "upscmd", "demodriver")
BENCH = Bench("readme", PROGRAMS[0])
os.chdir(f"{HERE}/..")


def text_of(path):
    return pathlib.Path(path).read_text(encoding="utf-8")


def printed(*words, **more):
    return subprocess.run(words, capture_output=True, text=True, **more).stdout


PAGE = text_of("README.md")
BLOCKS = re.findall(r"^```\n(.*?)^```$", PAGE, re.M | re.S)


def is_limit(number, crate, constant):
    sources = "".join(map(text_of, pathlib.Path(f"crates/{crate}/src").rglob("*.rt")))
    found = set(re.findall(rf"pub const {constant}: \w+ = ([\d_]+);", sources))
    assert [it.replace("_", "") for it in found] == [number.replace(",", "")], found


def limits_are_those_of_the_sources():
    rows = re.findall(r"^(\w.*) \| ([\d,]+) \| `(\w+)::(\w+)`$", text_of("docs/PROVED.md"), re.M)
    of = {constant: number for _, number, _, constant in rows}
    assert f"At most {of['UPS_LIMIT']} UPSs and {of['SESSION_LIMIT']} clients" in PAGE, rows
    return each([it[1:] for it in rows], is_limit)


def numbers_are_those_of_costs():
    ours, nut = re.search(r"^60 clients that stop within a listing \| ([\d,]+) \| ([\d,]+) ", text_of("docs/COSTS.md"), re.M).groups()
    assert f"| {nut} KiB | [{ours} KiB](docs/COSTS.md)" in PAGE


def the_kit_is_the_one_that_is_checked():
    assert f"ends in `{re.search('^WANTED = .(.*).$', text_of('tools/kit.py'), re.M)[1]}`" in PAGE


def commands_print_what_is_shown():
    for command, _, shown in (block[2:].partition("\n") for block in BLOCKS if block.startswith("$ ")):
        got = printed(command, shell=True)
        assert got == shown, f"{command} prints\n{got}"


def the_demonstration_prints_what_is_shown_behind_it():
    missing = set(BLOCKS[BLOCKS.index("make try\n") + 1].splitlines()) - set(printed("timeout", "8", "make", "-s", "demo").splitlines())
    assert not missing, missing


def the_version_stands_in_one_place():
    version = re.search(r'VERSION: &str = "(\d+\.\d+\.\d+(?:~dev)?)";', text_of("crates/nutargs/src/version.rt"))[1]
    for program in PROGRAMS:
        for word in "--version", "-V":
            assert BENCH.ends(word, program=program)[1] == f"{os.path.basename(program)} {version}\n".encode(), program
    assert printed("make", "--no-print-directory", "-n", "deb") == f"bash tools/deb {version} . amd64\n"
    heading, line = re.search(r"^## (.*)\n(.*)", text_of("CHANGELOG.md"), re.M).groups()
    dev = version.endswith("~dev")
    assert heading == "[Unreleased]" if dev else heading.startswith(f"[{version}]"), heading
    assert not dev or line.startswith(f"It will be {version[:-4]},"), line


BENCH.run(globals())
