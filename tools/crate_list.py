#!/usr/bin/env python3
"""Writes crates.txt: each crate with the libraries whose names its check has to know.

Which libraries a crate uses is read off its files: `use` lines and paths in src/, `Rattle.NAME.` in specs/, proofs/ and
ghost lines. A check also has to know the libraries in which the definitions of these stand, and so on down, but for those
that a library uses inside alone (INSIDE). A few crates get by with the libraries that they name (NAMED_ALONE), and a few
need one more (BESIDE). Lines keep their order; a crate without a line gets one at the end.

    tools/crate_list.py           writes crates.txt
    tools/crate_list.py --check   says which lines differ; status 1 where one does
"""
import pathlib
import re
import sys

TOP = pathlib.Path(__file__).resolve().parent.parent
LIST = TOP / "crates.txt"
RLIBS = pathlib.Path("/opt/rattle/rlibs")

# what a library uses in its bodies or private fields alone, so that those above it need not know it
INSIDE = {
    "kernel_rtl": {"kernel_types"},
    "kernel_states": {"kernel_types"},
    "kernel_wiring": {"kernel_types"},
    "latency_table": {"serde_json"},
    "maxj_syntax": {"refusal_line"},
    "mx_base": {"lru"},
    "refusal_line": {"itoa"},
    "rtl_check": {"digraph"},
    "rtl_ir": {"smallvec"},
    "verilog_sim": {"digraph"},
}
NAMED_ALONE = {"kernel_refinement", "maxjc", "maxjc_core_tests", "verilog_print_tests", "verilog_read_tests"}
# what a crate has to know besides: libraries in which types stand that it is handed and lets go
BESIDE = {
    "maxjc_core": {"lru", "smallvec"},
    "mx_base_tests": {"lru"},
    "rtl_check": {"smallvec"},
    "verilog_print_tests": {"mx_base", "rtl_ir"},
    "verilog_read": {"smallvec"},
}


def listed():
    """The lines that stand: each crate with its libraries, in order."""
    lines = {}
    for line in LIST.read_text().splitlines():
        name, colon, rest = line.split("#")[0].partition(":")
        if colon:
            lines[name.strip()] = rest.split()
    return lines


def crates_in_order(lines):
    folders = {path.name for path in (TOP / "crates").iterdir() if (path / "src").is_dir()}
    return [name for name in lines if name in folders] + sorted(folders - lines.keys())


def sources(name):
    return [path for path in (TOP / "crates" / name).rglob("*") if path.suffix in (".rt", ".antt") and "out" not in path.parts]


def imports_of(text):
    """The libraries that a file imports or whose definitions it cites, and names of modules."""
    own = set(re.findall(r"^\s*(?:pub )?mod ([a-z_0-9]+);", text, re.M))
    named = set(re.findall(r"\bRattle\.([a-z_0-9]+)\.", text))
    return named | set(re.findall(r"^\s*use ([a-z_0-9]+)(?:::|;)", text, re.M)) - own


def uses_of(crates, lines):
    """Which libraries each crate's files name: by an import, a citation, or a path in code."""
    kit = {path.stem for path in RLIBS.glob("*.rlib")} or {library for known in lines.values() for library in known}
    texts = {name: [path.read_text() for path in sources(name)] for name in crates}
    imported = {name: set().union(*map(imports_of, texts[name])) for name in crates}
    libraries = set(crates) | kit & set().union(*imported.values()) - {"std"}
    paths = {name: set(re.findall(r"\b([a-z_0-9]+)::", "\n".join(texts[name]))) for name in crates}
    return {name: (imported[name] | paths[name]) & libraries - {name} for name in crates}


def shown(name, uses, memo):
    """The libraries that whoever stands on this one has to know besides it."""
    if name not in memo:
        below = uses.get(name, set()) - INSIDE.get(name, set())
        memo[name] = below.union(*(shown(library, uses, memo) for library in below))
    return memo[name]


def made():
    """The lines as they are to be."""
    lines = listed()
    crates = crates_in_order(lines)
    uses = uses_of(crates, lines)
    memo = {}
    wanted = {}
    for name in crates:
        below = uses[name]
        if name not in NAMED_ALONE:
            below = below.union(*(shown(library, uses, memo) for library in below))
        wanted[name] = sorted(below | BESIDE.get(name, set()))
    return wanted


def main():
    wanted = made()
    if sys.argv[1:] == ["--check"]:
        stands = listed()
        wrong = [name for name in wanted if stands.get(name) != wanted[name]] + [name for name in stands if name not in wanted]
        for name in wrong:
            print(f"crates.txt: the line of {name} isn't the one that tools/crate_list.py writes")
        print(f"{len(wanted)} crates, {len(wrong)} lines not as the files have them")
        return 1 if wrong else 0
    if sys.argv[1:]:
        sys.exit(__doc__)
    LIST.write_text("".join(f"{name}: {' '.join(libraries)}".rstrip() + "\n" for name, libraries in wanted.items()))
    return 0


if __name__ == "__main__":
    sys.exit(main())
