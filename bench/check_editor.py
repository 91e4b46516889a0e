#!/usr/bin/env python3
"""Whether the files of editor/ fit the language: the words of both grammars are those of docs/LANGUAGE.md and of the calls that the
evaluator knows, each part of the TextMate grammar finds what it is for, and bash completes the words of maxjc.

    bench/check_editor.py     ends with status 1 where something is wrong; Vim is started where it is installed
"""
import json
import pathlib
import re
import shutil
import subprocess
import sys
import tempfile

import kernel_library
import manager_library
import running
import source_tree
from trials import TOP

GRAMMAR = TOP / "editor/vscode/syntaxes/maxj.tmLanguage.json"
VIM = TOP / "editor/vim/syntax/maxj.vim"
BASES = running.BASES - {"int", "boolean"}
# a line of a source, and the words of it that a part is to find
SHOWN = [
    ("comments", "x = 1; // two", ["// two"]),
    ("strings", 'io.input("x y", t);', ['"x y"']),
    ("numbers", "a = 12L + 0x1fl + 1.50 + 0;", ["1.50", "0x1fl", "12L", "0"]),
    ("numbers", "b = 0b11 + 010;", ["0b11", "010"]),
    ("classes", "class K extends Kernel {", ["class K extends Kernel"]),
    ("words", "if (true) return this; throw", ["if", "return", "true", "this", "throw"]),
    ("library", "DFEVar x = io.input(n, dfeUInt(8)); x.cast(dfeFix(1, 2, SignMode.UNSIGNED)); a.length",
     ["DFEVar", "dfeUInt", "dfeFix", "io.input", "cast", "SignMode.UNSIGNED", "length"]),
    ("library", "control.count.simpleCounter(8); addKernel(k)", ["control.count.simpleCounter", "addKernel"]),
    ("operators", "old <== a === b ? c << 1 : d; i += 1;", ["<==", "===", "=", "+=", "?", "<<", ":"]),
    ("calls", "smooth(x)", ["smooth"]),
]


def foreign_words():
    """The words of Java that are in no source, as docs/LANGUAGE.md has them."""
    page = (TOP / "docs/LANGUAGE.md").read_text()
    return set(re.search(r"words of Java[^`]*`([a-z ]+)`", page)[1].split())


def parts(grammar):
    for name, part in grammar["repository"].items():
        for pattern in part["patterns"]:
            yield name, [pattern[key] for key in ("match", "begin", "end") if key in pattern]


def unescaped(pattern):
    """The words that a pattern of names joined by dots has: `io.(input|output)` are two."""
    return set(re.findall(r"[A-Za-z]\w*", re.sub(r"\\[bswz]\*?|\\", " ", pattern)))


def wrong_words():
    """The words that a grammar lacks, or has and the language hasn't."""
    calls = {word for path in [*kernel_library.KERNEL_CALLS, *running_modes()] for word in path.split(".")}
    wanted = source_tree.RESERVED | {"super"} | foreign_words() | BASES | {"Kernel", "CustomManager"} | set(running.TYPE_CALLS) | calls
    wanted |= set(kernel_library.KERNEL_METHODS) | set(manager_library.MANAGER_METHODS) | set(manager_library.MANAGER_CALLS)
    wanted |= {"addKernel", "makeKernelParameters"}
    grammar = json.loads(GRAMMAR.read_text())
    texts = [pattern for name, patterns in parts(grammar) if name in ("words", "library", "classes") for pattern in patterns]
    yield from differing("the TextMate grammar", wanted, set().union(*map(unescaped, texts)) - {"A", "Za", "z", "Z", "z_"} - {"length"})
    lines = [line for line in VIM.read_text().splitlines() if re.match(r"syntax (keyword|match) maxj(?!Todo|Number|String|Connect|Comment)", line)]
    had = set().union(*(unescaped(re.sub(r"^syntax \w+ maxj\w+", "", line).replace(r"\ze", " ").replace(r"\%", " ")) for line in lines))
    yield from differing("the Vim syntax", wanted, had)


def running_modes():
    return [f"SignMode.{mode}" for mode in ("TWOSCOMPLEMENT", "UNSIGNED")] + [f"RoundingMode.{mode}" for mode in ("TRUNCATE", "TONEAR", "TONEAREVEN")]


def differing(what, wanted, had):
    yield from (f"{what} lacks {word}" for word in sorted(wanted - had))
    yield from (f"{what} has {word}, which the language hasn't" for word in sorted(had - wanted))


def wrong_finds():
    grammar = json.loads(GRAMMAR.read_text())
    for name, line, wanted in SHOWN:
        found = [match.group().strip() for part, patterns in parts(grammar) if part == name for match in re.finditer(patterns[0], line)]
        if not set(wanted) <= set(found):
            yield f"{name} finds {found} in {line}, and not {wanted}"


def wrong_json():
    package = json.loads((TOP / "editor/vscode/package.json").read_text())
    json.loads((TOP / "editor/vscode/language-configuration.json").read_text())
    for part in [package["contributes"]["languages"][0]["configuration"], package["contributes"]["grammars"][0]["path"]]:
        if not (TOP / "editor/vscode" / part).exists():
            yield f"package.json names {part}, which isn't there"


# the words that stand, the last one to be completed; what it may become
COMPLETED = [
    (["maxjc", ""], {"compile", "simulate", "expect", "check", "--help", "--version"}),
    (["maxjc", "co"], {"compile"}),
    (["maxjc", "compile", ""], {"k.maxj", "more/"}),
    (["maxjc", "compile", "k.maxj", ""], {"t.json", "more/"}),
    (["maxjc", "simulate", "o"], {"o.v"}),
    (["maxjc", "check", "k.maxj", "t.json", ""], {"o.report", "more/"}),
]


def wrong_completions():
    with tempfile.TemporaryDirectory() as folder:
        for name in ("k.maxj", "t.json", "o.v", "o.report", "x.txt"):
            (pathlib.Path(folder) / name).touch()
        (pathlib.Path(folder) / "more").mkdir()
        for words, wanted in COMPLETED:
            script = f'. "{TOP}/editor/maxjc.bash"; COMP_WORDS=("$@"); COMP_CWORD=$(($# - 1)); _maxjc; printf "%s\\n" "${{COMPREPLY[@]}}"'
            ran = subprocess.run(["bash", "-c", script, "bash", *words], capture_output=True, text=True, cwd=folder)
            if set(ran.stdout.split()) != wanted or ran.stderr:
                yield f"{words} is completed by {ran.stdout.split()}, and not by {sorted(wanted)} {ran.stderr}"


def wrong_vim():
    """What Vim finds in a source: a group of the syntax at some of its words."""
    if not shutil.which("vim"):
        print("vim: not installed, passed over")
        return
    with tempfile.TemporaryDirectory() as folder:
        source = pathlib.Path(folder) / "k.maxj"
        source.write_text("class K extends Kernel {\n  double a; // note\n}\n")
        script = pathlib.Path(folder) / "look.vim"
        script.write_text(
            f"set nocompatible\nset runtimepath^={TOP}/editor/vim\nsyntax on\nedit {source}\n"
            f"let seen = map([[1, 1], [1, 17], [2, 3], [2, 14]], 'synIDattr(synID(v:val[0], v:val[1], 1), \"name\")')\n"
            f"call writefile(seen, '{folder}/seen')\nqall!\n"
        )
        subprocess.run(["vim", "-u", "NONE", "-es", "-S", str(script)], capture_output=True, timeout=60, stdin=subprocess.DEVNULL)
        seen = (pathlib.Path(folder) / "seen").read_text().split()
        if seen != ["maxjModifier", "maxjType", "maxjForeign", "maxjComment"]:
            yield f"Vim sees {seen}"


def main():
    found = [line for wrong in (wrong_words, wrong_finds, wrong_json, wrong_completions, wrong_vim) for line in wrong()]
    for line in found:
        print(line)
    print(f"check_editor: {len(SHOWN)} lines, {len(COMPLETED)} completions, {len(found)} wrong")
    return 1 if found else 0


if __name__ == "__main__":
    sys.exit(main())
