#!/usr/bin/env python3
"""Whether tools/explain.py says of each refusal what docs/REFUSALS.md says where no more is known, and finds places in files. No
program is needed; bench/check_causes.py looks at what is said of refusals of the program.

- each row of the tables of codes, by a line that is made of its code and the names of its values, and by those of its example;
- each code of the table of the code's own names has a row, and each row's code stands there;
- files that were made up here, with the line, the column and the mark that were worked by hand;
- odd words, files that aren't there, a page that isn't there: status 0, nothing on standard output, what is known on the other one.

    bench/check_explain.py     ends with status 1 where something is wrong
"""
import os
import pathlib
import re
import subprocess
import sys
import tempfile

TOP = pathlib.Path(__file__).resolve().parent.parent
sys.path.insert(0, str(TOP / "tools"))

import explain

TOOL = TOP / "tools/explain.py"
PAGE = (TOP / "docs/REFUSALS.md").read_text()
WORDS = {"VALUE": "7", "PLACE": "4", "LINE": "2", "FILE": "a b.txt", "KEY": "a key"}
COMMAND = ["check", "k.maxj", "t.json", "k.report"]


# The page, read here by itself


def rows():
    """(code with its values, cause, example, remedy) of each row of the tables of codes."""
    for table in re.findall(r"\| code \| cause \|[^\n]*\n\|[-|]*\n((?:\|[^\n]*\n)*)", PAGE):
        for row in table.splitlines():
            head, *cells = row[2:-2].split(" | ")
            yield head.strip("`"), *cells


def names_of_codes():
    """The codes of the table that says what each is called in the code: `S1` to `S6` are six of them."""
    table = PAGE.split("## The codes in the code")[1].split("\n## ")[0]
    found = set()
    for head in re.findall(r"^\| (`.*?) \|", table, re.M):
        for first, last in re.findall(r"`(\w+(?: \d+)?)`(?: to `(\w+(?: \d+)?)`)?", head):
            letter, number = re.fullmatch(r"(.*?)(\d+)", first).groups()
            most = int(re.fullmatch(r"(.*?)(\d+)", last)[2]) if last else int(number)
            found |= {f"{letter}{n}" for n in range(int(number), most + 1)}
    return found


def code_of(head):
    """The code of a row as that table has it: the rules of V3 are codes of their own there."""
    code, *values = head.split()
    return f"V3 {values[0]}" if code == "V3" else code


def lines_of(head, example):
    """A line of the row that is made of its head, and those of its example."""
    words = head.replace(" ..", "").split()
    yield " ".join(["refused", words[0], *(WORDS.get(word, WORDS["VALUE"]) if word.isupper() else word for word in words[1:])])
    for piece in re.findall(r"`([^`]*)`", example):
        whole = piece.removeprefix("refused ")
        if whole.split()[:1] == words[:1] and len(whole.split()) >= len(words) - 1:
            yield f"refused {whole}"


def squeezed(text):
    """A text without links, blanks and the marks at its end."""
    text = re.sub(r"\[[^]]*\]\((\w+\.md)\)", r"docs/\1", text)
    return re.sub(r"\s+", "", text).rstrip(".").lower()


def wrong_rows():
    before = ""
    for head, cause, example, remedy in rows():
        remedy = before = re.sub(r"^the same\b", lambda _: before, remedy)
        for line in lines_of(head, example):
            told = squeezed(" ".join(explain.explained(line, COMMAND)))
            if squeezed(cause) not in told or not told.endswith(squeezed("What to do: " + remedy)):
                yield f"{line}: the row of {head} isn't told, but {told}"
    told, named = {code_of(head) for head, *_ in rows()}, names_of_codes()
    yield from (f"{code}: not in both tables of docs/REFUSALS.md" for code in sorted(told ^ named))


# Places in files

KERNEL = b"class K extends Kernel {\n\tK(KernelParameters p) {\n\t\tsuper(p);\n    x = 1 # 2;\n  }\n}\n"
LONG = b"a" * 150 + b"#" + b"b" * 150
# what a file holds; the line that is said of it; the heading behind the file's name; the line that is shown, and the mark below it
PLACES = [
    (KERNEL, "S2 72", "4:11:", "    x = 1 # 2;", "          ^"),
    (KERNEL, "S3 0", "1:1:", "class K extends Kernel {", "^"),
    (KERNEL, "E1 52", "3:3:", "\t\tsuper(p);", "\t\t^"),
    (KERNEL, "S3 83", "7:1: refused S3 (the end of the file)", None, None),
    (b"class", "S3 5", "1:6:", "class", "     ^"),
    (b"class", "S3 6", " refused S3 (byte 6)", None, None),
    (b"/* \xc3\xa9\xc3\xa9 */ #\n", "S2 11", "1:10:", "/* \u00e9\u00e9 */ #", "         ^"),
    (b"/* \xe6\xbc\xa2 */ #\n", "S2 10", "1:9:", "/* \u6f22 */ #", "         ^"),
    (b"x\r\ny #\r\n", "S2 5", "2:3:", "y #", "  ^"),
    (b"a\x1b[2Jb \xff\n", "S1 1", "1:2:", "a?[2Jb \ufffd", " ^"),
    (b"x\n\n", "S3 3", "3:1:", None, None),
    (LONG, "S2 150", "1:151:", ".. " + "a" * 50 + "#" + "b" * 49 + " ..", " " * 53 + "^"),
    (b"{\n", "T1", "2:1: refused T1 (the end of the file)", None, None),
    (b"maxjc-report 1\nkernel K nodes 2\n", "Q1 2", "2:1:", "kernel K nodes 2", "^" * 16),
    (b"maxjc-report 1\n", "Q1 2", "2:1: refused Q1 (there is no such line)", None, None),
    (b"  maxjc-report 1", "Q2 1", "1:3:", "  maxjc-report 1", "  " + "^" * 14),
]


def wrong_places(folder):
    for data, line, head, text, mark in PLACES:
        (folder / "file").write_bytes(data)
        first, *others = explain.explained(f"refused {line}", ["check", *[str(folder / "file")] * 3])
        shown = [other[2:] for other in others if other.startswith("  ")]
        wanted = [] if text is None else [text, mark]
        if not first.startswith(f"{folder / 'file'}:{head}") or shown != wanted:
            yield f"{line} of {data[:40]}: {first}, {shown}, and not {head}, {wanted}"
    (folder / "a b.txt").write_text("0\n1g\n")
    first, text, mark, *_ = explain.explained(f"refused U3 {folder}/a b.txt 2", ["simulate", "k.v", "run.json"])
    if (first, text, mark) != (f"{folder}/a b.txt:2:1: refused U3", "  1g", "  ^^"):
        yield f"U3 of a name with a blank: {first}, {text}, {mark}"


# Words and files that aren't as they should be


def wrong_odd(folder):
    odd = [[""], ["refused"], ["refused "], ["refused Z9"], ["done after 3 edges"], ["refused S3"]]
    odd += [["refused S3 x", "check"]]
    odd += [["refused S3 4", "check"], ["refused S3 4", "check", str(folder)], ["refused S3 4", "other", "a", "b"]]
    odd += [["refused S3 " + "9" * 40, "check", str(TOOL)], ["refused Q1 " + "9" * 40, "check", "a", "b", str(TOOL)]]
    odd += [[b"refused T2 \xff\x1b[2J\nx", "check", "a", "b"], ["refused F1 \udcff"]]
    odd += [["refused U2 a\nb", "simulate", "a", "/dev/zero"]]
    odd = [["1", *words] for words in odd] + [[], [""], ["x", ""], ["0", "unguarded", "expect"], ["0", "guarded\nunbalanced link 0 dry 0\n", "expect"]]
    odd += [[str(status), "", *words] for status in range(3, 7) for words in ([], ["other"], ["simulate"], ["expect", "a", "b", "c", str(folder)])]
    os.mkfifo(folder / "pipe")
    odd += [[status, "", "simulate", str(TOOL), str(folder / "pipe")] for status in "346"] + [["1", "refused U2 a", "simulate", "a", "/dev/zero"]]
    odd += [["6", "not done after 3 edges\n", "simulate", str(TOOL), str(TOOL)]]
    for words in odd:
        ran = subprocess.run([TOOL, *words], capture_output=True, cwd=folder, timeout=20)
        if ran.returncode or ran.stdout or b"Traceback" in ran.stderr or b"\x1b" in ran.stderr:
            yield f"{words}: status {ran.returncode}, {ran.stdout + ran.stderr}"
    alone = explain.explained("refused S3 0", COMMAND, folder / "no page")
    if alone != ["k.maxj: refused S3"]:
        yield f"without the page: {alone}"


def main():
    found = list(wrong_rows())
    for wrong in (wrong_places, wrong_odd):
        with tempfile.TemporaryDirectory() as folder:
            found += wrong(pathlib.Path(folder))
    for line in found:
        print(line)
    codes = {code_of(head) for head, *_ in rows()}
    print(f"check_explain: {len(codes)} codes in {len(list(rows()))} rows, {len(PLACES)} places, {len(found)} wrong")
    return 1 if found else 0


if __name__ == "__main__":
    sys.exit(main())
