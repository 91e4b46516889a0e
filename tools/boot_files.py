"""The files of boot/: the program, packed, and the checksums that say what it was built of.

The program is kept as what of it is loaded when it runs: its headers and segments. Names of functions, notes for debuggers and the
table of sections aren't part of that, and are left out.
"""
import gzip
import hashlib
import pathlib
import struct
import subprocess

TOP = pathlib.Path(__file__).resolve().parent.parent
BOOT = TOP / "boot"
BUILT = TOP / "crates/maxjc/out/maxjc"
PARTS = ("maxjc.gz", "sources.sha256", "toolchain")
LOADED = 1  # the kind of a segment that is loaded
SECTIONS = 0x28, 0x3A  # where a header of 64 bits has the place of the table of sections, and its entries


class NoProgram(Exception):
    """What isn't an executable file of 64 bits."""


def loaded_part(program):
    """The bytes of an executable file that are loaded, with a header that names no sections."""
    if program[:6] != b"\x7fELF\x02\x01":
        raise NoProgram("it is no executable file of 64 bits for Linux")
    (headers,) = struct.unpack_from("<Q", program, 0x20)
    size, count = struct.unpack_from("<HH", program, 0x36)
    end = headers + size * count
    for at in range(headers, end, size):
        kind, _, offset, _, _, length = struct.unpack_from("<IIQQQQ", program, at)
        if kind == LOADED:
            end = max(end, offset + length)
    kept = bytearray(program[:end])
    place, entries = SECTIONS
    struct.pack_into("<Q", kept, place, 0)
    struct.pack_into("<HHH", kept, entries, 0, 0, 0)
    return bytes(kept)


def sources_now():
    """The checksums of the sources of this checkout."""
    return subprocess.run([TOP / "tools/program.sh", "sources"], capture_output=True, check=True).stdout


def toolchain_now():
    """The identity of the toolchain that is installed here, or nothing."""
    try:
        return subprocess.run(["rt", "version"], capture_output=True, check=True).stdout
    except (OSError, subprocess.CalledProcessError):
        return b""


def digest(data):
    return hashlib.sha256(data).hexdigest()


def sums(parts, program):
    """The text of SHA256SUMS."""
    lines = [f"{digest(parts[name])}  {name}\n" for name in PARTS]
    return "".join([*lines, f"{digest(program)}  maxjc\n"]).encode()


def write(program, sources, toolchain, folder=BOOT):
    """Writes the files of boot/ for a program that was built of these sources by this toolchain."""
    program = loaded_part(program)
    parts = {"maxjc.gz": gzip.compress(program, 9, mtime=0), "sources.sha256": sources, "toolchain": toolchain}
    folder.mkdir(exist_ok=True)
    for name, data in parts.items():
        (folder / name).write_bytes(data)
    (folder / "SHA256SUMS").write_bytes(sums(parts, program))
    return len(program), len(parts["maxjc.gz"])


def read(folder=BOOT):
    """The program, the checksums of its sources and the identity of its toolchain, or None where boot/ isn't there. What fails
    its own checksums raises an error."""
    if not (folder / "SHA256SUMS").exists():
        return None
    parts = {name: (folder / name).read_bytes() for name in PARTS}
    program = gzip.decompress(parts["maxjc.gz"])
    if sums(parts, program) != (folder / "SHA256SUMS").read_bytes():
        raise NoProgram("boot/ doesn't have the checksums that boot/SHA256SUMS says")
    return program, parts["sources.sha256"], parts["toolchain"]
