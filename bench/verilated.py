"""The program that Verilator builds of a text with the kernel `K`, the input `x` and the output `y` of at most 32 bits, and
processor times of runs."""
import resource
import subprocess

MAIN = """#include <cstdio>
#include <cstdlib>
#include <vector>
#include "Vtop.h"
#include "verilated.h"
int main(int argc, char** argv) {
  Verilated::randReset(0);
  Vtop top;
  long edges = atol(argv[1]), ticks = atol(argv[2]), edge = 0;
  FILE* in = fopen("x.txt", "r");
  FILE* out = fopen("theirs.txt", "w");
  std::vector<char> line(64);
  auto idle = [&] {
    top.reset = 0; top.hold__024K = 0;
    top.in__024x__024data = 0; top.in__024x__024valid = 0; top.out__024y__024ready = 0;
  };
  top.ticks__024K = ticks;
  auto tick = [&] { top.clk = 1; top.eval(); top.clk = 0; };
  idle(); top.clk = 0; top.reset = 1; top.eval(); tick();
  bool waits = false, done = false; unsigned word = 0;
  for (;; edge++) {
    idle(); top.eval();
    done = top.done;
    if (done || edge == edges) break;
    if (!waits && fgets(line.data(), 64, in)) { word = strtoul(line.data(), nullptr, 16); waits = true; }
    if (waits) { top.in__024x__024valid = 1; top.in__024x__024data = word; }
    top.out__024y__024ready = 1;
    top.eval();
    if (top.in__024x__024valid && top.in__024x__024ready) waits = false;
    if (top.out__024y__024valid && top.out__024y__024ready) fprintf(out, "%08x\\n", top.out__024y__024data);
    tick();
  }
  fclose(out);
  printf("%sdone after %ld edges\\n", done ? "" : "not ", edge);
  return 0;
}
"""


def build(work):
    """Builds the program of `text.v` in the folder; the words that run it, to which the most edges and the ticks are added."""
    (work / "main.cpp").write_text(MAIN)
    words = ["verilator", "--cc", "--exe", "--build", "-O3", "-CFLAGS", "-O3", "-Wno-fatal", "-Wno-lint", "--prefix", "Vtop"]
    words += ["--top-module", "top$project", "--x-initial", "0", "text.v", "main.cpp"]
    subprocess.run(words, cwd=work, check=True, capture_output=True)
    return [str(work / "obj_dir/Vtop")]


def spent():
    """The processor seconds of all processes that were run from here and have ended."""
    used = resource.getrusage(resource.RUSAGE_CHILDREN)
    return used.ru_utime + used.ru_stime


def timed(words, work):
    """The processor seconds of a run, and what it says."""
    before = spent()
    said = subprocess.run([str(word) for word in words], cwd=work, capture_output=True, text=True).stdout
    return spent() - before, said


def best_of(words, work, tries=3):
    """The least processor seconds of some runs."""
    return min(timed(words, work)[0] for _ in range(tries))


def numbers(path):
    """The words of a file."""
    return [int(word, 16) for word in path.read_text().split()]
