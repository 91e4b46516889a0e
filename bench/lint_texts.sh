#!/usr/bin/env bash
# Compiles every example and every kernel of bench/kernels that is compiled, by a table without latencies and by
# one with some, and hands the texts to the Verilog tools that are installed here: Icarus, Verilator and Yosys,
# of which none may warn. Small kernels are synthesized for iCE40 and Xilinx devices too. A tool that is missing
# is passed over.
set -u
if ! command -v iverilog >/dev/null && ! command -v verilator >/dev/null && ! command -v yosys >/dev/null; then
  echo "no Verilog tool is installed here, passed over"
  exit 0
fi
top="$(cd "$(dirname "${BASH_SOURCE[0]}")/.." && pwd)"
program="${MAXJC:-$top/maxjc}"
work="$(mktemp -d)"
trap 'rm -rf "$work"' EXIT
bad=0
small="Double Sum3 Ties" # kernels that are synthesized
compiled=0
say() { printf '%s\n' "$*"; }

# What Verilator may warn of: a rule, how its message begins, and why it is right in these texts.
cat >"$work/waivers.vlt" <<'END'
`verilator_config
// A text has several modules, so a file isn't named as each of them.
lint_off -rule DECLFILENAME
// The bits that a cast or a rounding leaves behind are read by nothing.
lint_off -rule UNUSEDSIGNAL -file "*" -match "Bits of signal are not used*"
// The word of a node that no output hangs on (as the product of a kernel that doesn't use it) is read by
// nothing: a kernel has all nodes that its source makes.
lint_off -rule UNUSEDSIGNAL -file "*" -match "Signal is not used*"
END

accepts() { # tool, text, command ..
  local tool="$1" text="$2"
  shift 2
  if ! command -v "$tool" >/dev/null 2>&1; then
    say "$tool: not installed, passed over"
    return
  fi
  if "$@" >"$work/log" 2>&1 && ! grep -qi 'warning' "$work/log"; then
    say "$tool: accepts $text"
  else
    say "$tool: refuses $text"
    cat "$work/log"
    bad=1
  fi
}

synthesizes() { # text, file: Yosys itself warns of cells of its own here
  command -v yosys >/dev/null 2>&1 || return
  for target in synth_ice40 synth_xilinx; do
    if yosys -q -p "read_verilog $2; $target -top top\$project; check -assert" >"$work/log" 2>&1; then
      say "yosys: $target of $1"
    else
      say "yosys: $target of $1 FAILED"
      cat "$work/log"
      bad=1
    fi
  done
}

for source in "$top"/examples/*/*.maxj "$top"/bench/kernels/*.maxj; do
  for table in zero pipelined; do
    file="$(basename "$source" .maxj)"
    text="$work/$file.v"
    said="$("$program" compile "$source" "$top/examples/tables/$table.json" "$text" "$work/report")"
    case "$said" in
      kernel\ *) ;;
      refused\ *)
        say "maxjc: $said, $file by $table.json"
        continue
        ;;
      *)
        say "maxjc: does not compile $file by $table.json: $said"
        bad=1
        continue
        ;;
    esac
    compiled=$((compiled + 1))
    name="$(echo "$said" | cut -d' ' -f2)"
    accepts iverilog "$file by $table.json" iverilog -g2005 -Wall -s 'top$project' -o "$work/$file.vvp" "$text"
    accepts verilator "$file by $table.json" verilator --lint-only -Wall --top-module 'top$project' "$work/waivers.vlt" "$text"
    accepts yosys "$file by $table.json" yosys -q -p "read_verilog $text; hierarchy -check -top top\$project; proc; check -assert"
    if [ "$table" = pipelined ] && [[ " $small " == *" $name "* ]]; then
      synthesizes "$file" "$text"
    fi
  done
done
if [ "$compiled" -eq 0 ]; then
  say "no kernel was compiled"
  bad=1
fi
say "$compiled texts: $([ $bad -eq 0 ] && echo "all accepted" || echo "NOT all accepted")"
exit $bad
