#!/usr/bin/env bash
# Which program the launcher runs. It goes by checksums alone, never by the times of files:
#
# - the program that was proved and built here, where the sources are still those that it was built of;
# - else the one of boot/, where its own checksums are right, the sources are those that it was built of, and the toolchain,
#   where one is installed here, is the one that built it;
# - else none: it has to be proved and built.
#
# What decides the program's bytes is the code of its crates (crates/NAME/src/**/*.rt), their lines in crates.txt, and the
# toolchain. Definitions and proofs say what is proved of the program, and leave no trace in it.
#
#     tools/program.sh             the path of the program that is ready to run here; status 1 where there is none
#     tools/program.sh sources     the checksums of the sources
#     . tools/program.sh           for the launcher, tools/prove and .ci/run
top="$(dirname "$(dirname "$(readlink -f "${BASH_SOURCE[0]}")")")"
boot="$top/boot"
kept="$top/build/program" # proved/ and boot/: a program with the checksums that it goes by
failed=70                 # the launcher's own status, for what isn't the program's

tell() { printf 'maxjc: %s\n' "$*" >&2; }

# The program's crates, the program last.
crates_in_order() {
  awk '
    { sub(/#.*/, ""); at = index($0, ":"); name = $1; sub(/:.*/, "", name) }
    at { uses[name] = substr($0, at + 1) }
    function visit(name, list, count, i) {
      if (!(name in uses) || name in seen) return
      seen[name] = 1
      count = split(uses[name], list, " ")
      for (i = 1; i <= count; i++) visit(list[i])
      print name
    }
    END { visit("maxjc") }' "$top/crates.txt"
}

digest() { sha256sum -- "$@" | cut -d ' ' -f 1; }

# A line for each file that decides the program's bytes: its checksum and its path. The lines of crates.txt count as one file.
sources_listing() {
  local names folders
  mapfile -t names < <(crates_in_order)
  folders=("${names[@]/#/crates/}")
  printf '%s  crates.txt\n' "$(grep -E "^($(IFS='|' && echo "${names[*]}"))[ :]" "$top/crates.txt" | digest)"
  cd "$top" && find "${folders[@]/%//src}" -type f -name '*.rt' -print0 | LC_ALL=C sort -z | xargs -0 sha256sum --
}

# The toolchain's identity, or nothing where none is installed.
toolchain() { command -v rt >/dev/null && rt version 2>/dev/null </dev/null; }

# Keeps a program that was proved and built here, with the checksums of the sources that it was built of.
keep_program() {
  local file="$1" listing="$2" folder="$kept/proved"
  mkdir -p "$folder" && cp -- "$file" "$folder/maxjc.$$" && chmod +x "$folder/maxjc.$$" || return 1
  printf '%s\n' "$listing" >"$folder/sources.$$" && digest "$folder/maxjc.$$" >"$folder/own.$$" || return 1
  mv -f "$folder/maxjc.$$" "$folder/maxjc" && mv -f "$folder/own.$$" "$folder/maxjc.sha256" &&
    mv -f "$folder/sources.$$" "$folder/sources.sha256"
}

# Whether a program was proved and built here of the sources that are there.
is_proved() {
  local folder="$kept/proved"
  [ -x "$folder/maxjc" ] && cmp -s "$folder/sources.sha256" - <<<"$1" && [ "$(digest "$folder/maxjc")" = "$(cat "$folder/maxjc.sha256")" ]
}

# The first source of a listing that another one has otherwise, or that only one of them has.
first_other() { LC_ALL=C comm -3 <(LC_ALL=C sort <<<"$1") <(LC_ALL=C sort "$2") | awk '{ print $2 }' | LC_ALL=C sort | head -n 1; }

# The text that boot/SHA256SUMS has where no byte of boot/ was changed.
boot_sums() {
  cd "$boot" && sha256sum -- maxjc.gz sources.sha256 toolchain && printf '%s  maxjc\n' "$(gzip -dc maxjc.gz 2>/dev/null | digest)"
}

# Why the program of boot/ isn't run here; nothing where it may be.
why_no_boot() {
  local listing="$1" here="$2" built part
  [ -e "$boot/SHA256SUMS" ] || { echo "there is no boot/ in this checkout"; return; }
  for part in maxjc.gz sources.sha256 toolchain; do
    [ -f "$boot/$part" ] || { echo "boot/$part is missing"; return; }
  done
  if ! cmp -s <(boot_sums 2>/dev/null) "$boot/SHA256SUMS"; then
    part="$(comm -3 <(boot_sums 2>/dev/null | LC_ALL=C sort) <(LC_ALL=C sort "$boot/SHA256SUMS") 2>/dev/null | awk 'NR == 1 { print $2 }')"
    echo "boot/ was changed: boot/${part:-SHA256SUMS} doesn't have the checksum that boot/SHA256SUMS says"
    return
  fi
  if ! cmp -s "$boot/sources.sha256" - <<<"$listing"; then
    echo "boot/ was built of other sources: $(first_other "$listing" "$boot/sources.sha256") differs"
    return
  fi
  built="$(cat "$boot/toolchain")"
  [ -z "$here" ] || [ "$here" = "$built" ] || { echo "boot/ was built by $built, and the toolchain here is $here"; return; }
  [ "$(uname -s) $(uname -m)" = "Linux x86_64" ] || echo "boot/ is for Linux on x86-64, and this is $(uname -s) on $(uname -m)"
}

# Unpacks the program of boot/ to where it is kept, and says so, where that wasn't done yet. Sets `program`, or fails.
unpack_boot() {
  local folder="$kept/boot" wanted new
  wanted="$(awk '$2 == "maxjc" { print $1 }' "$boot/SHA256SUMS")"
  program="$folder/maxjc"
  [ -x "$program" ] && [ "$(digest "$program")" = "$wanted" ] && return
  new="$folder/maxjc.$$"
  if ! mkdir -p "$folder" 2>/dev/null || ! { : >"$new"; } 2>/dev/null; then # a checkout that can't be written
    scratch="$(mktemp -d)" && new="$scratch/new" program="$scratch/maxjc" || return 1
  fi
  gzip -dc "$boot/maxjc.gz" >"$new" && chmod +x "$new" || { rm -f "$new"; return 1; }
  "$new" >/dev/null 2>&1 </dev/null # no command: the usage line and status 2
  [ "$?" -eq 2 ] || { rm -f "$new"; return 1; }
  mv -f "$new" "$program" || return 1
  [ "${MAXJC_EXPLAIN-}" = 0 ] || tell "running the program of boot/, built of these sources by $(cat "$boot/toolchain"); tools/prove proves and builds it here"
}

# Sets `program` to the one that is ready to run here; where none is, fails and sets `why`.
find_program() {
  local listing tool
  for tool in sha256sum gzip awk; do
    command -v "$tool" >/dev/null || { why="the launcher needs $tool, which isn't installed here"; return 1; }
  done
  listing="$(sources_listing)"
  scratch="" why="" program="$kept/proved/maxjc"
  is_proved "$listing" && return
  why="$(why_no_boot "$listing" "$(toolchain)")"
  [ -z "$why" ] || return 1
  unpack_boot || { why="the program of boot/ doesn't run on this machine"; return 1; }
}

if [ "${BASH_SOURCE[0]}" = "$0" ]; then
  set -u
  [ "${1-}" != sources ] || { sources_listing; exit; }
  MAXJC_EXPLAIN=0 find_program || { tell "$why"; exit 1; }
  printf '%s\n' "$program"
fi
