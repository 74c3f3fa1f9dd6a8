# shellcheck shell=bash disable=SC2154
# Sourced by the scripts of this repository: the one way to end with a reason, to ask for what is needed, to run a step of a
# check, and to report what cannot be tested here.

# The name that a script reports under: its path in the repository, as hosttest/check.
me=$(cd "$(dirname "$0")" && pwd)/$(basename "$0")
me=${me#"$(cd "$(dirname "${BASH_SOURCE[0]}")/../.." && pwd)"/}

# Ends the script with one line on standard error and status 2: it cannot be done here.
die() {
  echo "$me: $*" >&2
  exit 2
}

# Ends the script unless each of these commands is on the path.
need() {
  local command
  for command in "$@"; do
    has "$command" || die "there is no $command on the path"
  done
}

# Whether all of these commands are on the path.
has() {
  local command
  for command in "$@"; do
    command -v "$command" >/dev/null 2>&1 || return 1
  done
}

# Reports what is not tested, and why. The line is printed, and kept in the file that ROWKEEPER_UNTESTED names, from which
# ./test and the gate list all of them at the end.
untested() {
  echo "not tested: $1: $2"
  [ -z "${ROWKEEPER_UNTESTED:-}" ] || echo "$1: $2" >>"$ROWKEEPER_UNTESTED"
}

# Runs a step of a check: its name, then the command. Prints its last line and its seconds, or all that it printed if it
# fails; `failed` is then 1.
failed=0
step() {
  local name=$1 start=$SECONDS said status=0
  shift
  said=$("$@" 2>&1) || status=$?
  if [ "$status" -eq 0 ]; then
    echo "ok   $name: $(printf '%s\n' "$said" | tail -1) ($((SECONDS - start)) s)"
  else
    printf '%s\n' "$said"
    echo "FAIL $name"
    failed=1
  fi
}

# Ends a check: its last line says whether all steps passed.
finish() {
  if [ "$failed" -eq 0 ]; then
    echo "$me: all tests pass"
  else
    echo "$me: a test failed"
  fi
  exit "$failed"
}

# Seconds as minutes and seconds.
clock() { printf '%d:%02d' $(($1 / 60)) $(($1 % 60)); }

# Whether a command that cannot be done says so in one line, with status 2: a step for bad arguments and missing tools.
one_line() {
  local said status=0
  said=$("$@" 2>&1 </dev/null) || status=$?
  [ "$status" -eq 2 ] && [ -n "$said" ] && [ "$(printf '%s\n' "$said" | wc -l)" -eq 1 ] && return 0
  echo "$*: status $status, $said"
  return 1
}

# Fills a folder with links to a shell's everyday tools, to be a path on which there is neither kit, compiler, Python nor cargo.
bare_path() {
  local tool
  mkdir -p "$1"
  for tool in bash env dirname basename find grep tail realpath mkdir cat sed; do
    ln -sf "$(command -v "$tool")" "$1/$tool"
  done
}

# Compiles C sources with the address and undefined-behaviour sanitizers, links them with the library, and prints the program's
# path: where it goes, then the sources. Status 2 with one line if it cannot be built here, 1 if it does not build.
build_c() {
  local out=$1 archive compiler
  shift
  read -ra compiler <<<"${CC:-cc}"
  need "${compiler[0]}" python3
  archive=$("$root/tools/library") || exit 2
  mkdir -p "$(dirname "$out")"
  # shellcheck disable=SC2086
  "${compiler[@]}" -std=c99 -D_GNU_SOURCE -O1 -g -Wall -Wextra -Werror -fsanitize=address,undefined -fno-sanitize-recover=all \
    -I"$root/include" "$@" "$archive" ${LDLIBS:-} -o "$out" || exit 1
  echo "$out"
}
