# shellcheck shell=bash disable=SC2154
# Sourced by the scripts of this folder.

# The C files of a program.
sources_of() { # PROGRAM
  local name files
  case $1 in
    hostile) files="hostile judge ranked rules host lend" ;;
    spans | books | plan | takings | readers) files="$1 tables rules host lend" ;;
    cut | joincut) files="$1 groups tables rules host lend" ;;
    *) files=$1 ;;
  esac
  for name in $files; do
    echo "$here/$name.c"
  done
}
