#!/bin/sh
# Puts eds under a prefix, or takes it away again.
#
#   ./install.sh PREFIX
#   ./install.sh --remove PREFIX
#
# PREFIX/libexec/eds/installed lists what was put there, and the folders that were made for it. What an earlier version
# put there goes first.
set -eu
umask 022
here=$(CDPATH='' cd -- "$(dirname -- "$0")" && pwd)

remove() {
  [ -f "$list" ] || return 0
  # the list has a folder before what is in it, so its lines are taken from the last one on
  names=$(sed '1!G;h;$!d' "$list")
  rm -f -- "$list"
  printf '%s\n' "$names" | while IFS= read -r name; do
    case $name in
      */) rmdir -- "$prefix/$name" 2>/dev/null || true ;;
      *) rm -f -- "$prefix/$name" ;;
    esac
  done
}

add() {
  cd "$here"
  find bin lib libexec share 2>/dev/null | LC_ALL=C sort | while IFS= read -r name; do
    if [ -d "$name" ] && [ ! -L "$name" ]; then
      [ -d "$prefix/$name" ] || { mkdir -- "$prefix/$name" && echo "$name/"; }
    else
      rm -f -- "$prefix/$name" && cp -P -- "$name" "$prefix/$name" && echo "$name"
    fi || exit 1
  done
}

does=add
if [ "${1-}" = --remove ]; then
  does=remove
  shift
fi
if [ $# != 1 ] || [ -z "$1" ]; then
  echo "usage: install.sh PREFIX, or install.sh --remove PREFIX" >&2
  exit 2
fi
[ "$does" = remove ] || mkdir -p -- "$1"
prefix=$(CDPATH='' cd -- "$1" && pwd)
list=$prefix/libexec/eds/installed
remove
if [ "$does" = add ]; then
  names=$(add)
  printf '%s\n' "$names" >"$list"
fi
