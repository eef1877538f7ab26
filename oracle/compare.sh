#!/bin/sh
# Builds the oracle and compares a drive with it: compare.sh DRIVE [EXTENT [KINDS [SEED [WITHOUT]]]]
# DRIVE is a program that answers the line script from its standard input.
# EXTENT is a number of lines, or a time: 90s, 60m.
set -eu
[ $# -ge 1 ] || { sed -n 2,4p "$0" >&2; exit 2; }
here=$(cd "$(dirname "$0")" && pwd)
case $1 in
    /*) drive=$1 ;;
    *) drive=$PWD/$1 ;;
esac
case ${2:-1000000} in
    *m) extent="--minutes ${2%m}" ;;
    *s) extent="--seconds ${2%s}" ;;
    *) extent="--lines ${2:-1000000}" ;;
esac
cargo build --release --offline --quiet --manifest-path "$here/Cargo.toml"
exec "$here/target/release/oracle" compare --drive "exec '$drive' 2> /dev/null" \
    $extent --kinds "${3:-all}" --seed "${4:-1}" \
    --without "${5:-}" --keep "$here/target/differs.script"
