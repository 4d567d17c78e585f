#!/bin/sh
# compare.sh RATEMAP SEED COUNT
# Runs an executable on COUNT fresh cases and reports how many outputs differ.
set -e
if [ $# -ne 3 ]; then
    echo "compare.sh RATEMAP SEED COUNT" >&2
    exit 2
fi
here=$(cd "$(dirname "$0")" && pwd)
program=$(realpath "$1")
(cd "$here" && cargo build --release --offline --quiet)
exec nice -n 10 "$here/target/release/compare" "$program" "$2" "$3" "$here/kept"
