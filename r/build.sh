#!/bin/sh
# Builds the R package ttmr as a tar file: copies the sample, and writes the help pages and NAMESPACE by roxygen2.
# usage: r/build.sh [--check] FOLDER
#   FOLDER    where ttmr_VERSION.tar.gz is written
#   --check   ends with status 1 if help pages or NAMESPACE of the clone differ from what roxygen2 writes; without it,
#             they are replaced
# Needs R with roxygen2 and the packages of DESCRIPTION. The sample is that of ttm-tools; ttmr/data-raw/sample.py wrote
# it.
set -eu
here=$(cd "$(dirname "$0")" && pwd)
check=
if [ "${1:-}" = --check ]; then
    check=yes
    shift
fi
[ $# -eq 1 ] || { sed -n '3,6s/^# //p' "$0" >&2; exit 2; }
mkdir -p "$1"
out=$(cd "$1" && pwd)
room=$(mktemp -d)
trap 'rm -rf "$room"' EXIT
trap 'exit 1' HUP INT TERM

cp -r "$here/ttmr" "$room/ttmr"
rm -rf "$room/ttmr/inst/extdata/town"
mkdir -p "$room/ttmr/inst/extdata"
cp -r "$here/../tools/src/ttm_tools/data/town" "$room/ttmr/inst/extdata/town"
# A page of a function that is gone would stay.
rm -rf "$room/ttmr/man"
Rscript -e 'roxygen2::roxygenise(commandArgs(TRUE)[1])' "$room/ttmr" > "$room/log" 2>&1 \
    || { cat "$room/log" >&2; exit 1; }
if [ -n "$check" ]; then
    for name in man NAMESPACE; do
        diff -r "$here/ttmr/$name" "$room/ttmr/$name" \
            || { echo "r/ttmr/$name isn't what roxygen2 writes: run r/build.sh" >&2; exit 1; }
    done
else
    rm -rf "$here/ttmr/man"
    cp -r "$room/ttmr/man" "$room/ttmr/NAMESPACE" "$here/ttmr"
    mkdir -p "$here/ttmr/inst/extdata"
    rm -rf "$here/ttmr/inst/extdata/town"
    cp -r "$room/ttmr/inst/extdata/town" "$here/ttmr/inst/extdata/town"
fi
cd "$room"
R CMD build ttmr > log 2>&1 || { cat log >&2; exit 1; }
for file in ttmr_*.tar.gz; do
    cp "$file" "$out/new" && mv "$out/new" "$out/$file"
    echo "$out/$file"
done
