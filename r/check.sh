#!/bin/sh
# Checks the R package ttmr: its help pages are those of roxygen2, R CMD check reports no error and no warning, and all
# examples and tests run. With a program, the vignette and the page docs/howto/r.md run, too.
# usage: r/check.sh [--write] [PROGRAM]
#   PROGRAM   the built ttm; without it, examples and tests that need it are skipped
#   --write   replaces the help pages, the vignette's results and the page's picture by what is written here
# The exit status is 1 if there is an error or a warning. Asks no server for an index of packages.
set -eu
here=$(cd "$(dirname "$0")" && pwd)
check=--check
if [ "${1:-}" = --write ]; then
    check=
    shift
fi
[ $# -le 1 ] || { sed -n '4,6s/^# //p' "$0" >&2; exit 2; }
program=
[ $# -eq 0 ] || program=$(realpath "$1")
room=$(mktemp -d)
trap 'rm -rf "$room"' EXIT
trap 'exit 1' HUP INT TERM
mkdir -p "$room/repository/src/contrib" "$room/bin"
: > "$room/repository/src/contrib/PACKAGES"
printf 'options(repos = "file://%s/repository")\n' "$room" > "$room/profile"
printf '#!/bin/sh\nexec /usr/bin/python3 "%s/../tools/ttm-tools" "$@"\n' "$here" > "$room/bin/ttm-tools"
chmod 755 "$room/bin/ttm-tools"
export R_PROFILE_USER="$room/profile" TTM_TOOLS="${TTM_TOOLS:-$room/bin/ttm-tools}" TTM_CACHE="$room/cache" \
    TTM_PROGRAM="${program:-$room/no-program}" _R_CHECK_FORCE_SUGGESTS_=false LC_ALL=C.UTF-8

# shellcheck disable=SC2086
"$here/build.sh" $check "$room"
cd "$room"
status=0
R CMD check --no-manual ttmr_*.tar.gz > log 2>&1 || status=$?
grep -E -A 12 '\.\.\. (NOTE|WARNING|ERROR)|^Status:' log || true
if [ "$status" -ne 0 ] || grep -q '\.\.\. WARNING' log; then
    tail -n 40 log
    find ttmr.Rcheck/tests -name '*.Rout.fail' -exec tail -n 60 {} +
    exit 1
fi
grep '^\[ FAIL' ttmr.Rcheck/tests/testthat.Rout | tail -n 1
[ -n "$program" ] || exit 0

# The vignette, whose results are in the repository: a reader without an engine sees them.
export R_LIBS="$room/ttmr.Rcheck"
mkdir page
cp "$here/ttmr/vignettes/coming-from-r5r.Rmd.orig" page
cd page
Rscript -e 'invisible(knitr::knit("coming-from-r5r.Rmd.orig", "coming-from-r5r.Rmd", quiet = TRUE))'
sed -n '/^```r$/,/^```$/{/^```/d;p}' "$here/../docs/howto/r.md" > page.R
Rscript page.R > page.log 2>&1 || { cat page.log; exit 1; }
[ -s r.png ] || { echo "docs/howto/r.md draws no r.png"; exit 1; }
if [ -z "$check" ]; then
    cp coming-from-r5r.Rmd r5r-*.png "$here/ttmr/vignettes"
    cp r.png "$here/../docs/images/r.png"
fi
diff coming-from-r5r.Rmd "$here/ttmr/vignettes/coming-from-r5r.Rmd" \
    || { echo "the vignette has other results: run r/check.sh --write PROGRAM"; exit 1; }
echo "the vignette and docs/howto/r.md ran"
