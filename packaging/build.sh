#!/bin/sh
# Builds packages of a proved program, the tools and the documentation: three for Debian (ttm, python3-ttm-tools and
# ttm-doc), a tar file with the files of all three, a wheel for pip, and the plugin for QGIS as a zip file. The same
# commit and program give the same bytes.
# The documentation is written to FOLDER/html, too, where ttm-tools docs of a clone finds it.
# usage: packaging/build.sh [--out FOLDER] [PROGRAM]
#   FOLDER   where they are written; packaging/out by default
#   PROGRAM  a proved build: crates/ttm/out/ttm by default, which `rt run` proves and builds if it does not exist
# Needs the packages that debian/control lists as Build-Depends, dpkg-dev, and git (or SOURCE_DATE_EPOCH in the
# environment if there is no clone).
set -eu
umask 022
here=$(cd "$(dirname "$0")/.." && pwd)
out=$here/packaging/out
if [ "${1:-}" = --out ]; then
    mkdir -p "$2"
    out=$(cd "$2" && pwd)
    shift 2
fi
[ $# -le 1 ] || { sed -n '6,8s/^# //p' "$0" >&2; exit 2; }
program=${1:-$here/crates/ttm/out/ttm}
[ $# -eq 1 ] || [ -x "$program" ] || (cd "$here/crates/ttm" && rt run > /dev/null)
program=$(realpath "$program")
toolchain=$(rt version 2> /dev/null || echo "a toolchain that isn't on this machine")
room=$(mktemp -d)
trap 'rm -rf "$room"' EXIT
trap 'exit 1' HUP INT TERM

# What is built: the version, the commit and its time. Another Python than Debian's, first on the PATH, breaks pybuild.
export LC_ALL=C.UTF-8 TZ=UTC PATH=/usr/sbin:/usr/bin:/sbin:/bin PYTHONDONTWRITEBYTECODE=1 DEB_BUILD_OPTIONS="nocheck nostrip"
version=$(sed -n 's/^__version__ = "\(.*\)"/\1/p' "$here/tools/src/ttm_tools/__init__.py")
commit=$(git -C "$here" rev-parse HEAD 2> /dev/null || echo unknown)
[ -z "$(git -C "$here" status --porcelain 2> /dev/null)" ] || commit="$commit, with changes"
SOURCE_DATE_EPOCH=${SOURCE_DATE_EPOCH:-$(git -C "$here" log -1 --format=%ct)}
export SOURCE_DATE_EPOCH
full=$version+git$(date -d "@$SOURCE_DATE_EPOCH" +%Y%m%d%H%M%S).$(echo "$commit" | cut -c 1-7)

# The sources: what the packages contain or are built from, the program, and the sample of the tutorial.
source=$room/ttm-$version
data=$source/tools/src/ttm_tools/data
mkdir -p "$source/engine" "$data/sample" "$room/tar"
cd "$here"
tar --exclude=__pycache__ --exclude='*.egg-info' --exclude=build -cf - ./*.md docs tools bench/*.md \
    | tar -C "$source" --no-same-owner -xf -
cp -r packaging/debian "$source/debian"
cp README.md "$source/tools"
python3 bench/feedgen.py town "$room/made" > /dev/null
cp "$room/made/opportunities.csv" "$data/sample/jobs.csv"
cd "$room/made"
touch -d 2000-01-01 ./*.txt
python3 -m zipfile -c "$data/sample/town.zip" calendar.txt calendar_dates.txt routes.txt stop_times.txt stops.txt \
    transfers.txt trips.txt
cd "$source"
install -m 755 "$program" engine/ttm
strip --strip-unneeded engine/ttm
{
    engine/ttm --version
    echo "proved with $toolchain"
    echo "commit $commit"
    echo "sha256 of the program $(sha256sum < "$program" | cut -d ' ' -f 1)"
    echo "sha256 of the packaged program, without its symbols $(sha256sum < engine/ttm | cut -d ' ' -f 1)"
} > engine/PROVED
printf 'ttm (%s) unstable; urgency=medium\n\n  * Commit %.48s.\n    CHANGELOG.md says what changed.\n\n -- %s  %s\n' \
    "$full" "$commit" "$(sed -n 's/^Maintainer: //p' debian/control)" "$(date -R -d "@$SOURCE_DATE_EPOCH")" \
    > debian/changelog
find . -exec touch -h -d "@$SOURCE_DATE_EPOCH" {} +

# The Debian packages, and the tar file. Its ttm-tools runs from any folder, and its pages have no links out of it.
dpkg-buildpackage --build=binary --no-sign > "$room/log" 2>&1 || { tail -n 30 "$room/log" >&2; exit 1; }
for package in "$room"/*.deb; do dpkg-deb --extract "$package" "$room/tar"; done
install -m 755 "$here/packaging/ttm-tools" "$room/tar/usr/bin/ttm-tools"
cp -r --remove-destination _build/html "$room/tar/usr/share/doc/ttm"
tarred=$room/ttm-$version-linux-$(dpkg --print-architecture).tar
tar -C "$room/tar" --sort=name --mtime="@$SOURCE_DATE_EPOCH" --owner=0 --group=0 --numeric-owner \
    --transform "s,^usr,ttm-$version," -cf "$tarred" usr
gzip -9n "$tarred"

# The wheel, which has the documentation, too.
cp engine/PROVED "$data"
cp -r _build/html "$data/html"
rm -rf tools/build tools/.pybuild tools/src/*.egg-info
TTM_ENGINE=$source/engine/ttm python3 -m build --wheel --no-isolation --outdir "$room" tools > "$room/log" 2>&1 \
    || { tail -n 30 "$room/log" >&2; exit 1; }

# The plugin for QGIS.
python3 "$here/packaging/plugin.py" "$room" > /dev/null

# Each gets its name when it is complete.
mkdir -p "$out"
rm -rf "$out/html"
cp -r _build/html "$out/html"
for file in "$room"/ttm_*.deb "$room"/python3-ttm-tools_*.deb "$room"/ttm-doc_*.deb "$tarred.gz" "$room"/*.whl \
    "$room"/ttm_processing-*.zip; do
    cp "$file" "$out/new" && mv "$out/new" "$out/$(basename "$file")"
    echo "$out/$(basename "$file")"
done
