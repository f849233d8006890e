#!/bin/sh
# Installs the Debian packages of build.sh into a room of their own, runs the worked example of README there, and removes
# the packages again, which must leave none of their files.
# usage: packaging/try.sh [--room debian|dpkg|analysts] DEB ..
#   debian    a Debian 12 that mmdebstrap or debootstrap makes: needs root and a mirror; its address may stand in MIRROR
#   dpkg      an empty folder for `dpkg --root`, with this machine's libraries, and without the package of the tools,
#             whose maintainer scripts need a system of their own: needs root
#   analysts  a Debian 12 where apt installs the packages with all that the tools need (some minutes); the commands of
#             the pages below run there, and print what the pages say
# By default debian if that can be had, else dpkg. Status 0: all is right; 1: something isn't; 75: there is no room.
set -eu
umask 022
export LC_ALL=C.UTF-8 PATH="$PATH:/usr/sbin:/sbin" DEBIAN_FRONTEND=noninteractive
NO_ROOM=75
SECONDS_FOR_A_ROOM=900
# in the order in which their commands run; tests/cluster/many_machines.sh runs those of howto/cluster.md
PAGES="tutorial howto/export howto/r5py howto/feed howto/plans reference/plan-file howto/measures howto/points howto/study"
here=$(cd "$(dirname "$0")/.." && pwd)
kind=
if [ "${1:-}" = --room ]; then
    kind=$2
    shift 2
fi
[ $# -ge 1 ] || { sed -n '4,10s/^# //p' "$0" >&2; exit 2; }
[ "$(id -u)" = 0 ] || { echo "$0: only root can set up a room" >&2; exit $NO_ROOM; }
room=$(mktemp -d)
# debootstrap that is cut off may leave what it mounted
trap 'umount "$room/debian/proc" "$room/debian/sys" 2> /dev/null || true; rm -rf --one-file-system "$room"' EXIT
trap 'exit 1' HUP INT TERM

make_debian() {
    echo "neither mmdebstrap nor debootstrap is here" > "$room/log"
    # mmdebstrap takes a third of the processor time
    for maker in mmdebstrap debootstrap; do
        command -v $maker > /dev/null || continue
        rm -rf --one-file-system "$room/debian"
        mkdir "$room/debian"
        # shellcheck disable=SC2086
        timeout $SECONDS_FOR_A_ROOM $maker --variant=minbase --include=python3-minimal,libpython3-stdlib \
            bookworm "$room/debian" ${MIRROR:-} > "$room/log" 2>&1 && return
    done
    return 1
}
make_dpkg() {
    mkdir -p "$room/dpkg/var/lib/dpkg/info" "$room/dpkg/var/lib/dpkg/updates" "$room/dpkg/var/log"
    touch "$room/dpkg/var/lib/dpkg/status"
}
case $kind in
    debian | analysts) make_debian || { tail -n 3 "$room/log" >&2 || true; exit $NO_ROOM; } ;;
    dpkg) make_dpkg ;;
    '') if make_debian; then kind=debian; else kind=dpkg; make_dpkg; fi ;;
    *) echo "$0: no such room: $kind" >&2; exit 2 ;;
esac
inside=$room/$kind
if [ "$kind" = analysts ]; then
    inside=$room/debian
    python3 "$here/bench/feedgen.py" town "$room/made" > "$room/log"
    mkdir "$inside/study"
    feed="calendar.txt calendar_dates.txt routes.txt stop_times.txt stops.txt transfers.txt trips.txt"
    # shellcheck disable=SC2086
    (cd "$room/made" && python3 -m zipfile -c "$inside/study/town.zip" $feed)
    cp "$room/made/opportunities.csv" "$inside/study/jobs.csv"
    cp "$@" "$here/packaging/pages.py" "$inside/tmp"
    mkdir "$inside/study/made"
    cp "$room/made/"* "$inside/study/made/"
    cp /etc/resolv.conf "$inside/etc/resolv.conf"
    suggested="python3-matplotlib python3-h5py python3-geopandas python3-jinja2 python3-flask libjs-leaflet"
    suggested="$suggested python3-pyosmium"
    chroot "$inside" sh -c "apt-get update -q && apt-get install -q -y unzip zip $suggested /tmp/*.deb" > "$room/log" 2>&1 \
        || { tail "$room/log" >&2; exit 1; }
    # bash hands files over by /dev/fd, as a machine has it
    mount -t proc proc "$inside/proc"
    [ -e "$inside/dev/fd" ] || ln -s /proc/self/fd "$inside/dev/fd"
    # shellcheck disable=SC2086
    paths=$(printf '/usr/share/doc/ttm/docs/%s.md ' $PAGES)
    chroot "$inside" sh -c "cd /study && python3 /tmp/pages.py $paths" || exit 1
    echo "the commands of the pages ran in a Debian of their own, and printed what the pages say"
    exit
fi
packages=
for deb; do
    package=$(dpkg-deb --field "$deb" Package)
    [ $kind = dpkg ] && [ "$package" = python3-ttm-tools ] || { packages="$packages $package"; cp "$deb" "$room"; }
done
# what the packages depend on is left out: it takes minutes to download
if [ "$kind" = debian ]; then
    cp "$room"/*.deb "$inside/tmp"
    install_them() { chroot "$inside" sh -c 'dpkg --force-depends --install /tmp/*.deb'; }
    # shellcheck disable=SC2086
    remove_them() { chroot "$inside" dpkg --force-depends --purge $packages; }
    run_it() { chroot "$inside" "$@"; }
else
    in_room="dpkg --root=$inside --log=$inside/var/log/dpkg.log --force-depends --force-script-chrootless"
    install_them() { $in_room --install "$room"/*.deb; }
    # shellcheck disable=SC2086
    remove_them() { $in_room --purge $packages; }
    run_it() { PATH="$inside/usr/bin:$PATH" "$@"; }
fi

awk '/^    \$ crates\/ttm\/out\/ttm$/ { on = 1; next } on && /^    / { print substr($0, 5); next } on { exit }' \
    "$here/README.md" > "$room/wanted"
[ -s "$room/wanted" ] || { echo "README.md: no worked example" >&2; exit 1; }
find "$inside" -xdev -path "$inside/var" -prune -o -print | sort > "$room/before"
install_them > "$room/log" 2>&1 || { cat "$room/log" >&2; exit 1; }
run_it ttm > "$room/made"
cmp "$room/wanted" "$room/made"
run_it ttm --help > "$room/help"
grep -q '^Usage: ' "$room/help"
if run_it python3 --version > /dev/null 2>&1 && [ -e "$inside/usr/bin/ttm-tools" ]; then
    run_it ttm-tools --help > "$room/help"
    grep -q '^usage: ttm-tools ' "$room/help"
    run_it ttm-tools --version
fi
remove_them > "$room/log" 2>&1 || { cat "$room/log" >&2; exit 1; }
find "$inside" -xdev -path "$inside/var" -prune -o -print | sort > "$room/after"
left=$(comm -13 "$room/before" "$room/after" | grep ttm || true)
[ -z "$left" ] || { echo "left behind: $left" >&2; exit 1; }
echo "installed in a room of $kind, gave the worked example, and was removed"
