#!/bin/sh
# Makes a study of a town on this machine, by GNU parallel (here, and over ssh), and by a Slurm array of which a task is
# killed and begun again and whose own command is killed and given again, and compares the bytes with those of one run
# of ttm. Three minutes: Slurm lets a task that is begun again wait for two.
# usage: tests/cluster/study_elsewhere.sh [PROGRAM]
#   PROGRAM  a built ttm; crates/ttm/out/ttm by default
# As root; Debian: apt-get install python3-numpy python3-pandas python3-h5py python3-matplotlib parallel slurm-wlm
#          openssh-server
set -eu
. "$(dirname "$0")/room.sh"
program=$(realpath "${1:-$here/crates/ttm/out/ttm}")
cd "$room"
PATH=/usr/bin:$PATH # the Python that has Debian's packages
export PATH
python3 "$here/bench/feedgen.py" town made > log
mkdir feed
for file in calendar calendar_dates routes stop_times stops transfers trips; do
    cp "made/$file.txt" feed
done
printf 'action,id,seconds\nremove_route,L0013,\n' > no13.csv
cat > study.toml <<'END'
[feed]
files = ["feed"]
ready = true
[run]
date = 2026-05-04
from = "08:00"
to = "08:09"
[scenarios]
files = ["no13.csv"]
[results]
csv = true
maps = false
page = false
[parts]
count = 7
END
# ttm as it is, but slow enough that a task can be killed
printf '#!/bin/sh\ncase "$*" in *parts/*) sleep 4 ;; esac\nexec %s "$@"\n' "$program" > slow
chmod +x slow
export TTM_PROGRAM="$program"
study() {
    "$here/tools/ttm-tools" study study.toml "$@"
}
same() {
    cmp whole.csv "$1/matrix.csv"
    cmp here/matrix.omx "$1/matrix.omx"
    echo "$2: the same $(wc -c < whole.csv) bytes as CSV, $(wc -c < here/matrix.omx) as OMX"
}

study --out here --workers 2 2> log || { cat log; exit 1; }
(cd here && sed -n 's/^    ttm \(--feed .*\)/\1/p' report.md | xargs "$program") > whole.csv
same here "on this machine"

study --out parallel --hosts 2/: 2> log || { cat log parallel/parts/hosts.txt; exit 1; }
same parallel "GNU parallel on this machine"

if [ -x /usr/sbin/sshd ]; then
    two_hosts 22023
    study --out hosts --hosts 2/one,2/two --option "ssh=ssh -F $room/ssh_config" 2> log || { cat log; exit 1; }
    same hosts "GNU parallel over two hosts"
else
    echo "GNU parallel over hosts: not run, there is no ssh server"
fi

# An array; the command is killed while its tasks run, task 3 is begun again, and the same command waits for all.
cat > array.sh <<'END'
#!/bin/sh
set -eu
setsid sh -c 'exec "$0" study study.toml --out slurm --slurm --option job-name=town' "$TOOLS" 2> log &
command=$!
until squeue --noheader --states=RUNNING | grep -q .; do sleep 0.2; done
job=$(cat slurm/parts/job)
until squeue --noheader --states=RUNNING --array | grep -q "${job}_3 "; do sleep 0.1; done
kill -KILL "-$command"
wait "$command" || true
[ ! -f slurm/parts/0003/key ] || { echo "part 3 was done too early" >&2; exit 1; }
scontrol requeue "${job}_3"
"$TOOLS" study study.toml --out slurm --slurm 2> log || { cat log >&2; exit 1; }
grep -q "job $job of this study goes on" log || { cat log >&2; exit 1; }
END
TOOLS="$here/tools/ttm-tools" TTM_PROGRAM="$room/slow" "$here/tests/cluster/one_node_slurm.sh" timeout 600 sh array.sh
same slurm "a Slurm array, a task killed and begun again, its command killed and given again"
