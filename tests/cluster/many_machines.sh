#!/bin/sh
# Computes a study of a feed whole, in parts by GNU parallel (here, and over ssh), and in parts by a Slurm job array, and compares the bytes. One part fails at
# first, or is lost, and is computed again, as docs/howto/cluster.md says. FOLDER has a scenario file cut.csv, and footpaths.csv and opportunities.csv where --walk
# and access shall mean something. Hosts are this machine by two names: an ssh server on a port of its own is started and ended where there is one.
# Three minutes on the feed of a town: Slurm lets a task that is begun again wait for two.
# usage: tests/cluster/many_machines.sh FOLDER        (after `rt run` in crates/ttm; as root; Debian: apt-get install python3-numpy parallel slurm-wlm openssh-server)
set -eu
[ $# -eq 1 ] || { echo "usage: $0 FOLDER" >&2; exit 2; }
. "$(dirname "$0")/room.sh"
feed=$(cd "$1" && pwd)
cd "$room"
export PATH="$here/crates/ttm/out:$PATH"
study="--feed $feed --date 20260504 --from 08:00 --to 08:09 --trips 4 --walk 600 --share 50 --within 1800 --tries 1 --workers 1"
for file in footpaths opportunities; do
    [ ! -f "$feed/$file.csv" ] || study="$study --$file $feed/$file.csv"
done
study="$study $feed/cut.csv"
join() {
    "$here/tools/ttm-tools" join --origins parts/origins.csv --out joined.csv parts/matrix_part_*.csv
}
same() {
    join
    cmp whole.csv joined.csv
    echo "$1: the same $(wc -c < joined.csv) bytes"
    rm -f joined.csv parts/matrix_* parts/log
}

"$here/tools/ttm-tools" split --feed "$feed" --parts 7 --out parts
ttm $study > whole.csv

# The line of the recipe, on this machine; the third part can't be computed at first.
cat > one_part.sh <<END
#!/bin/sh
ttm $study --origins "\$1" > "parts/matrix_\${1##*/}.new" && mv "parts/matrix_\${1##*/}.new" "parts/matrix_\${1##*/}"
END
chmod +x one_part.sh
cp parts/part_0003.csv kept.csv
echo nowhere >> parts/part_0003.csv
if parallel --joblog parts/log --resume-failed ./one_part.sh {} ::: parts/part_*.csv || join; then
    echo "a part that can't be computed wasn't missed" >&2
    exit 1
fi
cp kept.csv parts/part_0003.csv
parallel --joblog parts/log --resume-failed ./one_part.sh {} ::: parts/part_*.csv
[ "$(cut -f 7,9 parts/log | grep -c '^0.*part_0003')" = 1 ] && [ "$(wc -l < parts/log)" = 9 ] || { cat parts/log; exit 1; }
same "GNU parallel on one machine, one part begun again"

# The same over hosts that share the folder.
if [ -x /usr/sbin/sshd ]; then
    two_hosts 22022
    parallel --ssh "ssh -F $room/ssh_config" --sshlogin 2/one,2/two --workdir "$room" --env PATH --joblog parts/log --resume-failed ./one_part.sh {} ::: parts/part_*.csv
    cut -f 2 parts/log | sort | uniq -c
    same "GNU parallel over two hosts"
else
    echo "GNU parallel over hosts: not run, there is no ssh server"
fi

# A Slurm job array; the third part's matrix is lost, and its task begun again.
cat > parts.sbatch <<END
#!/bin/sh
#SBATCH --array=1-7 --requeue --cpus-per-task=1 --output=parts/output_%a.txt
./one_part.sh "parts/part_\$(printf '%04d' "\$SLURM_ARRAY_TASK_ID").csv"
END
cat > array.sh <<'END'
#!/bin/sh
set -eu
sbatch --wait parts.sbatch
rm parts/matrix_part_0003.csv
scontrol requeue 1_3
until [ -f parts/matrix_part_0003.csv ]; do sleep 1; done
END
"$here/tests/cluster/one_node_slurm.sh" timeout 600 sh array.sh
same "a Slurm job array, one task begun again"
