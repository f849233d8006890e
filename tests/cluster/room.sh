# Sourced by scripts that compute a study in several ways: a room that goes with the script, and two hosts that are this
# machine.
here=$(cd "$(dirname "$0")/../.." && pwd)
room=$(mktemp -d)
server=
end() {
    [ -z "$server" ] || kill "$server"
    rm -rf "$room"
}
trap end EXIT
trap 'exit 1' HUP INT TERM

# Starts an ssh server on a port of its own, and writes ssh_config with the hosts one and two.
two_hosts() {
    mkdir -p /run/sshd
    ssh-keygen -q -t ed25519 -N "" -f host_key
    ssh-keygen -q -t ed25519 -N "" -f key
    cp key.pub known
    chmod 700 "$room"
    printf 'Port %s\nListenAddress 127.0.0.1\nHostKey %s\nAuthorizedKeysFile %s\nPidFile none\nPermitRootLogin yes\nStrictModes no\nUsePAM no\n' \
        "$1" "$room/host_key" "$room/known" > sshd_config
    /usr/sbin/sshd -D -f "$room/sshd_config" 2> sshd.log &
    server=$!
    printf 'Host one two\n  HostName 127.0.0.1\n  Port %s\n  User root\n  IdentityFile %s\n  UserKnownHostsFile %s\n  StrictHostKeyChecking accept-new\n' \
        "$1" "$room/key" "$room/hosts" > ssh_config
}
