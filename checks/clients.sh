#!/usr/bin/env bash
# Tries clients that know nothing of witnesses against nfsacc serve: libtirpc's, with stubs that rpcgen makes of
# checks/clients/nfs.x, and rpcinfo. Where tshark is there, it must find each call and each reply of the first in what went
# over the wire, and no malformed packet. What isn't installed is said, and passed over.
set -euo pipefail
cd "$(dirname "$0")/.."
. checks/scratch_crate.sh
. checks/built_programs.sh

for tool in rpcgen cc; do
    command -v $tool > /dev/null || { echo "skipped: $tool is not installed (rpcsvc-proto, gcc)"; exit 0; }
done
[ -e /usr/include/tirpc/rpc/rpc.h ] || { echo 'skipped: libtirpc is not installed (libtirpc-dev)'; exit 0; }

built_programs
folder=$(mktemp -d)
trap 'rm -rf "$folder"' EXIT
cp checks/clients/nfs.x checks/clients/client.c "$folder"
cd "$folder"
rpcgen -h -o nfs.h nfs.x
rpcgen -c -o nfs_xdr.c nfs.x
rpcgen -l -o nfs_clnt.c nfs.x
cc -w -O1 -I/usr/include/tirpc -o client client.c nfs_xdr.c nfs_clnt.c -ltirpc

# serves COUNT begins a run of the program: its number is in `server`, its port in `port`.
serves() {
    "$program" serve 0 "$1" --server-height 6 --client-height 4 > lines 2> said &
    server=$!
    for _ in $(seq 600); do
        [ -s lines ] && break
        sleep 0.1
    done
    port=$(sed -n 's/^listening //p' lines)
}

# ends COUNT waits for the end of the run, in which everybody was trusted.
ends() {
    local node
    wait "$server"
    { echo "listening $port"; for node in $(seq $(($1 + 1))); do echo "$node trusted 0"; done; } | cmp -s - lines ||
        fail 'it printed' lines said
    [ ! -s said ] || fail 'it said' said
}

# packets FILTER counts the packets on the wire that tshark finds to be so.
packets() {
    tshark -r wire.pcap -d "tcp.port==$port,rpc" -Y "$1" 2> /dev/null | wc -l
}

# A mount, and calls, by a client of libtirpc.
check_tirpc() {
    local watcher=
    serves 2
    if command -v tshark > /dev/null; then
        tshark -i lo -w wire.pcap -f "tcp port $port" 2> /dev/null &
        watcher=$!
        sleep 3
    fi
    ./client "$port" > listed
    printf '1 .\n1 ..\n2 hello\n3 tirpc\n' | cmp -s - listed || fail 'the client listed' listed
    ends 2
    echo 'a client of libtirpc mounts, writes, reads, lists and removes; everybody is trusted'
    if [ -n "$watcher" ]; then check_wire "$watcher"; else echo 'skipped: tshark is not installed'; fi
}

# What went over the wire, by tshark: eight calls and their replies.
check_wire() {
    sleep 2
    kill "$1"
    wait "$1" || true
    [ "$(packets _ws.malformed)" -eq 0 ] || fail "tshark finds $(packets _ws.malformed) malformed packets"
    [ "$(packets 'rpc.msgtyp == 0')" -eq 8 ] || fail "tshark finds $(packets 'rpc.msgtyp == 0') calls"
    [ "$(packets 'rpc.msgtyp == 1 && rpc.state_accept == 0')" -eq 8 ] || fail 'tshark finds other replies'
    [ "$(packets 'nfs || mount')" -eq 16 ] || fail "tshark finds $(packets 'nfs || mount') packets of NFS and MOUNT"
    echo 'tshark finds eight calls and eight replies in it, and no malformed packet'
}

# asks STATUS LINE PROGRAM VERSION has rpcinfo ask for a version of a program, and wants this status and line.
asks() {
    local got=0
    rpcinfo -a "127.0.0.1.$((port / 256)).$((port % 256))" -T tcp "$3" "$4" > asked 2> why || got=$?
    [ "$got" -eq "$1" ] && grep -qx "$2" asked why || fail "rpcinfo says of program $3, version $4" asked why
}

# The versions that are served, by rpcinfo.
check_rpcinfo() {
    command -v rpcinfo > /dev/null || { echo 'skipped: rpcinfo is not installed (rpcbind)'; return; }
    serves 5
    asks 0 'program 100003 version 2 ready and waiting' 100003 2
    asks 0 'program 100005 version 1 ready and waiting' 100005 1
    asks 1 'rpcinfo: RPC: Program/version mismatch; low version = 2, high version = 2' 100003 3
    asks 1 'rpcinfo: RPC: Program/version mismatch; low version = 1, high version = 1' 100005 3
    asks 1 'rpcinfo: RPC: Program unavailable' 100021 1
    ends 5
    echo 'rpcinfo finds version 2 of NFS and version 1 of MOUNT, and no others'
}

for program in "${made[@]}"; do
    check_tirpc
    check_rpcinfo
done
