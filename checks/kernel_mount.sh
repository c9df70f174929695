#!/usr/bin/env bash
# A kernel's mount through `nfsacc gateway`, in a virtual machine: the kernel of this machine's Debian with busybox
# works in a folder of the mount as a user does (checks/kernel/init), and in its middle the way between gateway and
# server is cut for ten seconds, for which the work waits. Prints the lines of the machine. What isn't installed is
# said, and passed over.
#
#     checks/kernel_mount.sh [PROGRAM [FOLDER]]    a program; a folder that keeps the kernel for the next time
#
# Needs qemu-system-x86, busybox-static and cpio; the kernel's package is fetched and not installed.
set -euo pipefail
cd "$(dirname "$0")/.."
. checks/scratch_crate.sh
. checks/built_programs.sh

while read -r tool package; do
    command -v "$tool" > /dev/null || { echo "skipped: $tool is not installed ($package)"; exit 0; }
done << 'END'
qemu-system-x86_64 qemu-system-x86
busybox busybox-static
cpio cpio
apt-get apt
dpkg-deb dpkg
END
if ldd "$(command -v busybox)" > /dev/null 2>&1; then
    echo 'skipped: busybox is not a static one (busybox-static)'
    exit 0
fi

if [ $# -ge 1 ]; then made=("$(realpath "$1")"); else built_programs; fi
top=$PWD
folder=$(mktemp -d)
trap 'rm -rf "$folder"' EXIT
kernel=${2:-$folder/kernel}
modules=(e1000 sunrpc grace lockd netfs fscache nfs nfsv2)

# The kernel's package without its installation: its image, and the modules of a mount over the network.
fetch_kernel() {
    local package patterns=("${modules[@]/#/*/}")
    mkdir -p "$folder/packages"
    cd "$folder/packages"
    apt-get download linux-image-amd64 > said 2>&1 || return
    package=$(dpkg-deb -f linux-image-amd64_*.deb Depends | sed 's/ .*//')
    apt-get download "$package" > said 2>&1 || return
    mkdir -p "$kernel"
    dpkg-deb --fsys-tarfile "$package"_*.deb |
        tar -x -C "$kernel" --wildcards './boot/vmlinuz-*' "${patterns[@]/%/.ko}"
    cd "$top"
}

# The files of the virtual machine, as the kernel takes them in the beginning.
make_files() {
    local root=$folder/root module
    mkdir -p "$root"/{bin,modules,proc,dev,mnt,src/inner}
    cp "$(command -v busybox)" "$root/bin/"
    cp checks/kernel/init "$root/"
    for module in "${modules[@]}"; do find "$kernel" -name "$module.ko" -exec cp {} "$root/modules/" \;; done
    seq 4000 > "$root/src/numbers"
    head -c 100000 /dev/urandom > "$root/src/bytes"
    : > "$root/src/empty"
    cp docs/{FORMATS,HOSTS,KEYS,LIMITS,WIRE}.md "$root/src/inner/"
    (cd "$root" && find . | cpio --quiet -o -H newc | gzip -1) > "$folder/files"
}

[ -e "$kernel/boot" ] || fetch_kernel || { echo "skipped: no package linux-image-amd64 can be fetched"; exit 0; }
make_files
for program in "${made[@]}"; do
    python3 checks/kernel/run.py "$program" "$kernel"/boot/vmlinuz-* "$folder/files"
done
