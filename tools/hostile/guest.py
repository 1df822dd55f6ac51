"""A small virtual machine for `tools/hostile/power`: Debian's kernel, busybox, one program with its libraries, and a disk on a socket.

The kernel and busybox come as Debian's packages, by apt-get, and are unpacked, not installed. No device has a driver but the disk and
the serial console, on which the machine tells what it does, a line each. The file systems are those of FORMATS; what formats the disk is
of the packages e2fsprogs, xfsprogs and btrfs-progs.
"""
import pathlib
import re
import subprocess

KERNEL = "linux-image-cloud-amd64"  # the package that names the newest kernel of its kind: small, with ext4 built in
MODULES = ["virtio/virtio_ring", "virtio/virtio", "virtio/virtio_pci_legacy_dev", "virtio/virtio_pci_modern_dev",
           "virtio/virtio_pci", "block/virtio_blk"]
SIZE = 128 << 20  # bytes of the disk
# How a file system is made, with the options that it has by itself, but for room for many small files.
FORMATS = {"ext4": ["mke2fs", "-q", "-t", "ext4", "-b", "4096", "-i", "4096", "-E", "lazy_itable_init=0,lazy_journal_init=0"],
           "xfs": ["mkfs.xfs", "-q", "--unsupported"], "btrfs": ["mkfs.btrfs", "-q", "-M"]}

# What the machine does. The kernel hands on `MODULES`, `SYSTEM`, `READS` and `PUTS` from its command line: the reads and the puts, each
# word with two numbers behind it, all joined by commas. The puts run beside one another, up to a word `wait`.
INIT = """#!/bin/busybox sh
for it in mount insmod mkdir sync sleep poweroff dmesg tail; do /bin/busybox ln -s busybox /bin/$it; done
export PATH=/bin
mount -t devtmpfs dev /dev
mount -t proc proc /proc
IFS=,
for it in $MODULES; do insmod /modules/$it.ko; done
mount -t $SYSTEM /dev/vda /mnt || { dmesg | tail -n 4; echo not mounted; sleep 1000; }
set -- $READS
while [ $# -gt 2 ]; do
  /bin/program $1 /mnt/cache $2 $3
  shift 3
done
mkdir -p /mnt/cache
sync
echo begun
set -- $PUTS
while [ $# -gt 0 ]; do
  case $1 in
    wait) wait; shift;;
    *) /bin/program $1 /mnt/cache $2 $3 & shift 3;;
  esac
done
wait
echo done
sleep 1000
"""


def fetched(name, folder):
    """The folder with what is in a package of Debian, which is got where it isn't there."""
    there = folder / name
    if not there.is_dir():
        got = subprocess.run(["apt-get", "download", name], cwd=folder, capture_output=True, text=True)
        debs = sorted(folder.glob(f"{name}_*.deb"))
        if not debs:
            raise SystemExit(f"power: no package {name}: {got.stderr.strip()}")
        subprocess.run(["dpkg-deb", "-x", debs[-1], there], check=True)
    return there


def kernel_name():
    """The name of the package with the newest kernel."""
    shown = subprocess.run(["apt-cache", "show", "--no-all-versions", KERNEL], capture_output=True, text=True).stdout
    found = re.search(r"(?m)^Depends:.*?(linux-image-[^ ,]+)", shown)
    if not found:
        raise SystemExit(f"power: no package {KERNEL}: run apt-get update first")
    return found[1]


def libraries(program):
    """The libraries that a program is linked with, by their paths."""
    said = subprocess.run(["ldd", program], capture_output=True, text=True).stdout
    return re.findall(r"(?m)^\s(?:\S+ => )?(/\S+)", said)


def archive(files, folders):
    """An archive of cpio's form `newc`, with these files (bytes by paths), the folders above them, and these empty folders."""
    above = {str(it) for name in files for it in pathlib.PurePath(name).parents} - {"."}
    out = bytearray()
    named = [*((it, None) for it in sorted(above | set(folders))), *files.items(), ("TRAILER!!!", b"")]
    for number, (name, data) in enumerate(named):
        mode = 0o40755 if data is None else 0o100755
        fields = [number, mode, 0, 0, 1, 0, len(data or b""), 0, 0, 0, 0, len(name) + 1, 0]
        out += b"070701" + b"".join(b"%08x" % it for it in fields) + name.encode() + b"\0"
        out += b"\0" * (-len(out) % 4) + (data or b"")
        out += b"\0" * (-len(out) % 4)
    return bytes(out)


def modules(kernel, system):
    """The files of the drivers and of a file system, each behind those that it needs."""
    root = next(kernel.glob("lib/modules/*/kernel"))
    files = {it.stem.replace("-", "_"): it for it in root.rglob("*.ko")}
    found = [root / "drivers" / f"{it}.ko" for it in MODULES]

    def add(name):
        needed = re.search(rb"\0depends=([^\0]*)\0", files[name].read_bytes())[1].decode().split(",")
        for it in filter(None, needed):
            add(it.replace("-", "_"))
        found.extend([files[name]] if files[name] not in found else [])

    if system in files:  # ext4 is in the kernel itself
        add(system)
    return found


def empty_image(folder, system):
    """The bytes of an empty file system."""
    path = folder / "image"
    with open(path, "wb") as image:
        image.truncate(SIZE)
    subprocess.run([*FORMATS[system], path], check=True, stdout=subprocess.DEVNULL)
    return path.read_bytes()


class Guest:
    """A machine that isn't started. Packages are got into the first folder; the second one is for what is made for this machine."""

    def __init__(self, packages, folder, program, system="ext4"):
        kernel, busybox = (fetched(it, pathlib.Path(packages)) for it in (kernel_name(), "busybox-static"))
        self.kernel, self.start_files = next(kernel.glob("boot/vmlinuz-*")), folder / "initramfs"
        self.system, self.modules = system, modules(kernel, system)
        taken = {"bin/busybox": busybox / "bin/busybox", "bin/program": program}
        taken.update({f"modules/{it.name}": it for it in self.modules})
        taken.update({it[1:]: it for it in libraries(program)})
        files = {name: pathlib.Path(path).read_bytes() for name, path in taken.items()}
        self.start_files.write_bytes(archive({"init": INIT.encode(), **files}, ["dev", "mnt", "proc"]))

    def start(self, socket, reads, puts):
        """Starts the machine with its disk on this socket; its lines come on the process's output."""
        words = f"console=ttyS0 quiet mitigations=off random.trust_cpu=on panic=-1 SYSTEM={self.system} READS={reads} PUTS={puts}"
        words += f" MODULES={','.join(it.stem for it in self.modules)}"
        return subprocess.Popen(
            ["qemu-system-x86_64", "-accel", "tcg", "-cpu", "max", "-m", "256", "-nodefaults", "-no-user-config", "-no-reboot",
             "-display", "none", "-serial", "stdio", "-kernel", self.kernel, "-initrd", self.start_files, "-append", words,
             "-drive", f"file=nbd:unix:{socket},format=raw,if=virtio,cache=writeback"],
            stdin=subprocess.DEVNULL, stdout=subprocess.PIPE, stderr=subprocess.STDOUT)
