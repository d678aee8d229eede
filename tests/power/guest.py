"""The guest of the power cuts: Debian's kernel under qemu, and an initramfs of busybox, the program and the C library."""
import glob
import lzma
import os
import re
import shutil
import stat
import subprocess

APPLETS = "cat cut grep insmod ls md5sum mkdir mount rm rmmod sed sh sleep sync tr umount".split()
MEGABYTES = {"ext4": 64, "xfs": 320, "btrfs": 160}
MAKES = {
    "ext4": ["mkfs.ext4", "-q"],
    "xfs": ["mkfs.xfs", "-q"],
    "btrfs": ["mkfs.btrfs", "-q"],
}

# With beside=yes another process syncs all the time, so that what an update has done until then is on the disk, and the rest isn't.
# Each disk is looked at, and updated if something was left beside its database. The last one stays mounted, and is updated until the
# power is cut. Text files are in memory, so that an update's own calls are all that writes to the disk.
INIT = """#!/bin/sh
mount -t proc none /proc
mount -t devtmpfs none /dev
for module in {modules}; do insmod /modules/$module; done
beside() {{ ls -A /mnt/etc/udev | grep -vx 'hwdb.bin' | grep -vx 'hwdb.d' | tr '\\n' ' '; }}
last=$(sed 's/.*last=\\([a-z]*\\).*/\\1/' /proc/cmdline)
i=$(sed 's/.*next=\\([0-9]*\\).*/\\1/' /proc/cmdline)
mkdir /text
cp /seed.hwdb /text/20-seed.hwdb
said() {{ echo "cut:*" >/text/99-cut.hwdb; echo " K=$1" >>/text/99-cut.hwdb; }}
look() {{
    key=$(hwdb -r /mnt query cut:here 2>&1 | tr '\\n ' '  ')
    sum=$(md5sum /mnt/etc/udev/hwdb.bin 2>&1 | cut -c 1-32)
    hwdb verify /mnt/etc/udev/hwdb.bin >/dev/null 2>&1 && whole=yes || whole=no
    echo "@SEEN disk=$1 whole=$whole sum=$sum left=[$(beside)] key=[$key]"
}}
for disk in a b c d e f g h; do
    [ -e /dev/vd$disk ] || break
    if ! mount -t {system} /dev/vd$disk /mnt; then
        echo "@UNMOUNTED disk=$disk"
        [ $disk = $last ] && echo "@READY" && exec sleep 100000
        continue
    fi
    if [ -d /mnt/etc/udev/hwdb.d ]; then
        mount -o bind /text /mnt/etc/udev/hwdb.d
        look $disk
        if [ -n "$(beside)" ] && said $i && hwdb -r /mnt update; then echo "@THEN disk=$disk left=[$(beside)]"; fi
    else
        mkdir -p /mnt/etc/udev/hwdb.d
        mount -o bind /text /mnt/etc/udev/hwdb.d
        said 0
        hwdb -r /mnt update && sync
    fi
    [ $disk = $last ] && break
    umount /mnt/etc/udev/hwdb.d
    umount /mnt
    {anew}
done
echo "@READY"
case $(cat /proc/cmdline) in *beside=yes*) while :; do sync; done & ;; esac
while :; do
    said $i
    echo "@BEGIN $i"
    hwdb -r /mnt update && echo "@DONE $i"
    i=$((i + 1))
done
"""


def run(*words, **more):
    done = subprocess.run(words, stdin=subprocess.DEVNULL, capture_output=True, text=True, **more)
    if done.returncode:
        raise SystemExit("%s: %s" % (" ".join(words), done.stderr[-1000:] or done.stdout[-1000:]))
    return done.stdout


def copied(path, root):
    place = root + path
    os.makedirs(os.path.dirname(place), exist_ok=True)
    shutil.copy(path, place)


class Guest:
    """What the guest of a file system is started with, in a folder. `kernel` is an unpacked kernel package."""

    def __init__(self, folder, kernel, program, system, seed):
        self.folder, self.system = folder, system
        (self.kernel,) = glob.glob(kernel + "/boot/vmlinuz-*")
        self.image = folder + "/image"
        root = folder + "/root"
        for name in ("bin", "modules", "mnt", "proc", "dev"):
            os.makedirs(os.path.join(root, name))
        shutil.copy("/bin/busybox", root + "/bin/busybox")
        for applet in APPLETS + ["cp"]:
            os.symlink("busybox", root + "/bin/" + applet)
        shutil.copy(program, root + "/bin/hwdb")
        for library in re.findall(r"(/\S+) \(0x", run("ldd", program)):
            copied(library, root)
        shutil.copy(seed, root + "/seed.hwdb")
        modules = self.modules(kernel, root)
        # A btrfs is known by an identity that all copies share, until its module goes.
        anew = "rmmod btrfs; insmod /modules/btrfs.ko" if "btrfs.ko" in modules else ":"
        with open(root + "/init", "w", encoding="utf-8") as file:
            file.write(INIT.format(modules=" ".join(modules), system=system, anew=anew))
        os.chmod(root + "/init", 0o755)
        self.pack(root)
        with open(self.image, "wb") as file:
            file.truncate(MEGABYTES[system] << 20)
        run(*MAKES[system], self.image)

    def modules(self, kernel, root):
        """Copies the modules that are needed into the root. Their names, in the order to load them in."""
        release = os.path.basename(self.kernel).removeprefix("vmlinuz-")
        if not os.path.exists("%s/lib/modules/%s/modules.dep" % (kernel, release)):
            run("depmod", "-b", kernel, release)
        names = []
        for wanted in ("virtio_pci", "virtio_blk", "crc32c_generic", self.system):
            for path in re.findall(r"^insmod (\S+)", run("modprobe", "-d", kernel, "-S", release, "--show-depends", wanted), re.M):
                name = os.path.basename(path).removesuffix(".xz")
                if name not in names:
                    names.append(name)
                    with (lzma.open if path.endswith(".xz") else open)(path, "rb") as module, open(root + "/modules/" + name, "wb") as to:
                        shutil.copyfileobj(module, to)
        return names

    def pack(self, root):
        """Makes the initramfs: the folder as an archive of the kernel's format."""
        with open(self.folder + "/initramfs", "wb") as archive:
            made = subprocess.Popen(["cpio", "--quiet", "-o", "-H", "newc"], cwd=root, stdin=subprocess.PIPE, stdout=archive, text=True)
            for place, folders, names in os.walk(root):
                for name in [*folders, *names]:
                    made.stdin.write(os.path.relpath(os.path.join(place, name), root) + "\n")
            made.stdin.close()
            if made.wait():
                raise SystemExit("cpio failed")

    def start(self, socket, disks, following, is_beside):
        """Starts it over so many disks of the server at this socket. Its console is the standard output."""
        last = "abcdefgh"[disks - 1]
        words = ["qemu-system-x86_64", "-nodefaults", "-display", "none", "-serial", "stdio", "-no-reboot", "-accel", "tcg", "-cpu", "Nehalem"]
        words += ["-m", "384", "-kernel", self.kernel, "-initrd", self.folder + "/initramfs"]
        words += ["-append", "console=ttyS0 quiet panic=-1 mitigations=off nokaslr no_timer_check tsc=reliable last=%s next=%d beside=%s" % (
            last, following, "yes" if is_beside else "no")]
        for number in range(disks):
            drive = "driver=raw,file.driver=nbd,file.server.type=unix,file.server.path=%s,file.export=%d,if=virtio,cache.direct=on"
            words += ["-drive", drive % (socket, number)]
        return subprocess.Popen(words, stdin=subprocess.DEVNULL, stdout=subprocess.PIPE, stderr=subprocess.STDOUT)
