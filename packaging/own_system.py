"""A Debian 12 of its own for a test, with a real systemd as process 1 in namespaces: no network but loopback, and of its files nothing stays. Wants root.

The Debian is made once by debootstrap, with the packages that a test installs beside it in apt's cache, and kept; each system is an overlay over it.
"""

import contextlib
import os
import pathlib
import shutil
import signal
import subprocess
import sys
import time

TOP = pathlib.Path(__file__).resolve().parent.parent
PATH = "/usr/local/sbin:/usr/local/bin:/usr/sbin:/usr/bin:/sbin:/bin"
MIRROR = "http://deb.debian.org/debian"
# what a small Debian has, and what a test lets apt-get install from its cache
THERE = ("systemd-sysv", "dbus", "ca-certificates", "curl", "iproute2", "procps", "python3", "rsyslog", "openssl", "cron")
LATER = ("nginx", "apache2-utils", "jq", "nftables", "sqlite3", "logrotate", "adduser", "systemd-timesyncd", "man-db", "rsync")

# the first process of the namespaces: mounts what a container has, and becomes systemd
BEGIN = r"""
set -e
root=$1/root
mount --make-rprivate /
mount -t overlay -o "lowerdir=$2,upperdir=$1/upper,workdir=$1/work" overlay "$root"
mount -t proc proc "$root/proc"
# the kernel's settings are this machine's too
mount --bind "$root/proc/sys" "$root/proc/sys"
mount -o remount,bind,ro "$root/proc/sys"
mount -t sysfs -o ro sysfs "$root/sys"
mount -t cgroup2 cgroup2 "$root/sys/fs/cgroup"
mount -t tmpfs -o mode=755 tmpfs "$root/dev"
# nodes of its own: systemd changes the rights of some
for it in "null 1 3" "zero 1 5" "full 1 7" "random 1 8" "urandom 1 9" "tty 5 0"; do
    set -- "$1" "$2" $it
    mknod -m 666 "$root/dev/$3" c "$4" "$5"
done
mkdir "$root/dev/pts" "$root/dev/shm"
mount -t devpts -o newinstance,ptmxmode=0666,mode=620 devpts "$root/dev/pts"
mount -t tmpfs tmpfs "$root/dev/shm"
ln -s pts/ptmx "$root/dev/ptmx"
ln -s /proc/self/fd "$root/dev/fd"
touch "$root/dev/console"
mount --bind "$1/console" "$root/dev/console"
mount -t tmpfs -o mode=755 tmpfs "$root/run"
ip link set lo up
hostname try
mkdir -p "$root/old"
cd "$root"
pivot_root . old
umount -l /old
# neither this machine's clock nor its modules are the system's to set
exec env -i container=try PATH=/usr/sbin:/usr/bin:/sbin:/bin setpriv --bounding-set=-sys_time,-sys_module,-sys_rawio,-sys_boot \
    /lib/systemd/systemd --system systemd.unified_cgroup_hierarchy=1
"""


def run(*words, status=0, **how):
    """What a command prints on both outputs; it has to end with this status, if one is given."""
    done = subprocess.run([str(it) for it in words], stdin=subprocess.DEVNULL, stdout=subprocess.PIPE, stderr=subprocess.STDOUT, text=True, check=False, **how)
    if status is not None and done.returncode != status:
        sys.exit(f"WRONG: {' '.join(map(str, words))}: status {done.returncode}\n{done.stdout}")
    return done.stdout


def make_base(base):
    """A Debian 12 in this folder, if it is not there yet; some five minutes, and the only part that needs a network."""
    if (base / "made").exists():
        return
    # what an earlier run has begun goes; another folder is never touched
    if (base / "begun").exists():
        shutil.rmtree(base / "root", ignore_errors=True)
    elif base.exists() and any(base.iterdir()):
        sys.exit(f"{base} is not empty, and not of this script")
    base.mkdir(parents=True, exist_ok=True)
    (base / "begun").write_text("")
    print(f"debootstrap makes a Debian 12 in {base}", flush=True)
    run("debootstrap", "--variant=minbase", f"--include={','.join(THERE)}", "bookworm", base / "root", MIRROR)
    (base / "root/etc/apt/apt.conf.d/90try").write_text('APT::Get::Assume-Yes "true";\nAPT::Keep-Downloaded-Packages "true";\n')
    run("chroot", base / "root", "apt-get", "--download-only", "install", *LATER, env={"PATH": PATH, "DEBIAN_FRONTEND": "noninteractive"})
    (base / "made").write_text("")


def cgroups():
    """Where the kernel's one hierarchy of groups of processes is."""
    mounts = [it.split() for it in pathlib.Path("/proc/mounts").read_text().splitlines()]
    return pathlib.Path(next(it[1] for it in mounts if it[2] == "cgroup2"))


class System:
    """A running system over a base. It may be killed whole, as by a power cut, and begun again over what its disk has."""

    def __init__(self, base, room):
        self.base, self.room, self.pid = base / "root", pathlib.Path(room), 0
        for it in "upper", "work", "root":
            (self.room / it).mkdir()
        (self.room / "console").write_text("")
        self.group = cgroups() / f"try-system-{os.getpid()}"
        self.process = None

    def begin(self):
        self.group.mkdir(exist_ok=True)
        script = 'echo $$ >"$0/cgroup.procs"; shift 0; exec unshare --mount --uts --ipc --pid --net --cgroup --fork --kill-child bash -c "$1" begin "$2" "$3"'
        self.process = subprocess.Popen(["bash", "-c", script, self.group, BEGIN, self.room, self.base], stdin=subprocess.DEVNULL, stderr=subprocess.DEVNULL)
        until = time.monotonic() + 120
        state = ""
        while not state.startswith(("running", "degraded")):
            if time.monotonic() > until or self.process.poll() is not None:
                sys.exit(f"WRONG: systemd does not run after its start: {state} {(self.room / 'console').read_text()[-2000:]}")
            time.sleep(0.3)
            children = pathlib.Path(f"/proc/{self.process.pid}/task/{self.process.pid}/children").read_text().split()
            if children and pathlib.Path(f"/proc/{children[0]}/comm").read_text() == "systemd\n":
                self.pid = int(children[0])
                state = self.run("systemctl", "is-system-running", status=None)

    def kill(self):
        """All processes at once, without a word to any."""
        with contextlib.suppress(ProcessLookupError):
            os.kill(self.pid, signal.SIGKILL)
        self.process.wait()
        # the last process of the namespace has gone once the group is empty
        until = time.monotonic() + 30
        while (self.group / "cgroup.events").read_text().startswith("populated 1") and time.monotonic() < until:
            time.sleep(0.1)
        for folder, _, _ in os.walk(self.group, topdown=False):
            with contextlib.suppress(OSError):
                os.rmdir(folder)

    def words(self, *words, **settings):
        pairs = {"PATH": PATH, "HOME": "/root", "LC_ALL": "C.UTF-8", "DEBIAN_FRONTEND": "noninteractive"} | settings
        return ["nsenter", f"--target={self.pid}", "--mount", "--uts", "--ipc", "--pid", "--net", "--cgroup", "--root", "--",
                "env", "--chdir=/root", "-i", *(f"{key}={value}" for key, value in pairs.items()), *map(str, words)]

    def run(self, *words, status=0, **settings):
        return run(*self.words(*words, **settings), status=status)

    def file(self, path):
        """A file of the system, by its path there."""
        return pathlib.Path(f"/proc/{self.pid}/root") / str(path).lstrip("/")
