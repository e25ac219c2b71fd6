"""A root of its own for a test: an overlay over this machine's, of which nothing stays, and a loopback of its own. Wants root."""

import contextlib
import fcntl
import os
import pathlib
import shutil
import socket
import struct
import subprocess
import sys

TOP = pathlib.Path(__file__).resolve().parent.parent
PATH = "/usr/local/sbin:/usr/local/bin:/usr/sbin:/usr/bin:/sbin:/bin"


def again(script, *words, **how):
    """Runs a script once more, with these words, where its mounts and its network go with it."""
    return subprocess.run(["unshare", "--mount", "--net", "--propagation", "private", sys.executable, script, *map(str, words)], **how)


def mount(*words):
    subprocess.run(["mount", *map(str, words)], check=True)


def bring_up_loopback():
    with socket.socket(socket.AF_INET, socket.SOCK_DGRAM) as any_socket:
        interface = struct.pack("16sh14x", b"lo", 0x49)  # up, loopback, running
        fcntl.ioctl(any_socket, 0x8914, interface)  # SIOCSIFFLAGS


def enter(room):
    """Goes into the root, for which room is needed. scripts/systemctl stands in for systemd there."""
    bring_up_loopback()
    mount("-t", "tmpfs", "none", room)
    for it in "upper", "work", "root":
        (room / it).mkdir()
    mount("-t", "overlay", "-o", f"lowerdir=/,upperdir={room}/upper,workdir={room}/work", "overlay", room / "root")
    mount("-t", "proc", "proc", room / "root/proc")
    mount("--rbind", "/dev", room / "root/dev")
    mount("-t", "tmpfs", "none", room / "root/run")
    (room / "root/run/lock").mkdir()
    os.chroot(room / "root")
    os.chdir("/")
    os.environ["PATH"] = PATH
    for stand_in in "systemctl", "journalctl", "timedatectl":
        shutil.copy(TOP / "scripts/systemctl", f"/usr/local/bin/{stand_in}")
    # by this a package's scripts see that systemd runs
    pathlib.Path("/run/systemd/system").mkdir(parents=True)
    # a container may keep packages from starting anything
    with contextlib.suppress(FileNotFoundError):
        os.unlink("/usr/sbin/policy-rc.d")
