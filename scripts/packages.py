"""Debian's packages that scripts use."""
import fcntl
import os
import shutil
import subprocess
import sys
import tempfile

LOCK = f"{tempfile.gettempdir()}/nidzovu-packages.lock"


def say(text):
    """Tells the user, by the name of the script that runs."""
    print(f"{os.path.basename(sys.argv[0])}: {text}", file=sys.stderr)


def apt_get(*words):
    """Returns whether it succeeds. It waits for what another process installs."""
    command = ["apt-get", "-q", "-o", "DPkg::Lock::Timeout=300", *words]
    ran = subprocess.run(command, stdin=subprocess.DEVNULL, stdout=subprocess.DEVNULL, stderr=subprocess.DEVNULL, check=False)
    return ran.returncode == 0


def install(packages):
    """Installs packages where root may, one script after another. A new machine has no lists of packages yet."""
    if os.geteuid() == 0 and shutil.which("apt-get"):
        with open(LOCK, "w", encoding="utf-8") as lock:
            fcntl.flock(lock, fcntl.LOCK_EX)
            say(f"installing {' '.join(packages)}")
            if not apt_get("install", "-y", *packages) and apt_get("update"):
                apt_get("install", "-y", *packages)
