"""A PostgreSQL server of one's own, for scripts/server-test and scripts/copy-figures."""
import glob
import os
import pwd
import shutil
import signal
import subprocess
import sys
import tempfile

from packages import install, say

NO_SERVER = 3
TOP = os.path.dirname(os.path.dirname(os.path.abspath(__file__)))
# How the server writes texts.
SETTINGS = {
    "PGTZ": "UTC",
    "PGDATESTYLE": "ISO",
    "PGOPTIONS": "-c intervalstyle=postgres -c client_min_messages=warning",
    "PGCLIENTENCODING": "UTF8",
}
OPTIONS = {
    # (each query has the rows of a table in their order)
    "synchronize_seqscans": "off",
    "max_parallel_workers_per_gather": "0",
    "fsync": "off",
    "full_page_writes": "off",
    "autovacuum": "off",
    "max_wal_size": "4GB",
    "listen_addresses": "",
    "work_mem": "64MB",
}


class NoServer(Exception):
    """There is no server to try anything against."""


def installed_binaries():
    """Returns the folder of the server's binaries, of the newest version that is here."""
    if shutil.which("initdb") and shutil.which("postgres"):
        return os.path.dirname(os.path.realpath(shutil.which("initdb")))
    folders = [path for path in glob.glob("/usr/lib/postgresql/*/bin") if os.path.exists(f"{path}/initdb")]
    return max(folders, key=lambda path: float(path.split("/")[-2]), default=None)


def find_binaries():
    """Returns the folder of the server's binaries, which root installs where they are absent."""
    if not installed_binaries():
        install(["postgresql"])
    if not installed_binaries():
        raise NoServer("no PostgreSQL is here; Debian's is installed by `apt-get install postgresql`")
    return installed_binaries()


class Server:
    """A server in a temporary folder, which ends with it. It runs as an unprivileged user."""

    def __init__(self, binaries):
        self.binaries = binaries
        self.folder = tempfile.mkdtemp(prefix="server-test-")
        self.user = {}
        if os.geteuid() == 0:
            name = "postgres" if "postgres" in (user.pw_name for user in pwd.getpwall()) else "nobody"
            user = pwd.getpwnam(name)
            os.chown(self.folder, user.pw_uid, user.pw_gid)
            self.user = {"user": user.pw_uid, "group": user.pw_gid, "extra_groups": []}
        place = {"PGHOST": self.folder, "PGPORT": "5432", "PGUSER": "tester", "PGDATABASE": "postgres"}
        self.environment = {**os.environ, **SETTINGS, **place}
        self.child = None

    def __enter__(self):
        try:
            self.make()
            self.start()
            self.wait()
        except subprocess.CalledProcessError as error:
            self.__exit__()
            raise NoServer(f"the server cannot be made: {error}") from error
        except BaseException:
            self.__exit__()
            raise
        return self

    def make(self):
        words = ["-U", "tester", "-A", "trust", "-E", "UTF8", "--locale=C"]
        subprocess.run([f"{self.binaries}/initdb", "-D", f"{self.folder}/data", *words], stdout=subprocess.DEVNULL,
                       cwd=self.folder, check=True, **self.user)

    def start(self):
        options = {**OPTIONS, "unix_socket_directories": self.folder}
        words = [word for key, value in options.items() for word in ("-c", f"{key}={value}")]
        with open(f"{self.folder}/log", "wb") as log:
            self.child = subprocess.Popen([f"{self.binaries}/postgres", "-D", f"{self.folder}/data", *words],
                                          stdout=log, stderr=log, cwd=self.folder, **self.user)

    def wait(self):
        for _ in range(300):
            if subprocess.run([f"{self.binaries}/pg_isready", "-q"], env=self.environment).returncode == 0:
                return
            if self.child.poll() is not None:
                break
            subprocess.run(["sleep", "0.1"])
        raise NoServer(f"the server does not start: {open(f'{self.folder}/log').read()}")

    def __exit__(self, *_):
        if self.child:
            self.child.send_signal(signal.SIGINT)
            self.child.wait()
        shutil.rmtree(self.folder, ignore_errors=True)

    def command(self, *commands):
        """Returns the command that has psql run these one after another."""
        words = [word for command in commands for word in ("-c", command)]
        return [f"{self.binaries}/psql", "-X", "-q", "-A", "-t", "-v", "ON_ERROR_STOP=1", *words]

    def psql(self, *commands, given=b""):
        """Runs the commands one after another: what psql printed."""
        done = subprocess.run(self.command(*commands), input=given, env=self.environment, capture_output=True)
        if done.returncode:
            raise RuntimeError(f"{' '.join(commands)[:500]}: {done.stderr.decode()[:500]}")
        return done.stdout


def make_program(name):
    """Has scripts/launch prove and build a program: the command that runs it."""
    command = [f"{TOP}/scripts/launch", name]
    subprocess.run([*command, "--build"], stdin=subprocess.DEVNULL, stdout=subprocess.DEVNULL, check=True)
    return command


def run_with_server(main):
    """Runs a script; where no server can be had, the status is 3."""
    try:
        main()
    except NoServer as error:
        say(error)
        sys.exit(NO_SERVER)
