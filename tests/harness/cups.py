"""A private CUPS server for tests and the benchmark.

It runs in a folder, on a socket in that folder and a port of the loopback address, with only its own files. It needs Debian's packages cups
and cups-client, and must be run as root, because CUPS must start as root.

`Cups.missing()` names a requirement that is missing, or returns None.
"""
import os
import shutil
import signal
import subprocess
import tempfile
import time

from harness.checks import listens, LONGEST
from harness.files import read, write
from harness.ipp import free_port

CUPSD = "/usr/sbin/cupsd"

# The configuration of CUPS. `{sync}` says whether it syncs, and `{interval}` after how many seconds it writes changed data.
FILES = """ServerRoot {folder}/etc
RequestRoot {folder}/spool
CacheDir {folder}/cache
StateDir {folder}/run
TempDir {folder}/spool/tmp
ServerKeychain {folder}/ssl
AccessLog {folder}/access_log
ErrorLog {folder}/error_log
PageLog {folder}/page_log
FileDevice Yes
User lp
Group lp
SystemGroup root
SyncOnClose {sync}
"""

CONFIG = """Listen {folder}/cups.sock
Listen 127.0.0.1:{port}
LogLevel error
AccessLogLevel config
Browsing No
WebInterface No
DefaultAuthType None
MaxJobs 0
MaxClients 200
DirtyCleanInterval {interval}
<Location />
  Order allow,deny
  Allow all
</Location>
<Policy default>
  JobPrivateAccess all
  JobPrivateValues none
  <Limit All>
    Order deny,allow
    Allow all
  </Limit>
</Policy>
"""

class Cups:
    """CUPS during a `with`. `syncs` says whether it syncs its files, `interval` after how many seconds it writes them, and `config` and `files`
    are more lines of its two files of configuration.
    """

    def __init__(self, syncs=False, interval=30, config="", files=""):
        self.folder = tempfile.mkdtemp(prefix="cups-")
        self.socket = os.path.join(self.folder, "cups.sock")
        self.port = free_port()
        self.texts = (("cupsd.conf", CONFIG + config), ("cups-files.conf", FILES + files))
        self.words = {"folder": self.folder, "port": self.port, "sync": "Yes" if syncs else "No", "interval": interval}

    @staticmethod
    def missing():
        if not os.path.isfile(CUPSD):
            return "CUPS (Debian's package cups)"
        if not (shutil.which("lpadmin") and shutil.which("lp")):
            return "CUPS's programs (Debian's package cups-client)"
        return None if os.geteuid() == 0 else "root, because CUPS must start as root"

    def __enter__(self):
        os.chmod(self.folder, 0o755)
        for name in ("etc", "spool", "spool/tmp", "cache", "run", "ssl"):
            os.mkdir(os.path.join(self.folder, name))
            shutil.chown(os.path.join(self.folder, name), "lp", "lp")
        paths = [self.write(f"etc/{name}", text.format(**self.words)) for name, text in self.texts]
        words = [CUPSD, "-f", "-c", paths[0], "-s", paths[1]]
        self.program = subprocess.Popen(words, stdout=subprocess.DEVNULL, stderr=subprocess.DEVNULL)
        end = time.time() + LONGEST
        while not listens(self.socket):
            if self.program.poll() is not None or end < time.time():
                self.__exit__()
                raise OSError(f"CUPS does not start: {self.said()}")
            time.sleep(0.05)
        return self

    def __exit__(self, *fault):
        if self.program.poll() is None:
            self.program.send_signal(signal.SIGTERM)
            try:
                self.program.wait(LONGEST)
            except subprocess.TimeoutExpired:
                self.program.kill()
                self.program.wait()
        shutil.rmtree(self.folder, ignore_errors=True)

    def write(self, name, text):
        return write(os.path.join(self.folder, name), text)

    def said(self):
        return (read(os.path.join(self.folder, "error_log")) or b"").decode(errors="replace")[-2_000:]

    def run(self, *words):
        """Runs one of CUPS's programs for this CUPS, without contacting any other CUPS of the machine."""
        how = {"PATH": "/usr/sbin:/usr/bin:/sbin:/bin", "CUPS_SERVER": self.socket, "HOME": self.folder, "LANG": "C"}
        ran = subprocess.run(words, env=how, capture_output=True, text=True, timeout=LONGEST)
        if ran.returncode:
            raise OSError(f"{words}: {ran.stderr}")
        return ran.stdout

    def queue(self, name, uri="file:///dev/null"):
        """Creates a queue that sends documents as they are."""
        self.run("lpadmin", "-p", name, "-E", "-v", uri, "-m", "raw")

    def hold(self, name):
        """Makes a queue accept jobs and print none."""
        self.run("cupsdisable", name)
