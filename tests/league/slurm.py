"""A cluster of Debian's Slurm on this machine, with two nodes, in a folder of its own: munged, slurmctld and two
slurmd, as root, on ports of its own. What was started is ended, also where the test fails."""
import os
import pathlib
import shutil
import socket
import subprocess
import time

DAEMONS = ("munged", "slurmctld", "slurmd")
COMMANDS = ("sbatch", "sinfo", "squeue", "scancel")
PATIENCE = 120
CONFIGURATION = """ClusterName=league
SlurmctldHost={host}(127.0.0.1)
SlurmUser=root
AuthType=auth/munge
AuthInfo=socket={room}/munge.socket
CredType=cred/munge
ProctrackType=proctrack/linuxproc
TaskPlugin=task/none
SelectType=select/cons_tres
SelectTypeParameters=CR_CPU
MpiDefault=none
ReturnToService=2
StateSaveLocation={room}/state
SlurmdSpoolDir={room}/spool/%n
SlurmctldPidFile={room}/slurmctld.pid
SlurmdPidFile={room}/slurmd-%n.pid
SlurmctldPort={ports[0]}
NodeName=judge1 NodeHostname={host} NodeAddr=127.0.0.1 Port={ports[1]} CPUs=1
NodeName=judge2 NodeHostname={host} NodeAddr=127.0.0.1 Port={ports[2]} CPUs=1
PartitionName=night Nodes=ALL Default=YES MaxTime=INFINITE State=UP
"""


def lacking():
    """Why there can be no cluster here, or None."""
    missing = [name for name in DAEMONS + COMMANDS if not shutil.which(name, path=search())]
    if missing:
        return "no " + ", ".join(missing)
    return None if os.geteuid() == 0 else "slurmd needs root"


def search():
    return os.environ["PATH"] + ":/usr/sbin:/sbin"


def free_ports(count):
    """Ports that nobody listens on."""
    sockets = [socket.socket() for _ in range(count)]
    for one in sockets:
        one.bind(("127.0.0.1", 0))
    ports = [one.getsockname()[1] for one in sockets]
    for one in sockets:
        one.close()
    return ports


def until(holds, what):
    end = time.monotonic() + PATIENCE
    while not holds():
        if time.monotonic() > end:
            raise RuntimeError(f"slurm: {what}, after {PATIENCE} s")
        time.sleep(0.2)


class Cluster:
    """with Cluster(folder) as cluster: commands of Slurm in cluster.environment reach it."""

    def __init__(self, room):
        self.room = pathlib.Path(room).resolve()
        self.environment = dict(os.environ, SLURM_CONF=f"{self.room}/slurm.conf", PATH=search())
        self.running = []

    def __enter__(self):
        try:
            self.start()
        except BaseException:
            self.end()
            raise
        return self

    def __exit__(self, *_):
        self.end()

    def begin(self, *words):
        with open(self.room / "log", "a", encoding="utf8") as log:
            self.running.append(
                subprocess.Popen(words, env=self.environment, stdin=subprocess.DEVNULL, stdout=log, stderr=log))

    def start(self):
        # munged asks that others may enter the folder, and that nobody else may write there
        shutil.rmtree(self.room, ignore_errors=True)
        self.room.mkdir(parents=True)
        self.room.chmod(0o755)
        (self.room / "state").mkdir()
        (self.room / "spool").mkdir()
        key = self.room / "munge.key"
        key.write_bytes(os.urandom(1024))
        key.chmod(0o400)
        host = socket.gethostname().split(".")[0]
        conf = CONFIGURATION.format(room=self.room, host=host, ports=free_ports(3))
        (self.room / "slurm.conf").write_text(conf)
        own = [f"--{name}-file={self.room}/munge.{name}" for name in ("key", "pid", "log", "seed")]
        self.begin("munged", "--foreground", "--force", f"--socket={self.room}/munge.socket", *own)
        until((self.room / "munge.socket").exists, "munged does not start")
        self.begin("slurmctld", "-D")
        for node in ("judge1", "judge2"):
            self.begin("slurmd", "-D", "-N", node)
        until(lambda: self.said("sinfo", "-h", "-N", "-t", "idle", "-o", "%N").split() == ["judge1", "judge2"],
              "the nodes do not become idle")

    def said(self, *words):
        return subprocess.run(words, env=self.environment, capture_output=True, text=True, check=False).stdout

    def own(self):
        """The processes of this cluster, jobs among them, by the configuration in their environment."""
        mark, found = f"SLURM_CONF={self.room}/slurm.conf".encode(), []
        for entry in pathlib.Path("/proc").iterdir():
            try:
                if entry.name.isdigit() and mark in (entry / "environ").read_bytes().split(b"\0"):
                    found.append(int(entry.name))
            except OSError:
                pass
        return found

    def end(self):
        """Jobs first, then the daemons, the last one first; what is left by then by its number."""
        if len(self.running) > 1:
            self.said("scancel", "--user=root")
        for one in reversed(self.running):
            one.terminate()
        for one in self.running:
            try:
                one.wait(10)
            except subprocess.TimeoutExpired:
                one.kill()
                one.wait()
        self.running = []
        for number in self.own():
            try:
                os.kill(number, 9)
            except ProcessLookupError:
                pass
        until(lambda: not self.own(), "processes are left")
