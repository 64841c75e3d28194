"""Starts daemons for a test, in a folder of its own and at free ports, and ends them with all that they started, whatever
becomes of the test: hosts that are reached by ssh, and a Slurm cluster of one node."""
import ctypes
import os
import shutil
import signal
import socket
import subprocess
import time
from contextlib import contextmanager, suppress
from pathlib import Path
from typing import Callable, Iterator

from .compare import Different, Skipped
from .processes import run, write

# how long a daemon may take until it is there
LONGEST = 20
# of prctl: which signal a process is sent when the one that started it ends
PR_SET_PDEATHSIG = 1


def needs_daemons(*names: str) -> list[str]:
    """Returns the paths of these programs, which may stand where only root looks. Skips the test where one isn't there."""
    places = os.pathsep.join([os.environ.get("PATH", ""), "/usr/local/sbin", "/usr/sbin", "/sbin"])
    found = [shutil.which(name, path=places) for name in names]
    for name, path in zip(names, found):
        if path is None:
            raise Skipped(f"'{name}' isn't there")
    return found


def free_port() -> int:
    with socket.socket() as it:
        it.bind(("127.0.0.1", 0))
        return it.getsockname()[1]


def wait_for(what: str, holds: Callable[[], object], longest: float = LONGEST) -> None:
    ends = time.monotonic() + longest
    while not holds():
        if time.monotonic() > ends:
            raise Different(f"{what}: not within {longest} seconds")
        time.sleep(0.05)


def answers(port: int) -> bool:
    with suppress(OSError), socket.create_connection(("127.0.0.1", port), timeout=1):
        return True
    return False


# ---- processes

def running() -> Iterator[int]:
    return map(int, filter(str.isdigit, os.listdir("/proc")))


def parent_of(process: int) -> int:
    with suppress(OSError, ValueError):
        return int(Path(f"/proc/{process}/stat").read_text(encoding="latin-1").rpartition(")")[2].split()[1])
    return 0


def below(parents: set[int]) -> set[int]:
    """Returns these processes and all that they started and that have a parent still."""
    found, size = set(parents), 0
    while len(found) > size:
        size = len(found)
        found |= {it for it in running() if parent_of(it) in found}
    return found


def is_in(process: int, room: str) -> bool:
    """Whether a process works in this folder, or is a program of it."""
    for link in ("cwd", "exe"):
        with suppress(OSError):
            if f"{os.readlink(f'/proc/{process}/{link}')}/".startswith(f"{room}/"):
                return True
    return False


def inside(room: str) -> set[int]:
    """Returns the processes that work in this folder, but those that led here."""
    return {it for it in running() if it != os.getpid() and is_in(it, os.path.realpath(room))}


def end(processes: set[int], how: int = signal.SIGKILL) -> None:
    for process in processes - {os.getpid(), 0, 1}:
        with suppress(OSError):
            os.kill(process, how)


def end_with_the_test() -> None:
    ctypes.CDLL(None).prctl(PR_SET_PDEATHSIG, signal.SIGTERM)


class Daemons:
    """The daemons of one test, which work in its folder."""

    def __init__(self, room: str) -> None:
        self.room, self.started = os.path.realpath(room), []

    def start(self, name: str, *words: str, **how) -> subprocess.Popen:
        with open(f"{self.room}/{name}.out", "ab") as said:
            it = subprocess.Popen(words, cwd=self.room, stdin=subprocess.DEVNULL, stdout=said, stderr=said,
                                  start_new_session=True, preexec_fn=end_with_the_test, **how)
        self.started.append(it)
        return it

    def kill(self, daemon: subprocess.Popen) -> None:
        """Ends a daemon and all that it started at once."""
        end(below({daemon.pid}))
        daemon.wait()

    def end(self) -> None:
        """Ends all, those first that are asked to: a process that they are about to start is found in the folder then."""
        of_daemons = below({it.pid for it in self.started})
        end({it.pid for it in reversed(self.started)}, signal.SIGTERM)
        with suppress(subprocess.TimeoutExpired):
            for it in self.started:
                it.wait(timeout=3)
        end(of_daemons)
        for it in self.started:
            it.wait()
        for _ in range(100):
            left = inside(self.room)
            if not left:
                return
            end(left)
            time.sleep(0.05)

    def said(self) -> str:
        """Returns the last of what they printed."""
        files = sorted(Path(self.room).glob("*.out"))
        return "".join(f"{it.name}:\n{it.read_text(errors='replace')[-1500:]}" for it in files)


@contextmanager
def daemons(room: str) -> Iterator[Daemons]:
    it = Daemons(room)
    try:
        yield it
    finally:
        it.end()


# ---- hosts

# The login's shell would read what the user's home has for it (HOME, and a level at which bash reads nothing).
SSHD = """Port {port}
ListenAddress 127.0.0.1
HostKey {room}/host_key
AuthorizedKeysFile {room}/key.pub
StrictModes no
UsePAM no
PidFile none
PasswordAuthentication no
PermitRootLogin prohibit-password
MaxStartups 1000
SetEnv HOME={room}/{home} SHLVL=2
ForceCommand cd {room}/{home} && HOME=$PWD PATH=/usr/bin:/bin exec sh -c "$SSH_ORIGINAL_COMMAND"
"""
HOST = """Host {name}
HostName 127.0.0.1
Port {port}
IdentityFile {room}/key
IdentitiesOnly yes
UserKnownHostsFile {room}/known
StrictHostKeyChecking accept-new
LogLevel ERROR
"""


class Hosts:
    """Hosts on the loopback, each with an sshd and a home of its own, or all with one. `logins` has a line for each, for
    --sshloginfile."""

    def __init__(self, its: Daemons, names: tuple[str, ...], processors: int, home: str) -> None:
        self.its, self.sshd, self.homes = its, {}, {name: home or name for name in names}
        (program,) = needs_daemons("sshd")
        room = its.room
        for key in ("host_key", "key"):
            run(["ssh-keygen", "-q", "-t", "ed25519", "-N", "", "-f", f"{room}/{key}"])
        if os.geteuid() == 0:
            # where an sshd of root puts processes without rights
            os.makedirs("/run/sshd", mode=0o755, exist_ok=True)
        said = ""
        for name in names:
            os.makedirs(self.home(name), exist_ok=True)
            port = free_port()
            file = write(f"{room}/{name}.conf", SSHD.format(room=room, home=self.homes[name], port=port))
            self.sshd[name] = its.start(name, program, "-D", "-e", "-f", str(file))
            said += HOST.format(room=room, name=name, port=port)
            wait_for(f"sshd at {port}", lambda at=port: answers(at))
        config = write(f"{room}/ssh_config", said)
        self.logins = write(f"{room}/hosts", "".join(f"{processors}/ssh -F {config} {it}\n" for it in names))

    def home(self, name: str) -> Path:
        return Path(self.its.room) / self.homes[name]

    def go_away(self, name: str) -> int:
        """Kills a host's sshd, its connections and what works there. Returns how many processes that were."""
        lost = below({self.sshd[name].pid}) | inside(str(self.home(name)))
        end(lost)
        self.sshd[name].wait()
        return len(lost) - 1


@contextmanager
def ssh_hosts(room: str, *names: str, processors: int = 2, home: str = "") -> Iterator[Hosts]:
    with daemons(room) as its:
        yield Hosts(its, names, processors, home)


# ---- a cluster

SLURM = """ClusterName=lockup
SlurmctldHost={host}(127.0.0.1)
SlurmUser={user}
SlurmdUser={user}
AuthType=auth/munge
AuthInfo=socket={room}/munge
CredType=cred/munge
SlurmctldPort={controller}
SlurmdPort={node}
StateSaveLocation={room}/state
SlurmdSpoolDir={room}/spool
SlurmctldPidFile={room}/slurmctld.pid
SlurmdPidFile={room}/slurmd.pid
ProctrackType=proctrack/linuxproc
TaskPlugin=task/none
SelectType=select/cons_tres
SelectTypeParameters=CR_CPU
SlurmdParameters=config_overrides
MpiDefault=none
MailProg=/bin/true
ReturnToService=2
SchedulerParameters=sched_interval=1
NodeName={host} NodeAddr=127.0.0.1 CPUs={slots} State=UNKNOWN
PartitionName=all Nodes=ALL Default=YES MaxTime=INFINITE State=UP
"""


@contextmanager
def slurm_cluster(room: str, slots: int = 4) -> Iterator[dict[str, str]]:
    """Starts a cluster of one node, this machine. Returns the environment in which sbatch, squeue and so on reach it."""
    munged, controller, node = needs_daemons("munged", "slurmctld", "slurmd")
    with daemons(room) as its:
        at, user = its.room, run(["id", "-un"]).out.strip()
        Path(f"{at}/munge.key").write_bytes(os.urandom(1024))
        os.chmod(f"{at}/munge.key", 0o400)
        for name in ("state", "spool"):
            os.mkdir(f"{at}/{name}")
        config = write(f"{at}/slurm.conf", SLURM.format(
            room=at, user=user, host=os.uname().nodename.partition(".")[0], controller=free_port(), node=free_port(), slots=slots))
        environment = {**os.environ, "SLURM_CONF": str(config)}
        # it would rather have its socket in a folder that all may enter
        its.start("munged", munged, "--foreground", "--force", f"--key-file={at}/munge.key", f"--socket={at}/munge",
                  f"--pid-file={at}/munged.pid", f"--log-file={at}/munged.out", f"--seed-file={at}/munge.seed")
        wait_for("munged", lambda: os.path.exists(f"{at}/munge"))
        its.start("slurmctld", controller, "-D", "-i", env=environment)
        its.start("slurmd", node, "-D", env=environment)
        idle = ["sinfo", "--noheader", "--states=idle"]
        try:
            wait_for("a node of Slurm", lambda: run(idle, env=environment).out.strip())
        except Different as different:
            raise Different(f"{different}\n{its.said()}") from None
        yield environment
        run(["scancel", "--user", user], env=environment)
