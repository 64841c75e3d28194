"""Runs examples/campaign: walks and sweeps in jobs, by GNU parallel on this machine and on hosts that are reached by ssh, and
as an array of Slurm jobs. Hosts are two sshd on the loopback, each with a home of its own, and the cluster has one node, both
started here (tests/harness/daemons.py) and skipped where their programs are missing.

What comes in the end is what one process prints, byte for byte: where workers are killed, where a host goes away in the
middle, where files are cut off or lost, and where the disk was full; and nothing that was sent is left on a host.
"""
import os
import signal
import subprocess
import tempfile
import time
from contextlib import contextmanager
from pathlib import Path
from typing import Callable, Iterator

from harness import ROOT, Ran, Skipped, each, lockup, needs, program, read, run, same, seconds, want
from harness.daemons import end, inside, slurm_cluster, ssh_hosts, wait_for

TEST = ROOT / "examples/litmus/sb.txt"
PROGRAMS = ROOT / "examples/programs/histogram_shared.txt"
EXAMPLES = ROOT / "examples/campaign"
SETTINGS = ("ways=1,2,4", "policy=lru,random 7")
ROUNDS, SIZE = 120_000, 20_000
SMALL = 12_000
SEEDS, SEEDS_OF_A_JOB = 20, 4


def environment(room: str, **more: str) -> dict[str, str]:
    """What a script is told: all that it makes for itself is in the folder."""
    return {**os.environ, "LOCKUP": str(program()), "SEED": "1", "TMPDIR": room, **more}


def walk(folder: str, rounds: int = ROUNDS, size: int = SIZE, hosts: str = "") -> list[str | Path]:
    return [EXAMPLES / "run-parallel", TEST, str(rounds), folder, str(size), hosts]


def sweep(folder: str, count: int = SEEDS, size: int = SEEDS_OF_A_JOB) -> list[str | Path]:
    return [EXAMPLES / "sweep-parallel", PROGRAMS, str(count), folder, str(size), *SETTINGS]


def table(rounds: int = ROUNDS) -> str:
    return lockup("walk", TEST, "--seed", "1", "--rounds", str(rounds)).out


def rows(count: int = SEEDS) -> str:
    settings = [word for it in SETTINGS for word in ("--set", it)]
    return lockup("run", PROGRAMS.name, *settings, "--seeds", f"1..{count}", cwd=PROGRAMS.parent).out


def is_worker(process: int) -> bool:
    try:
        return Path(f"/proc/{process}/comm").read_text(encoding="latin-1").strip().lstrip(".") == "lockup"
    except OSError:
        return False


def workers(room: str) -> set[int]:
    return {it for it in inside(room) if is_worker(it)}


def kill_workers(room: str, going_on: Callable[[], bool], count: int) -> int:
    """Kills so many workers, one after another. Returns how many it found."""
    killed: set[int] = set()
    while len(killed) < count and going_on():
        for it in sorted(workers(room) - killed)[:1]:
            end({it}, signal.SIGKILL)
            killed.add(it)
        time.sleep(0.02)
    return len(killed)


def started(words: list[str | Path], **how) -> subprocess.Popen:
    return subprocess.Popen(words, cwd=ROOT, stdout=subprocess.PIPE, stderr=subprocess.PIPE, text=True, **how)


def want_all(ran: Ran, wanted: str) -> None:
    same("status and output", (0, wanted, ""), tuple(ran))


def want_nothing_left(room: str, folder: str, kind: str) -> None:
    """The script has taken away what it made for itself, and no worker goes on."""
    left = [it.name for it in Path(room).iterdir() if it.name.startswith(("tmp.", ".lockup"))]
    same("temporary files", [], left)
    same("other files", [], [it.name for it in Path(folder).iterdir() if it.suffix != f".{kind}"])
    same("workers", set(), workers(room))


# ---- on this machine

@seconds(20)
def test_run_parallel() -> None:
    """Two workers are killed on the way, and walked again."""
    needs("parallel", "awk")
    with tempfile.TemporaryDirectory() as room:
        its = started(walk(f"{room}/parts"), env=environment(room))
        killed = kill_workers(room, lambda: its.poll() is None, 2)
        out, err = its.communicate()
        want(killed == 2, f"{killed} workers were killed")
        want_all(Ran(its.returncode, out, err), table())
        want_nothing_left(room, f"{room}/parts", "part")


@seconds(20)
def test_interrupted() -> None:
    """The script is ended in the middle, with all that it started. The next one walks on, in jobs of another size."""
    needs("parallel", "awk")
    with tempfile.TemporaryDirectory() as room:
        folder = Path(f"{room}/parts")
        its = started(walk(str(folder)), env=environment(room), start_new_session=True)
        wait_for("a part", lambda: folder.is_dir() and any(it.stat().st_size for it in folder.glob("*.part")))
        os.killpg(its.pid, signal.SIGKILL)
        its.wait()
        its.stdout.close()
        its.stderr.close()
        end(inside(room))
        whole = {it.name: it.read_bytes() for it in folder.glob("*.part") if it.read_bytes().endswith(b"\nend\n")}
        want(len(whole) < ROUNDS // SIZE, "all was walked before it was ended")
        for it in folder.glob("*.part.*"):
            it.unlink()
        want_all(run(walk(str(folder), size=7_000), env=environment(room)), table())
        same("kept", whole, {it: (folder / it).read_bytes() for it in whole})
        want_all(run(walk(str(folder), rounds=ROUNDS + 5_000, size=9_000), env=environment(room)), table(ROUNDS + 5_000))


def cut_in_half(file: Path) -> None:
    os.truncate(file, file.stat().st_size // 2)


def cut_the_last_byte(file: Path) -> None:
    os.truncate(file, file.stat().st_size - 1)


def emptied(file: Path) -> None:
    os.truncate(file, 0)


DAMAGES = {"cut in half": cut_in_half, "without its last byte": cut_the_last_byte, "empty": emptied, "lost": Path.unlink}


def damage(folder: str, kind: str, how: str) -> None:
    """Damages the first file, the last, and one between them."""
    files = sorted(Path(folder).glob(f"*.{kind}"), key=lambda it: int(it.stem))
    want(len(files) > 4, f"{len(files)} files")
    for it in (files[0], files[3], files[-1]):
        DAMAGES[how](it)


@seconds(20)
@each(lambda: DAMAGES)
def test_damaged_parts(how: str) -> None:
    needs("parallel", "awk")
    with tempfile.TemporaryDirectory() as room:
        folder = f"{room}/a folder"
        want_all(run(walk(folder, SMALL, SMALL // 6), env=environment(room)), table(SMALL))
        damage(folder, "part", how)
        want_all(run(walk(folder, SMALL, SMALL // 6), env=environment(room)), table(SMALL))
        want_nothing_left(room, folder, "part")


@seconds(20)
@each(lambda: DAMAGES)
def test_damaged_rows(how: str) -> None:
    needs("parallel", "awk")
    with tempfile.TemporaryDirectory() as room:
        folder = f"{room}/a folder"
        want_all(run(sweep(folder), env=environment(room)), rows())
        damage(folder, "rows", how)
        want_all(run(sweep(folder), env=environment(room)), rows())
        want_nothing_left(room, folder, "rows")


@contextmanager
def small_disk(room: str, kilobytes: int) -> Iterator[str]:
    """A file system of this size."""
    needs("mount", "umount")
    disk = f"{room}/disk"
    os.mkdir(disk)
    if run(["mount", "-t", "tmpfs", "-o", f"size={kilobytes}k", "tmpfs", disk]).status:
        raise Skipped("no file system can be mounted")
    try:
        yield disk
    finally:
        run(["umount", "-l", disk])


@seconds(20)
@each(lambda: ["parts", "rows"])
def test_full_disk(kind: str) -> None:
    """The disk is full from the second file on. Status and standard error say that something is missing, and with more room
    the same command completes it."""
    needs("parallel", "awk")
    wanted = table(SMALL) if kind == "parts" else rows()
    with tempfile.TemporaryDirectory() as room, small_disk(room, 512) as disk:
        words = walk(f"{disk}/files", SMALL, SMALL // 6) if kind == "parts" else sweep(f"{disk}/files")
        free = os.statvfs(disk).f_bavail * os.statvfs(disk).f_frsize
        filler = Path(f"{disk}/filler")
        filler.write_bytes(bytes(free - 4096 * 2))
        ran = run(words, env=environment(room))
        want(ran.status == 2 and "missing: run it again" in ran.err, f"{ran}")
        filler.unlink()
        want_all(run(words, env=environment(room)), wanted)


@seconds(20)
def test_sweep_parallel() -> None:
    """Rows of more and more seeds, and their means."""
    needs("parallel", "awk")
    with tempfile.TemporaryDirectory() as room:
        for count in (2, 7, SEEDS):
            want_all(run(sweep(f"{room}/rows", count), env=environment(room)), rows(count))
        means = run(sweep(f"{room}/rows"), env=environment(room, MEAN="--mean"))
        files = sorted(Path(f"{room}/rows").iterdir())
        same("means", tuple(lockup("merge", "--mean", *files)), tuple(means))
        want_nothing_left(room, f"{room}/rows", "rows")


def test_progress_at_a_terminal() -> None:
    """It is shown there, and nowhere else."""
    needs("parallel", "awk", "script")
    with tempfile.TemporaryDirectory() as room:
        words = " ".join(f"'{it}'" for it in walk(f"{room}/parts", 3_000, 1_000))
        ran = run(["script", "-qec", words, "/dev/null"], env=environment(room))
        want(ran.status == 0 and "100%" in ran.out, f"{ran}")


def test_what_cannot_be_done() -> None:
    needs("parallel", "awk")
    with tempfile.TemporaryDirectory() as room:
        ran = run(walk(f"{room}/parts", 1000, 100), env=environment(room, LOCKUP=f"{room}/none"))
        same("no program", (2, "", f"there is no program {room}/none\n"), tuple(ran))
        ran = run(sweep(f"{room}/rows")[:-2] + ["walls=1"], env=environment(room))
        want(ran.status and "--set walls: there is no such setting" in ran.err, f"{ran}")
        hosts = Path(f"{room}/hosts")
        hosts.write_text("# none\n\n1/false host\n", encoding="utf-8")
        ran = run(walk(f"{room}/parts", 1000, 100, str(hosts)), env=environment(room))
        want(ran.status and "no host of" in ran.err, f"{ran}")
        want_nothing_left(room, f"{room}/parts", "part")


# ---- on hosts

def homes(hosts, *names: str) -> list[str]:
    return [it for name in names for it in os.listdir(hosts.home(name))]


@seconds(30)
def test_hosts() -> None:
    """Both hosts walk, need nothing but what they are sent, and keep nothing."""
    needs("parallel", "awk", "ssh", "ssh-keygen")
    with tempfile.TemporaryDirectory() as room, ssh_hosts(room, "one", "two") as hosts:
        its = started(walk(f"{room}/parts", hosts=str(hosts.logins)), env=environment(room))
        met: set[str] = set()
        while its.poll() is None:
            met |= {name for name in ("one", "two") if workers(str(hosts.home(name)))}
            time.sleep(0.02)
        out, err = its.communicate()
        want_all(Ran(its.returncode, out, err), table())
        same("hosts that walked", {"one", "two"}, met)
        same("what hosts keep", [], homes(hosts, "one", "two"))
        want_nothing_left(room, f"{room}/parts", "part")


@seconds(20)
def test_rows_of_hosts() -> None:
    needs("parallel", "awk", "ssh", "ssh-keygen")
    with tempfile.TemporaryDirectory() as room, ssh_hosts(room, "one", "two") as hosts:
        want_all(run(sweep(f"{room}/rows"), env=environment(room, HOSTS=str(hosts.logins))), rows())
        same("what hosts keep", [], homes(hosts, "one", "two"))
        want_nothing_left(room, f"{room}/rows", "rows")


@seconds(30)
def test_a_home_that_hosts_share() -> None:
    needs("parallel", "awk", "ssh", "ssh-keygen")
    with tempfile.TemporaryDirectory() as room, ssh_hosts(room, "one", "two", home="all") as hosts:
        for _ in range(2):
            want_all(run(walk(f"{room}/parts", SMALL, SMALL // 6, str(hosts.logins)), env=environment(room)), table(SMALL))
            same("what hosts keep", [], homes(hosts, "one"))
            for it in sorted(Path(f"{room}/parts").glob("*.part"))[:3]:
                it.unlink()


@seconds(40)
def test_a_host_goes_away() -> None:
    """Its sshd, its connections and its workers are killed while it walks: the other host walks what it had."""
    needs("parallel", "awk", "ssh", "ssh-keygen")
    with tempfile.TemporaryDirectory() as room, ssh_hosts(room, "one", "two") as hosts:
        its = started(walk(f"{room}/parts", hosts=str(hosts.logins)), env=environment(room))
        wait_for("a worker", lambda: workers(str(hosts.home("one"))) or its.poll() is not None, 60)
        lost = hosts.go_away("one")
        want(lost > 0 and its.poll() is None, f"it had ended, or nothing went on there: {lost}")
        out, _ = its.communicate()
        same("status and table", (0, table()), (its.returncode, out))
        same("what the other host keeps", [], homes(hosts, "two"))
        # with one of the hosts away from the beginning
        ran = run(walk(f"{room}/parts", ROUNDS + 30_000, hosts=str(hosts.logins)), env=environment(room))
        same("status and table", (0, table(ROUNDS + 30_000)), (ran.status, ran.out))
        want("one isn't reached" in ran.err, ran.err)


def test_the_launcher() -> None:
    """Of the repository's launcher the program that it runs is sent, since it can't stand alone."""
    out = ROOT / "crates/lockup/out"
    built = next((it for it in (out / "lockup", out / "unproved/lockup") if it.is_file()), None)
    if not built:
        raise Skipped("no program is built in the repository")
    ran = run([EXAMPLES / "program"], env={**os.environ, "LOCKUP": str(ROOT / "lockup")})
    same("program", (0, f"{built}\n"), (ran.status, ran.out))


# ---- a cluster

def slurm(words: list[str | Path], folder: str, told: dict[str, str]) -> None:
    """Runs a script, and waits until its last job has ended."""
    job = run(words, env=told)
    same("status", (0, ""), (job.status, job.err))
    last = ["squeue", "--noheader", "--jobs", job.out.strip()]
    wait_for("the last job", lambda: not run(last, env=told).out.strip(), 60)
    want(Path(f"{folder}/table").exists(), f"no table: {sorted(os.listdir(folder))}")


@seconds(60)
def test_run_slurm() -> None:
    """Two workers are killed: what is missing is told, and the same command completes the table."""
    needs("sbatch", "sinfo", "squeue", "scancel", "awk")
    with tempfile.TemporaryDirectory() as room, slurm_cluster(room) as cluster:
        folder, told = f"{room}/a folder", environment(room, **cluster)
        words = [EXAMPLES / "run-slurm", TEST, str(ROUNDS), folder, str(SIZE)]
        job = run(words, env=told)
        same("status", (0, ""), (job.status, job.err))
        ends = time.monotonic() + 60
        want(kill_workers(room, lambda: time.monotonic() < ends, 2) == 2, "no two workers were found")
        wait_for("the table", Path(f"{folder}/table").exists, 60)
        missing = read(f"{folder}/missing").splitlines()
        same("missing jobs", ["20000"] * 2, [it.split()[1] for it in missing])
        slurm(words, folder, told)
        same("table", (table(), ""), (read(f"{folder}/table"), read(f"{folder}/missing")))


@seconds(60)
def test_a_job_is_put_back_into_the_queue() -> None:
    """It goes on after the parts that it had."""
    needs("sbatch", "sinfo", "squeue", "scancel", "scontrol", "awk")
    rounds = 1_000_000
    with tempfile.TemporaryDirectory() as room, slurm_cluster(room) as cluster:
        folder, told = Path(f"{room}/parts"), environment(room, **cluster)
        part, left = folder / "1.part", folder / f"1-{rounds}.left"
        job = run([EXAMPLES / "run-slurm", TEST, str(rounds), str(folder), str(rounds)], env=told)
        same("status", (0, ""), (job.status, job.err))
        array = str(int(job.out) - 1)
        wait_for("a part", lambda: part.exists() and "\nend\n" in read(part), 60)
        same("put back", 0, run(["scontrol", "requeue", f"{array}_1"], env=told).status)
        ends = time.monotonic() + 60
        while time.monotonic() < ends and not (left.exists() and left.stat().st_size):
            state = run(["squeue", "--noheader", "--jobs", f"{array}_1", "--format", "%T %r"], env=told).out
            if "BeginTime" in state:
                # it would wait two minutes
                run(["scontrol", "update", f"JobId={array}_1", "StartTime=now"], env=told)
            time.sleep(1)
        had = read(left)
        want("\nend\n" in had, f"it isn't started again: {state}")
        whole = had[:had.rindex("\nend\n")]
        wait_for("the table", Path(f"{folder}/table").exists, 60)
        same("table", (table(rounds), ""), (read(f"{folder}/table"), read(f"{folder}/missing")))
        same("what it had is kept as it was", (True, False), (read(part).startswith(whole), left.exists()))


@seconds(40)
def test_sweep_slurm() -> None:
    needs("sbatch", "sinfo", "squeue", "scancel", "awk")
    with tempfile.TemporaryDirectory() as room, slurm_cluster(room) as cluster:
        folder, told = f"{room}/rows", environment(room, **cluster)
        words = [EXAMPLES / "sweep-slurm", PROGRAMS, str(SEEDS), folder, "5", *SETTINGS]
        slurm(words, folder, told)
        same("table", (rows(), ""), (read(f"{folder}/table"), read(f"{folder}/missing")))
        DAMAGES["cut in half"](Path(f"{folder}/6.rows"))
        slurm(words, folder, {**told, "MEAN": "--mean"})
        means = lockup("merge", "--mean", *sorted(Path(folder).glob("*.rows"))).out
        same("means", (means, ""), (read(f"{folder}/table"), read(f"{folder}/missing")))
