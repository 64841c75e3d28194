"""A folder of its own in which crates are proved from nothing, side by side: what was proved there is kept, for the
program and for the library."""
import hashlib
import os
import shutil
import sys
import tempfile

import kit
import lanes

PARTS = ("src", "specs", "proofs")
# What is built in the folder, and by which call.
BUILT = {"lockup": kit.prove_program, "lockup_c": kit.prove_static}
# What a crate's proof took of the memory that rt expects, at most: from 0.4 to 0.6 of it.
TAKEN = 0.7


def opened(who):
    """Returns the folder of this checkout, which lies below $XDG_CACHE_HOME/lockup or ~/.cache/lockup, with this
    checkout's sources. It is its caller's alone until the process ends."""
    rt = kit.load_rt()
    cache = os.environ.get("XDG_CACHE_HOME") or os.path.expanduser("~/.cache")
    folder = f"{cache}/lockup/{hashlib.sha256(kit.ROOT.encode()).hexdigest()[:12]}"
    os.makedirs(folder, exist_ok=True)
    room = Room(rt, who, folder)
    room.held = kit.hold(folder, f"{who}: another build of this folder is at work; waiting for it")
    room.take_sources()
    return room


class Room:
    def __init__(self, rt, who, folder):
        self.rt, self.who, self.folder, self.held = rt, who, folder, None

    def take_sources(self):
        """Makes the folder's sources those of this checkout: the crates that what is built stands on, and no others."""
        crates = {it.name: it for it in self.rt.rtlib.crates_below(kit.ROOT)}
        wanted = {it.name for name in BUILT for it in [*crates[name].below(), crates[name]]}
        with open(f"{kit.ROOT}/crates.txt", encoding="utf-8") as it:
            lines = [line for line in it if line.split(":")[0].split(" ")[0] in wanted]
        write(f"{self.folder}/crates.txt", "".join(lines).encode())
        with open(f"{kit.ROOT}/HANDLES", "rb") as it:
            write(f"{self.folder}/HANDLES", it.read())
        os.makedirs(f"{self.folder}/crates", exist_ok=True)
        for name in set(os.listdir(f"{self.folder}/crates")) - wanted:
            shutil.rmtree(f"{self.folder}/crates/{name}")
        for name in wanted:
            for part in PARTS:
                shutil.rmtree(f"{self.folder}/crates/{name}/{part}", ignore_errors=True)
                if os.path.isdir(f"{kit.ROOT}/crates/{name}/{part}"):
                    shutil.copytree(f"{kit.ROOT}/crates/{name}/{part}", f"{self.folder}/crates/{name}/{part}")

    def prove(self, name):
        """Proves what isn't proved yet of the crates that this one stands on, and then builds it. Returns the file that
        it is built as, or None, and then what isn't proved was said."""
        os.chdir(self.folder)
        crates = {it.name: it for it in kit.strict_crates_of(self.rt, self.folder)}
        top, sums = crates[name], {}
        wanted = [*top.below(), top]
        for crate in wanted:
            self.rt.stamp_of(crate, sums)
        left = [it for it in wanted if not is_proved(it, sums[it.name])]
        failed = self.prove_left(left, len(wanted), sums)
        if failed:
            print(f"{failed.said[-4000:]}\n{self.who}: {failed.name} is not proved", file=sys.stderr)
            return None
        if not left:
            print(f"{self.who}: all is proved and built already", file=sys.stderr)
        return made_of(top)

    def prove_left(self, left, number, sums):
        """Proves these crates. Returns the task that failed, or None."""
        if not left:
            return None
        seconds = lanes.seconds_of([f"{kit.ROOT}/tools/build_seconds", f"{self.folder}/seconds"])
        tasks = {}
        for crate in left:
            waits = [it.name for it in crate.below() if it in left]
            call = lambda jobs, crate=crate: self.prove_crate(crate, sums[crate.name], jobs)
            need = TAKEN * self.rt.need(crate)
            tasks[crate.name] = lanes.Task(crate.name, waits, seconds.get(crate.name, 60), need, call)
        shown = lanes.Shown(self.who, number - len(left), number)
        ran = lanes.run(tasks, self.rt.processors(), 0.85 * self.rt.free(), shown)
        lanes.note_seconds(f"{self.folder}/seconds", {**seconds, **ran.seconds})
        return ran.failed

    def prove_crate(self, crate, sum, jobs):
        """Proves a crate from nothing and builds it. Returns what was said where it isn't proved, or None."""
        os.makedirs(f"{crate.folder}/out", exist_ok=True)
        proved = f"{crate.folder}/out/proved"
        if os.path.exists(proved):
            os.remove(proved)
        with tempfile.TemporaryFile("w+", errors="replace") as crate.out:
            try:
                flags = ["--jobs", str(jobs)]
                build = BUILT.get(crate.name)
                status = build(self.rt, crate, flags) if build else crate.ci(flags, False)
            except SystemExit:
                status = 1
            crate.out.seek(0)
            said = crate.out.read()
        if status:
            return said or "it said nothing"
        write(proved, sum.encode())
        return None


def made_of(crate):
    """Returns the file that tells that the crate is built: the program, the library for C, or what crates above read."""
    if crate.is_program:
        return f"{crate.folder}/out/{crate.name}"
    return f"{crate.folder}/out/lib{crate.name}.a" if crate.is_static else f"{crate.rlib}/format"


def is_proved(crate, sum):
    try:
        with open(f"{crate.folder}/out/proved", encoding="utf-8") as it:
            module = [kit.module_of(made_of(crate))] if crate.is_program else []
            return it.read() == sum and all(map(os.path.isfile, [made_of(crate), *module]))
    except OSError:
        return False


def write(file, text):
    with open(file, "wb") as it:
        it.write(text)
