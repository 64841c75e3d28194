"""What tools/install and tools/release put where: an installed program is found by name through a
link, man pages and completions have each subcommand and option of the program's help, and the
program of the archive runs in an empty root with a C library alone (where the test may change its
root). With the library a first program is compiled over the archive, by pkg-config and with the
shared object, the Python module finds it without being told where it is, and the C++ example runs
from its place; without it install says so, and release refuses."""
import hashlib
import os
import re
import shutil
import tarfile
import tempfile
from contextlib import contextmanager
from pathlib import Path
from typing import Iterator

from harness import ROOT, is_sanitized, lockup, needs, program, read, run, same, seconds, want, write
from harness.library import FIRST_SAYS, archive, shared

FIRST_ADD = "examples/first_add"
COMPLETIONS = ("bash-completion/completions/lockup", "zsh/site-functions/_lockup",
               "fish/vendor_completions.d/lockup.fish")


@contextmanager
def tree() -> Iterator[tuple[Path, Path]]:
    """Makes a copy of what the two scripts read, with the program in its place. Returns its top,
    and the folder for it."""
    with tempfile.TemporaryDirectory(prefix="lockup install ") as room:
        top = Path(room, "top")
        (top / "crates/lockup/out").mkdir(parents=True)
        for path in ROOT.iterdir():
            if path.is_file():
                shutil.copy(path, top)
        for name in ("tools", "docs", "examples", "include", "python", "systemverilog"):
            shutil.copytree(ROOT / name, top / name, ignore=shutil.ignore_patterns("__pycache__"))
        shutil.copy(program(), top / "crates/lockup/out/lockup")
        yield top, Path(room)


def put_library(top: Path) -> None:
    """Puts the library where tools/library would build it."""
    (top / "crates/lockup_c/out").mkdir(parents=True)
    for path in (archive(), shared()):
        shutil.copy(path, top / "crates/lockup_c/out")


CMAKE = """cmake_minimum_required(VERSION 3.5)
project(first C)
find_package(lockup {version} REQUIRED)
foreach(library lockup static)
    add_executable(first_${{library}} "{first}")
    target_link_libraries(first_${{library}} lockup::${{library}})
endforeach()
"""


def check_cmake(prefix: Path) -> None:
    """find_package finds the library of the version that is there, and of no other."""
    version = lockup("--version").out.split()[-1]
    release, number = version.rsplit(".", 1)
    for wanted, is_there in ((version, True), (release, True), (f"{release}.{int(number) + 1}", False), ("99.0", False)):
        with tempfile.TemporaryDirectory() as room:
            write(f"{room}/CMakeLists.txt", CMAKE.format(version=wanted, first=prefix / FIRST))
            made = run(["cmake", "-S", room, "-B", f"{room}/made", f"-DCMAKE_PREFIX_PATH={prefix}"])
            want((made.status == 0) == is_there, f"find_package(lockup {wanted}):\n{made.out}{made.err}")
            if is_there:
                same("cmake --build", 0, run(["cmake", "--build", f"{room}/made"]).status)
                for library in ("lockup", "static"):
                    same(library, (0, FIRST_SAYS, ""), tuple(run([f"{room}/made/first_{library}"])))


FIRST = "share/doc/lockup/examples/library/first.c"
# how first.c is compiled in an installed prefix, and what is said to the loader
COMPILED = {
    "archive": ("cc {first} -I{prefix}/include {prefix}/lib/liblockup.a", {}),
    "pkg-config": ("cc {first} $(pkg-config --cflags --libs lockup)", {"LD_LIBRARY_PATH": "{prefix}/lib"}),
    "c++": ("c++ -x c++ {first} -x none -I{prefix}/include {prefix}/lib/liblockup.a", {}),
}


def check_library(prefix: Path, room: Path) -> None:
    """Uses an installed library in each of its ways, by a path without blanks."""
    with tempfile.TemporaryDirectory() as plain:
        Path(plain, "prefix").symlink_to(prefix)
        use_library(Path(plain, "prefix"), room)


def use_library(prefix: Path, room: Path) -> None:
    plain = {key: value for key, value in os.environ.items() if key != "LOCKUP_LIBRARY"}
    for name, (command, told) in COMPILED.items():
        words = command.format(first=prefix / FIRST, prefix=prefix)
        environment = {**plain, "PKG_CONFIG_PATH": f"{prefix}/lib/pkgconfig"}
        if name != "pkg-config" or shutil.which("pkg-config"):
            same(name, (0, "", ""), tuple(run(["bash", "-c", f"{words} -o first"], cwd=room, env=environment)))
            loader = {key: value.format(prefix=prefix) for key, value in told.items()}
            ran = run(["./first"], cwd=room, env={**plain, **loader})
            same(f"first.c by {name}", (0, FIRST_SAYS, ""), tuple(ran))
    code = "import lockup; m = lockup.Machine(); m.add(0, 0, 0, 5); m.settle(); print(m.hand(0).reply, m.load(0, 0, 0))"
    ran = run(["python3", "-c", code], env={**plain, "PYTHONPATH": f"{prefix}/share/lockup/python"})
    same("the Python module", (0, "0 <done 1 reply 5>\n", ""), tuple(ran))
    ran = run([prefix / "share/doc/lockup/examples/cosim/cpp", "0", "1000"], env=plain)
    same("the C++ example", (0, "agree: 1000 calls\n", ""), tuple(ran))
    for name in ("lockup_pkg.sv", "lockup_scoreboard.sv"):
        same(name, True, (prefix / "share/lockup/systemverilog" / name).is_file())


def options_of(command: str) -> list[str]:
    told = lockup(command, "--help").out
    rows = told.partition("\nOptions:\n")[2].partition("\n\n")[0]
    options = [re.split(r"  +", row.strip())[0] for row in rows.split("\n")]
    return re.findall(r"(?<![\w-])(--[\w-]+)", "\n".join(options))


def check_pages(prefix: Path) -> None:
    """Each subcommand and option stands in its man page and in the completions."""
    rows = lockup("--help").out.split("Commands:\n")[1].split("\n\n")[0].split("\n")
    completions = [prefix / "share" / it for it in COMPLETIONS]
    for command in [row.split()[0] for row in rows if row.split()[0] != "help"]:
        page = read(prefix / f"share/man/man1/lockup-{command}.1").replace("\\-", "-")
        for file in completions:
            same(f"{command} in {file}", True, re.search(rf"\b{command}\b", read(file)) is not None)
        for option in options_of(command):
            same(f"{option} of {command} in its page", True, option in page)
            for file in completions:
                word = f"-l {option[2:]}" if file.suffix == ".fish" else option
                same(f"{option} of {command} in {file}", True, word in read(file))


def check_tree(prefix: Path) -> None:
    """Looks at an installed tree."""
    check_pages(prefix)
    asked = (f'. "{prefix / "share" / COMPLETIONS[0]}"; COMP_WORDS=(lockup table dir); COMP_CWORD=2; _lockup; '
             'echo "${COMPREPLY[@]}"')
    same("bash completes", "directory\n", run(["bash", "-c", asked]).out)
    if shutil.which("man"):
        same("man has no complaint", "", run(["man", "--warnings", "-l", prefix / "share/man/man1/lockup.1"]).err)
    for name in ("README.md", "LICENSE", "docs/TEXTS.md", f"{FIRST_ADD}.txt"):
        same(f"{name} is installed", True, (prefix / "share/doc/lockup" / name).is_file())


def check_empty_root(prefix: Path, root: Path) -> None:
    """Runs the program in a root that has nothing else but the C library."""
    (root / "bin").mkdir(parents=True)
    shutil.copy(prefix / "bin/lockup", root / "bin/lockup")
    shutil.copy(prefix / "share/doc/lockup" / f"{FIRST_ADD}.txt", root)
    for library in re.findall(r"(/\S+) \(0x", run(["ldd", program()]).out):
        os.makedirs(f"{root}{os.path.dirname(library)}", exist_ok=True)
        shutil.copy(library, f"{root}{library}")
    ran = run(["chroot", root, "/bin/lockup", "script", "/first_add.txt"])
    same("in an empty root", (0, read(ROOT / f"{FIRST_ADD}.out"), ""), tuple(ran))


@seconds(10)
def test_install() -> None:
    with tree() as (top, room):
        same("a wrong word", 2, run([top / "tools/install", "--nowhere"]).status)
        same("install", 0, run([top / "tools/install", "--prefix", room / "a prefix"]).status)
        check_tree(room / "a prefix")
        (room / "links").mkdir()
        (room / "links/lockup").symlink_to(room / "a prefix/bin/lockup")
        words = ["/usr/bin/env", f"PATH={room / 'links'}", "lockup", "script", "first_add.txt"]
        ran = run(words, cwd=ROOT / "examples")
        same("by name through a link", (0, read(ROOT / f"{FIRST_ADD}.out")), (ran.status, ran.out))
        same("without the library", False, (room / "a prefix/include").exists())


@seconds(20)
def test_install_library() -> None:
    needs("cc", "c++")
    with tree() as (top, room):
        put_library(top)
        ran = run([top / "tools/install", "--prefix", room / "a_prefix"])
        same("install", (0, 1), (ran.status, ran.err.count("\n")))
        check_library(room / "a_prefix", room)


@seconds(20)
def test_cmake() -> None:
    needs("cmake", "make", "cc")
    with tree() as (top, room):
        put_library(top)
        same("install", 0, run([top / "tools/install", "--prefix", room / "a_prefix"]).status)
        check_cmake(room / "a_prefix")


@seconds(10)
def test_release() -> None:
    needs("rt", "cc", "c++")
    with tree() as (top, room):
        put_library(top)
        (top / "out").mkdir()
        page = write(top / "out/lockup.html", "a page")
        ran = run([top / "tools/release", room / "dist"])
        same("release", 0, ran.status)
        same("the page for a browser", [read(page)], [read(it) for it in (room / "dist").glob("lockup-*.html")])
        archive = Path(ran.err.split("\n")[-2])
        checksum = hashlib.sha256(archive.read_bytes()).hexdigest()
        same("checksum", checksum, read(f"{archive}.sha256").split()[0])
        with tarfile.open(archive) as it:
            it.extractall(room / "unpacked", filter="data")
        unpacked = next((room / "unpacked").iterdir())
        check_tree(unpacked)
        check_library(unpacked, room)
        kit = run(["rt", "version"]).out.split("\n")[0]
        same("RELEASE has the kit's line", True, kit in read(unpacked / "RELEASE"))
        # AddressSanitizer wants to read its own program in /proc
        if os.geteuid() == 0 and not is_sanitized(program()):
            check_empty_root(unpacked, room / "root")


def test_nothing_to_install() -> None:
    with tree() as (top, room):
        (top / "crates/lockup/out/lockup").unlink()
        same("install", 1, run([top / "tools/install", "--prefix", room / "a prefix"]).status)
        if shutil.which("rt"):
            same("release", 1, run([top / "tools/release", room / "dist"]).status)


def test_no_library_to_release() -> None:
    needs("rt")
    with tree() as (top, room):
        ran = run([top / "tools/release", room / "dist"])
        same("release", (1, True), (ran.status, "tools/library" in ran.err))
