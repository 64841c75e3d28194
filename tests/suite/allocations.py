"""Counts the program's allocations: once a slice is built, only requests that are accepted
allocate. A script in which three cores ask for the same lines, and whose requests are then served,
handed out and given up, is run beside one that only asks: a comment of as many bytes stands for
each of its other commands. Both make equally many allocations, with either miss file and either
setting of the exclusive state."""
import re
import tempfile

from harness import each, each_refused, is_plain, lockup, program, same, seconds, want, write

CORES, LINES = range(3), range(4)
SETTINGS = [(f"misses {misses}, exclusive {exclusive}", misses, exclusive)
            for misses in ("explicit", "inverted") for exclusive in ("off", "on")]


def access(tag: int, core: int) -> str:
    line = (tag + core) % 4
    return (f"load {8 * line}", f"add {8 * line} 1", f"cas {8 * line + 1} 0 1")[(tag + core) % 3]


def deliveries(core: int, line: int) -> list[str]:
    rows = [f"deliver {name} {line} {core}" for name in ("req", "fwd", "data")]
    rows += [f"deliver ack {line} {core} {(core + other) % 3}" for other in (1, 2)]
    return rows + [f"deliver home {line}"]


def script_of(misses: str, exclusive: str) -> str:
    """All requests come first, so that the log has grown before the other commands."""
    rows = ["cores 3", "slices 2", "sets 2", "ways 1", f"misses {misses}", f"exclusive {exclusive}"]
    rows += ["init 0 7", "init 8 9", "counter 16"]
    rows += [f"issue {core} {tag} {access(tag, core)}" for tag in range(6) for core in CORES]
    rows += [row for _ in range(6) for core in CORES for line in LINES for row in deliveries(core, line)]
    for _ in range(3):
        rows.append("pump 100")
        for core in CORES:
            rows += [f"hand {core} {number}" for number in (0, 1, 0, 1)] + [f"evict {core} {line}" for line in LINES]
    return "".join(f"{row}\n" for row in rows)


def allocations(script: str) -> int:
    """Returns how many allocations the program makes."""
    with tempfile.TemporaryDirectory() as room:
        return [refused for refused, _ in each_refused([program(), "script", write(f"{room}/script", script)])][-1]


@seconds(10)
@each(lambda: SETTINGS)
def test_allocations(_: str, misses: str, exclusive: str) -> None:
    is_plain()
    script = script_of(misses, exclusive)
    asking = re.sub(r"^(evict|deliver|pump|hand) .*$", lambda row: "#" * len(row[0]), script, flags=re.M)
    ran = lockup("script", "-", text=script)
    same("status and error", (0, ""), (ran.status, ran.err))
    # what the other commands did, so that none of them is tried in vain
    for answer in ("moved$", "receipt ", "evicting$"):
        want(re.search(f"^{answer}", ran.out, re.M), f"no answer is {answer}")
    asked = allocations(asking)
    want(asked, "the requests allocate nothing")
    same("allocations", asked, allocations(script))
