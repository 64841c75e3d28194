"""Puts rows of several files together: `lockup merge` prints each row once, the files of a sweep that was shared out come to
the rows of the one sweep, and what doesn't fit is refused by the file's name. Means and intervals with `--mean` are those that
fractions give, with the quantiles of Student's distribution found by its density."""
import csv
import io
import itertools
import math
import random
import tempfile
from fractions import Fraction

from harness import each, lockup, same, seconds, want, write

TEXT = "cores 2\ncore 0\nrepeat 20\nadd 0 1\nload 8..20\nend\ncore 1\nrepeat 20\nadd 1 1\nload 8..20\nend\n"
SETTINGS = ["--set", "ways=1,2", "--set", "outstanding=1,4"]
THOUSAND = 1000


def swept(seeds: str, *settings: str) -> str:
    ran = lockup("run", "-", *(settings or SETTINGS), "--seeds", seeds, "--csv", text=TEXT)
    same("status", 0, ran.status)
    return ran.out


def merged(room: str, texts: list[str], *more: str) -> str:
    ran = lockup("merge", *more, *(write(f"{room}/{place}.csv", text) for place, text in enumerate(texts)))
    same("status and error", (0, ""), (ran.status, ran.err))
    return ran.out


def refused(room: str, texts: list[str], *wanted: str) -> None:
    """Wants texts to be refused in one line, with these words."""
    ran = lockup("merge", *(write(f"{room}/{place}.csv", text) for place, text in enumerate(texts)))
    same("status and rows", (2, ""), (ran.status, ran.out))
    want(ran.err.count("\n") == 1 and all(it in ran.err for it in wanted), f"not {wanted}: {ran.err}")


def test_a_sweep_that_was_shared_out() -> None:
    """.. by seeds, which may overlap, in whatever order after the first."""
    with tempfile.TemporaryDirectory() as room:
        whole, parts = swept("1..9"), [swept(it) for it in ("4..6", "7..9", "1..4", "9")]
        same("alone", whole, merged(room, [whole]))
        same("twice", whole, merged(room, [whole, whole]))
        for order in itertools.permutations(parts):
            same("in parts", whole, merged(room, list(order)))
        ways = [swept("1..9", "--set", f"ways={it}", "--set", "outstanding=1,4") for it in (1, 2)]
        same("by settings", whole, merged(room, ways))


def test_names_are_kept_apart() -> None:
    """A name with a comma and quotes is a field; one that is spelled otherwise is another."""
    with tempfile.TemporaryDirectory() as room:
        head, *rows = swept("1..2").splitlines(keepends=True)
        named = [row.replace("-,", '"a, ""b""",', 1) if row.startswith("-,") else '"a, ""b"""' + row[row.index(","):] for row in rows]
        text = head + "".join(named)
        same("as they stand", text, merged(room, [text]))
        same("both", head + "".join(rows + named), merged(room, [head + "".join(rows), text]))
        windows = text.replace("\n", "\r\n")
        same("lines of Windows", text, merged(room, [windows]))


def test_refusals() -> None:
    with tempfile.TemporaryDirectory() as room:
        text = swept("1..3")
        lines = text.splitlines(keepends=True)
        cells = lines[1].split(",")
        hits = lines[0].split(",").index("hits")
        other = ",".join([*cells[:hits], str(int(cells[hits]) + 1), *cells[hits + 1:]])
        refused(room, [text, lines[0] + other], f"{room}/1.csv: seed 1 of the same settings has other figures in {room}/0.csv")
        refused(room, [lines[0] + lines[1] + other], f"{room}/0.csv: seed 1 of the same settings has other figures in {room}/0.csv")
        refused(room, [text, text.replace("hits", "hit", 1)], f"{room}/1.csv: other columns than {room}/0.csv")
        for place, wrong in (("hits", "x"), ("hits", "-1"), ("hits", "1.5"), ("seed", ""), ("hits", str(2**64))):
            row = list(cells)
            row[lines[0].split(",").index(place)] = wrong
            refused(room, [text, lines[0] + lines[2] + ",".join(row)], f"{room}/1.csv: line 3: ")
        refused(room, [text, lines[0] + lines[1][:-1] + ",1\n"], f"{room}/1.csv: line 2: not a row")
        refused(room, [text, lines[0] + lines[1].split(",", 1)[1]], f"{room}/1.csv: line 2: not a row")
        refused(room, [text, ""], f"{room}/1.csv: no rows")
        for length in range(len(lines[0]) + 1, len(lines[0]) + len(lines[1])):
            refused(room, [text, text[:length]], f"{room}/1.csv: line 2: cut off")
        ran = lockup("merge", write(f"{room}/rows.csv", text), "--json")
        same("JSON", (2, "", "lockup: --json: rows are put together as CSV alone\n"), (ran.status, ran.out, ran.err))
        ran = lockup("merge", "examples/litmus/sb.txt", "--mean")
        same("a walk", (2, "", "lockup: --mean: a walk has outcomes, and no means\n"), (ran.status, ran.out, ran.err))
        ran = lockup("merge", f"{room}/none")
        same("no file", (2, "", f"lockup: cannot read {room}/none\n"), (ran.status, ran.out, ran.err))


def density(degrees: int, t: float) -> float:
    lead = math.exp(math.lgamma((degrees + 1) / 2) - math.lgamma(degrees / 2)) / math.sqrt(degrees * math.pi)
    return lead * (1 + t * t / degrees) ** (-(degrees + 1) / 2)


def quantile(degrees: int) -> float:
    """Where 2.5 in 100 lie above: the density is summed from 0, by Simpson's rule."""
    low, high = 1.9, 13.0
    for _ in range(45):
        middle, steps = (low + high) / 2, 4000
        width = middle / steps
        total = sum((1 if place in (0, steps) else 4 if place % 2 else 2) * density(degrees, place * width) for place in range(steps + 1))
        low, high = (middle, high) if total * width / 3 < 0.475 else (low, middle)
    return high


def thousandths(degrees: int, known: dict[int, int]) -> int:
    """The quantile that is taken, rounded up: above 30 degrees that of the next lower of 30, 40, 60 and 120."""
    taken = degrees if degrees <= 30 else max(it for it in (30, 40, 60, 120) if it <= degrees)
    if taken not in known:
        known[taken] = math.ceil(quantile(taken) * THOUSAND - 1e-6)
    return known[taken]


def mean_of(values: list[int]) -> str:
    """The mean in thousandths, rounded to the nearest and half up."""
    number = math.floor(Fraction(sum(values), len(values)) * THOUSAND + Fraction(1, 2))
    return f"{number // THOUSAND}.{number % THOUSAND:03}"


def width_of(values: list[int], known: dict[int, int]) -> str:
    count = len(values)
    if count < 2:
        return ""
    squares = Fraction(sum(it * it for it in values)) - Fraction(sum(values) ** 2, count)
    wanted = Fraction(thousandths(count - 1, known)) ** 2 * squares / (count * (count - 1))
    number = math.isqrt(math.ceil(wanted))
    number += number * number < wanted
    return f"{number // THOUSAND}.{number % THOUSAND:03}"


def means_of(text: str, known: dict[int, int]) -> str:
    """The means of rows, by fractions."""
    head, *rows = csv.reader(io.StringIO(text))
    at = head.index("seed")
    groups: dict[tuple[str, ...], list[list[str]]] = {}
    for row in rows:
        groups.setdefault(tuple(row[:at]), []).append(row[at + 1:])
    out = io.StringIO()
    writer = csv.writer(out, lineterminator="\n")
    writer.writerow([*head[:at], "seeds", *itertools.chain(*((it, f"{it}_95") for it in head[at + 1:]))])
    for key, counts in groups.items():
        cells: list[str] = []
        for column in zip(*counts):
            values = [int(it) for it in column if it]
            cells += [mean_of(values), width_of(values, known)] if values else ["", ""]
        writer.writerow([*key, len(counts), *cells])
    return out.getvalue()


@seconds(20)
def test_means_of_a_sweep() -> None:
    known: dict[int, int] = {}
    with tempfile.TemporaryDirectory() as room:
        for seeds in ("5", "1..2", "1..9"):
            text = swept(seeds)
            same(seeds, means_of(text, known), merged(room, [text], "--mean"))
        text = swept("1..4", "--set", "ways=1,2")
        same("without accesses under way", means_of(text, known), merged(room, [text], "--mean"))


@seconds(60)
def test_drawn_means() -> None:
    """2 to 150 rows of a combination, of small numbers and of great ones."""
    draws, known = random.Random(7), {}
    with tempfile.TemporaryDirectory() as room:
        rows = []
        for setting, count in enumerate([1, *range(2, 35), 40, 41, 42, 60, 61, 62, 119, 120, 121, 122, 150]):
            most = [1, 3, 100, 10**6, 2**33][setting % 5]
            for seed in draws.sample(range(10**6), count):
                numbers = [draws.randrange(most + 1), 5, 2**63 + draws.randrange(most + 1), draws.choice(["", 7, 8])]
                rows.append(f"p,{setting},{seed}," + ",".join(map(str, numbers)) + "\n")
        draws.shuffle(rows)
        text = "program,setting,seed,a,b,c,d\n" + "".join(rows)
        same("means", means_of(text, known), merged(room, [text], "--mean"))


@seconds(60)
def test_many_rows() -> None:
    """100,000 rows in ten files are put together in seconds."""
    with tempfile.TemporaryDirectory() as room:
        numbers = ",".join("12345" for _ in range(40))
        head = "program,setting,seed," + ",".join(f"c{it}" for it in range(40)) + "\n"
        texts = [head + "".join(f"p,{setting},{seed},{numbers}\n" for setting in range(100) for seed in range(file * 100, file * 100 + 100))
                 for file in range(10)]
        came = merged(room, texts[::-1])
        wanted = head + "".join(f"p,{setting},{seed},{numbers}\n" for setting in range(100) for seed in range(1000))
        want(came == wanted, "the rows aren't those of the files, in order")


@each(lambda: ["", "x", "seed\n1\n"])
def test_what_is_no_rows(text: str) -> None:
    """A text without the heading of rows is taken for a litmus test."""
    with tempfile.TemporaryDirectory() as room:
        ran = lockup("merge", write(f"{room}/text", text))
        want(ran.status == 2 and ran.out == "" and ran.err.startswith("lockup: "), f"{ran}")
