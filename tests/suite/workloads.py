"""Each workload of `lockup generate`, whole, is what docs/EXAMPLES.md says that its cores ask for: the
machine, and each access of each core in its order, for several numbers of cores, sizes and seeds. The
models are written from that page, a function a workload; what the program prints is read as
docs/TEXTS.md has programs, and its ranges and blocks written out.

Of `zipf` and `uniform` how often each line is drawn is also compared with the law itself, and each word
of a line with an equal share, by Pearson's test; and the model of `zipf` is compared with a wrong one,
so that the test tells them apart."""
from itertools import product
from typing import Callable, Iterator

from harness import each, lockup, same, seconds, want
from harness.generator import Generator

Access = tuple
Model = Callable[[int, int, Generator], tuple[int, list[list[Access]]]]
LINES, WORDS = 256, 8


# ---- what is printed


def accesses(lines: list[list[str]]) -> list[Access]:
    """Writes out the ranges and blocks of a program: each access as its name, word and operands."""
    blocks: list[list[Access]] = [[]]
    times = []
    for name, *words in lines:
        if name == "repeat":
            times.append(int(words[0]))
            blocks.append([])
        elif name == "end":
            done = blocks.pop() * times.pop()
            blocks[-1] += done
        else:
            first, _, last = words[0].partition("..")
            operands = [int(word) for word in words[1:]]
            blocks[-1] += [(name, word, *operands) for word in range(int(first), int(last or first) + 1)]
    want(len(blocks) == 1, "a block is left open")
    return blocks[0]


def parted(text: str) -> tuple[dict[str, str], list[list[Access]]]:
    """Returns the configuration of programs, and the accesses of each core."""
    lines = [line.split() for line in text.splitlines() if line.split() and not line.startswith("#")]
    starts = [place for place, line in enumerate(lines) if line[0] == "core"]
    programs = {}
    for start, end in zip(starts, [*starts[1:], len(lines)]):
        programs[int(lines[start][1])] = accesses(lines[start + 1:end])
    head = lines[:starts[0]]
    want(all(len(line) == 2 for line in head), f"the configuration is {head}")
    same("cores with programs", list(range(len(programs))), sorted(programs))
    return dict(head), [programs[core] for core in range(len(programs))]


def generated(name: str, cores: int, size: int, seed: int) -> tuple[dict[str, str], list[list[Access]]]:
    ran = lockup("generate", name, "--cores", str(cores), "--size", str(size), "--seed", str(seed))
    same("status and error", (0, ""), (ran.status, ran.err))
    return parted(ran.out)


# ---- the models: how many lines the machine has, and what each core asks for


def up(count: int) -> int:
    return (count + WORDS - 1) // WORDS * WORDS


def load(*words: int) -> list[Access]:
    return [("load", word) for word in words]


def parts(count: int) -> list[range]:
    """The numbers below a count in blocks of four."""
    return [range(first, min(first + 4, count)) for first in range(0, count, 4)]


def matmul(cores: int, size: int, _: Generator) -> tuple[int, list[list[Access]]]:
    right, cells = up(size * size), 2 * up(size * size)
    asked: list[list[Access]] = [[] for _ in range(cores)]
    for number, rows in enumerate(parts(size)):
        for columns, inner in product(parts(size), parts(size)):
            for row, column in product(rows, columns):
                cell = cells + row * size + column
                asked[number % cores] += load(*(row * size + place for place in inner))
                asked[number % cores] += load(*(right + place * size + column for place in inner), cell)
                asked[number % cores].append(("store", cell, 1))
    return 3 * up(size * size) // WORDS, asked


def histogram(cores: int, size: int, generator: Generator) -> tuple[int, list[list[Access]]]:
    asked = []
    for core in range(cores):
        items = (64 + core * up(size) + item for item in range(size))
        asked.append([it for item in items for it in (("load", item), ("add", generator.word() % 64, 1))])
    return (64 + cores * up(size)) // WORDS, asked


def ring(cores: int, size: int, _: Generator) -> tuple[int, list[list[Access]]]:
    asked = []
    for core in range(cores):
        first = 24 * (core // 2)
        put, taken = first + 8, first + 16
        asked.append([])
        for item in range(size):
            slot = first + item % 8
            if core % 2 == 0:
                asked[core] += [("load", taken), ("store", slot, item), ("store", put, item + 1)]
            else:
                asked[core] += [("load", put), ("load", slot), ("store", taken, item + 1)]
    return 3 * ((cores + 1) // 2), asked


def lock(cores: int, size: int, _: Generator) -> tuple[int, list[list[Access]]]:
    return 2, [[("cas", 0, 0, 1), ("load", 8), ("store", 8, core), ("store", 0, 0)] * size for core in range(cores)]


def chase(cores: int, size: int, generator: Generator) -> tuple[int, list[list[Access]]]:
    order = list(range(size))
    for place in range(size):
        other = place + generator.word() % (size - place)
        order[place], order[other] = order[other], order[place]
    starts = [core * size // cores for core in range(cores)]
    return size, [load(*(8 * line for line in order[start:] + order[:start])) for start in starts]


def drawn(cores: int, size: int, generator: Generator, line_of: Callable[[], int]) -> list[list[Access]]:
    asked: list[list[Access]] = [[] for _ in range(cores)]
    for core in range(cores):
        for access in range(size):
            line = line_of()
            word = 8 * line + generator.word() % 8
            asked[core].append(("store", word, 1) if access % 4 == 3 else ("load", word))
    return asked


def uniform(cores: int, size: int, generator: Generator) -> tuple[int, list[list[Access]]]:
    return LINES, drawn(cores, size, generator, lambda: generator.word() % LINES)


def zipf(cores: int, size: int, generator: Generator) -> tuple[int, list[list[Access]]]:
    weights = [(1 << 32) // (line + 1) for line in range(LINES)]

    def line_of() -> int:
        at = generator.word() % sum(weights)
        for line, weight in enumerate(weights):
            if at < weight:
                return line
            at -= weight
        raise AssertionError
    return LINES, drawn(cores, size, generator, line_of)


def stencil(cores: int, size: int, _: Generator) -> tuple[int, list[list[Access]]]:
    other = up(size * size)
    asked: list[list[Access]] = [[] for _ in range(cores)]
    for source, target in (0, other), (other, 0):
        for row, column in product(range(1, size - 1), range(1, size - 1)):
            at, core = row * size + column, row * cores // size
            asked[core] += load(*(source + at + step for step in (-size, -1, 0, 1, size)))
            asked[core].append(("store", target + at, 1))
    return 2 * other // WORDS, asked


MODELS: dict[str, Model] = {
    "matmul": matmul, "histogram": histogram, "ring": ring, "lock": lock, "chase": chase, "uniform": uniform,
    "zipf": zipf, "stencil": stencil,
}
# sizes about the edges of blocks, lines and bands; more cores than rows, and more than one puts
SIZES = {
    "matmul": [1, 3, 4, 5, 9, 16], "histogram": [1, 8, 9, 200], "ring": [1, 8, 9, 30], "lock": [1, 17],
    "chase": [1, 2, 7, 64, 500], "uniform": [1, 4, 300], "zipf": [1, 4, 300], "stencil": [1, 2, 3, 4, 9, 20],
}


def runs() -> Iterator[tuple]:
    for name, sizes in SIZES.items():
        for cores in (1, 2, 3, 5, 64):
            yield f"{name} of {cores} cores", name, cores, sizes


@each(runs)
def test_workload(_: str, name: str, cores: int, sizes: list[int]) -> None:
    for size in sizes:
        seeds = (1, 7, (1 << 64) - 1) if name in ("histogram", "chase", "uniform", "zipf") else (1, 7)
        for seed in seeds:
            lines, asked = MODELS[name](cores, size, Generator(seed))
            config = {"cores": str(cores), "lines": str(lines), "sets": "16", "ways": "4"}
            found, programs = generated(name, cores, size, seed)
            same(f"size {size}, seed {seed}: machine", config, found)
            for core in range(cores):
                same(f"size {size}, seed {seed}: core {core}", asked[core], programs[core])


def test_largest_matrices() -> None:
    for name in "matmul", "stencil":
        lines, asked = MODELS[name](4, 64, Generator(1))
        found, programs = generated(name, 4, 64, 1)
        same(f"{name}: lines and accesses", (str(lines), True), (found["lines"], programs == asked))


def test_models_tell_enough() -> None:
    """A model with one thing wrong asks for something else: another seed, another order of the same words."""
    for name, model in MODELS.items():
        asked = model(3, SIZES[name][-1], Generator(1))[1]
        if name in ("histogram", "chase", "uniform", "zipf"):
            want(asked != model(3, SIZES[name][-1], Generator(2))[1], f"{name} doesn't depend on the seed")
        want(len({tuple(core) for core in asked}) == 3, f"{name}: two cores ask for the same")
        for core in asked:
            want(len(set(core)) > 1, f"{name}: a core has one access alone")


# ---- how often


def pearson(counts: list[int], shares: list[float]) -> float:
    """Pearson's sum over classes of which each is expected often enough."""
    total, whole, found = sum(counts), sum(shares), 0.0
    for count, share in zip(counts, shares, strict=True):
        wanted = total * share / whole
        want(wanted > 5, "a class is too rare for this test")
        found += (count - wanted) ** 2 / wanted
    return found


def fits(counts: list[int], shares: list[float]) -> bool:
    """Whether the sum is within five deviations of its mean, which a right law misses once in a million."""
    free = len(counts) - 1
    return abs(pearson(counts, shares) - free) < 5 * (2 * free) ** 0.5


LAWS = {"zipf": [1 / (line + 1) for line in range(LINES)], "uniform": [1.0] * LINES}


@seconds(2)
@each(lambda: list(LAWS))
def test_law(name: str) -> None:
    words = [access[1] for program in generated(name, 64, 1500, 11)[1] for access in program]
    lines, places = [0] * LINES, [0] * WORDS
    for word in words:
        lines[word // WORDS] += 1
        places[word % WORDS] += 1
    want(fits(lines, LAWS[name]), f"lines are drawn so often: {lines}")
    want(fits(places, [1.0] * WORDS), f"words of a line are drawn so often: {places}")
    for other, law in LAWS.items():
        want(other == name or not fits(lines, law), f"it can't be told from {other}")
    # a law that is a little steeper, or that leaves out the first line, is told apart
    want(not fits(lines, [share ** 1.1 if name == "zipf" else share * (1 + line / 2000)
                          for line, share in enumerate(LAWS[name])]), "a law beside this one fits too")
