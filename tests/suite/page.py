"""Steps each example's page through in a real browser, and compares what is drawn with what the
program prints.

For each script the page of `lockup page` is looked at as JSON, and then opened in chromium without
a window, where every step is shown of every line, and what is there is read:

- the value's data are at each step what `state`, `waiting` and `show` print, also at each delivery
  of a pump, which are delivered one by one for it;
- the states on each lifeline, at its head and in its bar at the cursor, are those of `state`, each
  in its own colour;
- the arrows are those of `lockup chart`, from the same sender to the same receiver, and at each
  step those in flight are the ones that `waiting` prints: so each begins and ends at the steps of
  its sending and delivery, where it is drawn too. Rings are the chart's crosses, and no label of one
  is cut;
- what was performed is what `log` prints; copies, targets and replies are those of `show`; who
  leaves a set is the first of it that can; and what a slice would deliver next a pump delivers;
- one row of the tables is lit, and it is that of the explained answer.

Lines that differ in nothing but their blanks are shown as they are written. A script with an
invalid line has the steps before it and the error. Keys, a telephone, paper, still pictures and a
long run have tests of their own.
"""
import json
import re
import shutil
import subprocess
import tempfile
from functools import cache
from typing import Any, Sequence

from harness import Different, Skipped, each, each_refused, is_plain, lockup, needs, program, same, seconds, want, write
from harness.scripts import split
from harness.states import States, shown_scripts, states_of

# What is read from the page. It knows the page's parts by their classes and marks alone.
READERS = """
<script>
const all = (kind, from = document) => [...from.querySelectorAll(kind)];
const texts = (kind, from = document) => all(kind, from).map(it => it.textContent);
const number = (it, name) => Number(it.getAttribute(name));
const cells = from => all('tr', from).map(it => [...it.children].map(cell => cell.textContent));
const byName = name => Object.fromEntries(all(`[data-${name}]`).map(it => [it.dataset[name], it.textContent]));
function readBars() {
    return all('.bar').map(it => ({ who: it.dataset.who, state: it.dataset.state, colour: getComputedStyle(it).fill,
        middle: number(it, 'x') + number(it, 'width') / 2, top: number(it, 'y'), height: number(it, 'height') }));
}
function readArrows() {
    return all('[data-channel]').map(it => {
        const line = it.querySelector('line');
        return { ...it.dataset, way: ['x1', 'y1', 'x2', 'y2'].map(name => number(line, name)) };
    });
}
// how far a label is from the commands, and from the right edge
function readEdges(it) {
    const { x, width } = it.getBBox();
    const place = placed();
    return [it.textContent, x - place.label, place.width - x - width];
}
function readLine() {
    const cursor = document.querySelector('#cursor line');
    return { line: at('line').querySelector('h2').textContent, who: texts('#line .who')[0], home: texts('#line .word'),
        messages: texts('.messages li'), heads: byName('chip'), may: byName('may'), bars: readBars(),
        cursor: number(cursor, 'y1'), flying: all('[data-flying]').map(it => it.dataset.flying) };
}
function readStep() {
    const cores = all('.core').map(it => ({ core: it.dataset.core, registers: cells(it.querySelector('table')).slice(1),
        used: it.querySelector('caption').textContent, sets: all('.set', it).map(row => texts('th, td', row)),
        leaving: all('.leaving', it).map(row => texts('td', row)),
        blocks: all('.copy', it).map(row => texts('td', row)) }));
    const met = all('#met tr').map(row => texts('th, td', row));
    return { now: texts('#now .command')[0], answer: texts('pre.answer')[0], report: cells(at('now')), cores, met,
        lit: texts('#met .lit'), would: texts('#met .would'),
        rest: texts('#cores .rest'), could: texts('#could .rest') };
}
function tell(read) {
    document.body.replaceChildren(document.createElement('pre'));
    document.body.firstChild.textContent = JSON.stringify(read);
    document.body.firstChild.id = 'read';
}
</script>
"""

READ_ALL = READERS + """
<script>
const read = [];
const names = ascending.map(String);
for (let step = 0; step <= steps.length; step++) {
    show(step);
    read.push({ step, ...readStep(), lines: names.map(line => { follow(line); return readLine(); }) });
}
// room for all of the run
document.body.style.height = '12000px';
const drawing = names.map(line => {
    follow(line);
    show(steps.length);
    return { line, arrows: readArrows(), rings: all('.ring').length, edges: all('.mark').map(readEdges),
        rows: all('.row').map(it => [number(it, 'data-step'), number(it.querySelector('line'), 'y1')]) };
});
const performedAt = row => row.performed.map(it => [it.slice, it.number, it.access, it.reply]);
tell({ read, drawing, performed: rows.flatMap(performedAt) });
</script>
"""

# the colours of states, as they are chosen for light paper
COLOURS = {
    "I": "#dcdcdc", "S": "#86c784", "M": "#de6f5e", "E": "#cf9bdc", "IS_D": "#bcd6f2", "IM_AD": "#fdc27d",
    "IM_A": "#fbe3a6", "SM_AD": "#b3e0a2", "SM_A": "#d9f2c4", "S_D": "#86cfc6", "MI_A": "#e0b3a6", "SI_A": "#cdbfa8",
    "II_A": "#c3bcc9",
}
# what a core may do with its copy
MAY = {
    "I": "no copy", "S": "reads", "M": "reads and writes", "E": "reads and writes", "SM_AD": "reads, waits",
    "SM_A": "reads, waits", **dict.fromkeys(("IS_D", "IM_AD", "IM_A", "MI_A", "SI_A", "II_A"), "waits"),
}
MISSING = ("IS_D", "IM_AD", "IM_A", "SM_AD", "SM_A")
LEAVING = ("MI_A", "SI_A", "II_A")
SHAPE = {"cores": 2, "slices": 1, "sets": 4, "ways": 2, "mshrs": 4, "targets": 4, "writebacks": 2}


def value_of(page: str) -> str:
    """Returns the text of the value of JSON in a page."""
    return re.search(r'id="run">\n(.*?)</script>', page, re.S).group(1)


def lines_of(text: str) -> list[str]:
    return text.split("\n")[:-1]


# ---- the value

def steps_of(run: dict[str, Any]) -> list[dict[str, Any]]:
    want(run["steps"][-1] is None, "the steps don't end with null")
    return run["steps"][:-1]


def step_by_step(script: str, steps: list[dict[str, Any]]) -> str:
    """Returns the script with a command for each step: a pump's deliveries one by one, and `waiting`
    where the pump itself says what is left."""
    config, _ = split(script)
    return "\n".join([*config, *("waiting" if it["call"]["name"] == "pump" else it["command"] for it in steps)]) + "\n"


class Read:
    """What a page's value says of a machine: what each step gave last."""

    def __init__(self, script: str) -> None:
        self.cores, self.slices = shape_of(script)["cores"], shape_of(script)["slices"]
        self.lines, self.copies, self.parts, self.next, self.logs = {}, {}, {}, {}, {}

    def take(self, step: dict[str, Any]) -> None:
        for line in (step["line"], step["victim"]):
            if line:
                self.lines[line["line"]] = line
        core, done = step["core"], step["performed"]
        if core:
            for copy in (core["copy"], core["victim"]):
                if copy:
                    self.copies[copy["line"], copy["core"]] = copy
            slice_ = step["call"].get("slice", step["call"].get("line", 0) % self.slices)
            self.parts[slice_, core["core"]] = core
        if done:
            log = self.logs.setdefault(done["slice"], [])
            same("the first entry that a step gives", len(log), done["first"])
            log += done["entries"]
            self.next[done["slice"]] = step["next"]

    def states(self) -> list[str]:
        """The lines that `state` prints of what was given, in the order in which it was first."""
        found = []
        for line, it in self.lines.items():
            owner = "-" if it["owner"] is None else it["owner"]
            sharers = ",".join(map(str, it["sharers"])) or "-"
            copies = [self.copies.get((line, core), {"state": "I"})["state"] for core in range(self.cores)]
            found.append(f"line {line} dir {it['dir']} owner {owner} sharers {sharers} home {' '.join(it['home'])} "
                         f"cores {' '.join(copies)}")
        return found

    def in_order(self) -> list[int]:
        """The lines as `waiting` and `show` go through them: slice by slice, ascending."""
        return sorted(self.lines, key=lambda line: (line % self.slices, line))

    def messages(self) -> list[str]:
        """The lines that `waiting` prints."""
        found = []
        for line in self.in_order():
            for it in self.lines[line]["messages"]:
                fate = it["fate"]
                if fate == "blocked":
                    fate = f"blocked: {self.lines[line]['dir'] if it['to'] == 'directory' else self.copies[line, it['to']]['state']}"
                found.append(f"deliver {channel_of(it, line)}   {name_of(it)}   {fate}")
        return found

    def held(self) -> list[str]:
        """The lines that `show` prints of copies, accesses and replies, as `without_rings` has them."""
        found = []
        for slice_ in range(self.slices):
            for line in (it for it in self.in_order() if it % self.slices == slice_):
                for core in range(self.cores):
                    copy = self.copies.get((line, core))
                    if not copy or copy["state"] == "I":
                        continue
                    needed = "?" if copy["needed"] is None else copy["needed"]
                    acks = f" acks {copy['got']} of {needed}" if copy["got"] or copy["needed"] else ""
                    block = " ".join(copy["block"]) if copy["block"] else ""
                    found.append(f"core {core} line {line} {copy['state']}{acks} block {block}")
                    found += [f"core {core} tag {it['tag']} awaits {access_of(it, 8 * line + it['offset'])} "
                              f"seq {it['seq']} since {it['since']}" for it in copy["targets"]]
            for core in range(self.cores):
                for it in self.parts.get((slice_, core), {"replies": []})["replies"]:
                    found.append(f"core {core} tag {it['tag']} entry {it['number']}")
        return found

    def places(self) -> dict[tuple[int, int], tuple[list[int], list[int]]]:
        """The lines that wait and those that leave, by slice and core."""
        return {at: (sorted(it["registers"]), sorted(it["leaving"])) for at, it in self.parts.items()
                if it["registers"] or it["leaving"]}


def channel_of(message: dict[str, Any], line: int) -> str:
    """Returns a channel as `deliver` names it."""
    ends = {"req": ["from"], "ack": ["to", "from"], "home": []}.get(message["class"], ["to"])
    return " ".join(map(str, [message["class"], line, *(message[it] for it in ends)]))


def name_of(message: dict[str, Any]) -> str:
    """Returns the name of a message as `waiting` prints it."""
    if "acks" in message:
        return f"{message['kind']}({message['acks']})"
    return f"{message['kind']} for core {message['for']}" if "for" in message else message["kind"]


def access_of(it: dict[str, Any], word: int) -> str:
    operands = [it[name] for name in ("expect", "value") if name in it]
    return " ".join(map(str, [it["op"], word, *operands]))


def without_rings(shown: list[str]) -> list[str]:
    """Returns what `show` prints of copies, accesses and replies. A copy without a block has none to
    show, nor one that hasn't been told it the number of acknowledgements."""
    found = []
    for text in shown:
        if text.startswith(("line ", "slice ")):
            continue
        copy = re.fullmatch(r"(core \d+ line \d+ (\S+))( acks \d+ of )?(\d+)?( block )(.*)", text)
        if copy:
            who, state, acks, number, block, words = copy.groups()
            number = "?" if state in ("IM_AD", "SM_AD") else number
            words = "" if state in ("IS_D", "IM_AD", "II_A") else words
            text = who + (f"{acks}{number}" if acks else "") + block + words
        found.append(text)
    return found


def places_of(script: str, shown: list[str]) -> dict[tuple[int, int], tuple[list[int], list[int]]]:
    """Returns the lines that wait and those that leave, by slice and core, from what `show` prints."""
    found, slices = {}, shape_of(script)["slices"]
    for text in shown:
        copy = re.match(r"core (\d+) line (\d+) (\S+)", text)
        for place, states in enumerate((MISSING, LEAVING)):
            if copy and copy[3] in states:
                at = int(copy[2]) % slices, int(copy[1])
                found.setdefault(at, ([], []))[place].append(int(copy[2]))
    return {at: (sorted(waits), sorted(leaves)) for at, (waits, leaves) in found.items()}


@each(shown_scripts)
def test_value(name: str) -> None:
    """What the page's value gives of the machine is at each step what the program prints: `state` of
    each line, `waiting`, `show` and at last `log`; and what a slice would deliver next is what a pump
    delivers."""
    script = shown_scripts()[name]
    ran = lockup("page", "-", text=script)
    same("status and error", (0, ""), (ran.status, ran.err))
    run = json.loads(value_of(ran.out))
    steps, read = steps_of(run), Read(script)
    same("script", script, run["script"])
    same("commands", split(script)[1], [it["command"] for it in steps if not is_in_pump(it)])
    commands, wanted = states_of(step_by_step(script, steps))
    same("steps", len(commands), len(steps))
    for at, (step, states) in enumerate(zip(steps, wanted), 1):
        if is_in_pump(step):
            line = step["call"]["line"]
            same(f"what slice {line % read.slices} delivers at step {at}", without(step["call"], "name"),
                 read.next.get(line % read.slices))
        text = script.split("\n")[step["at"] - 1].rstrip("\r")
        same(f"the line of the script at step {at}", is_in_pump(step) or step["command"],
             text.split()[0] == "pump" if is_in_pump(step) else text)
        read.take(step)
        same(f"states at step {at}", states.lines, read.states())
        same(f"messages at step {at}", states.messages, read.messages())
        same(f"copies, accesses and replies at step {at}", without_rings(states.held), read.held())
        same(f"registers and write-backs at step {at}", places_of(script, states.held), read.places())
    check_performed(script, [[slice_, number, access_of(it, it["word"]), it["reply"]]
                             for slice_, log in read.logs.items() for number, it in enumerate(log)])


def is_in_pump(step: dict[str, Any]) -> bool:
    """Whether a step is a delivery of a pump."""
    return step["call"]["name"] == "deliver" and step["answer"].startswith("deliver ")


def without(it: dict[str, Any], key: str) -> dict[str, Any]:
    return {name: value for name, value in it.items() if name != key}


def test_a_pump() -> None:
    """A pump is a step for each of its deliveries, with the row that was met, and one that says what
    is left."""
    script = "issue 0 0 add 0 5\npump 9\n"
    steps = steps_of(json.loads(value_of(lockup("page", "-", text=script).out)))
    wanted = [
        (1, "issue 0 0 add 0 5", "pending 0   core 0 (I, write): primary miss; to IM_AD; sends GetM to dir 0\n"),
        (2, "deliver req 0 0", "deliver req 0 0   dir 0 (I, GetM): to M, owner 0; sends Data(0) to core 0\n"),
        (2, "deliver data 0 0", "deliver data 0 0   core 0 (IM_AD, Data(0)): to M; performs number 0\n"),
        (2, "pump 9", "empty\n"),
    ]
    same("steps", wanted, [(it["at"], it["command"], it["answer"]) for it in steps])
    zeros = ["0"] * 8
    same("the first delivery", {
        "at": 2, "command": "deliver req 0 0", "answer": wanted[1][2],
        "call": {"name": "deliver", "line": 0, "class": "req", "from": 0, "to": "directory"},
        "plan": {"fate": "moves", "next": "M", "forwards": None},
        "line": {"line": 0, "dir": "M", "owner": 0, "sharers": [], "home": zeros, "messages": [
            {"class": "data", "to": 0, "kind": "Data", "acks": 0, "block": zeros, "fate": "moves"}]},
        "victim": None, "performed": {"slice": 0, "first": 0, "entries": []},
        "next": {"line": 0, "class": "data", "to": 0}, "core": None}, steps[1])
    same("the second one", {
        "at": 2, "command": "deliver data 0 0", "answer": wanted[2][2],
        "call": {"name": "deliver", "line": 0, "class": "data", "to": 0}, "plan": {"fate": "moves", "next": "M"},
        "line": {"line": 0, "dir": "M", "owner": 0, "sharers": [], "home": zeros, "messages": []}, "victim": None,
        "performed": {"slice": 0, "first": 0, "entries": [
            {"core": 0, "tag": 0, "word": 0, "op": "add", "value": "5", "reply": "0"}]},
        "next": None, "core": {
            "core": 0, "copy": {"core": 0, "line": 0, "state": "M", "got": 0, "needed": 0,
                                "block": ["5", *zeros[1:]], "targets": []},
            "victim": None, "registers": [], "leaving": [], "set": [0], "replies": [{"tag": 0, "number": 0}]}}, steps[2])


def test_its_size() -> None:
    """A page stays small whatever lines its commands name: 10,000 commands on as many lines."""
    script = "lines 16384\n" + "".join(
        f"issue 0 0 load {8 * line}\ndeliver req {line} 0\ndeliver data {line} 0\nhand 0 0\n" for line in range(2500))
    few = len(lockup("page", "-", text=script).out)
    script = "lines 16384\n" + "".join(f"state {line}\n" for line in range(10000))
    many = len(lockup("page", "-", text=script).out)
    want(few < 20_000_000 and many < 20_000_000, f"the pages have {few} and {many} bytes")


def test_an_invalid_line() -> None:
    script = "cores 1\n# \"<\\\nissue 0 0 add 0 5\nissue 0 ad\n"
    page = lockup("page", "-", text=script)
    run = json.loads(value_of(page.out))
    told = (page.status, page.err, run["fault"], run["script"], [it and it["command"] for it in run["steps"]])
    wanted = (2, "lockup: line 4: not a command   end of the line: load, store, add or cas\n", "line 4: not a command", script, ["issue 0 0 add 0 5", None])
    same("the page of a script with an invalid line", wanted, told)


@seconds(20)
def test_without_memory() -> None:
    """Has one allocation after another refused: the steps before it stand there, and the error."""
    script = "issue 0 0 add 0 5\npump 9\nhand 0 0\n"
    is_plain()
    wanted = None
    for refused, ran in each_refused([program(), "page", "-"], script):
        if ran.status == 0:
            wanted = wanted or ran.out
            same(f"the page with allocation {refused} refused", wanted, ran.out)
            continue
        same(f"status and error with allocation {refused} refused", (3, "lockup: no memory\n"), (ran.status, ran.err))
        if ran.out:
            run = json.loads(value_of(ran.out))
            same(f"the error with allocation {refused} refused", "no memory", run["fault"])
            whole, steps = steps_of(json.loads(value_of(wanted))), steps_of(run)
            same(f"steps with allocation {refused} refused", whole[:len(steps)], steps)


def opened(file: str, room: str, *more: str) -> str:
    """Returns what a browser without a window makes of a file."""
    flags = "--headless --no-sandbox --disable-gpu --disable-dev-shm-usage --dump-dom".split()
    words = [shutil.which("chromium"), *flags, *more, f"--user-data-dir={room}/profile", f"file://{file}"]
    return subprocess.run(words, capture_output=True, text=True, timeout=100).stdout


@cache
def a_browser_runs() -> bool:
    text = "<p id='p'></p><script>document.getElementById('p').textContent = 6 * 7;</script>"
    with tempfile.TemporaryDirectory(ignore_cleanup_errors=True) as room:
        try:
            return ">42<" in opened(str(write(f"{room}/empty.html", text)), room)
        except (OSError, subprocess.TimeoutExpired):
            return False


def needs_a_browser() -> None:
    """Skips the test where no browser runs here."""
    needs("chromium")
    if not a_browser_runs():
        raise Skipped("'chromium' doesn't run here")


def read_in_a_browser(script: str, reads: str, *more: str, options: Sequence[str] = ()) -> Any:
    """Returns what a reader finds on a script's page, written with these options."""
    needs_a_browser()
    page = lockup("page", *options, "-", text=script).out
    with tempfile.TemporaryDirectory(ignore_cleanup_errors=True) as room:
        file = write(f"{room}/page.html", page.replace("</body>", reads + "</body>"))
        found = re.search(r'<pre id="read">(.*?)</pre>', opened(str(file), room, *more), re.S)
    if not found:
        raise Different("the browser shows nothing")
    return json.loads(found.group(1).replace("&lt;", "<").replace("&gt;", ">").replace("&amp;", "&"))


def shape_of(script: str) -> dict[str, int]:
    config, _ = split(script)
    shape = dict(SHAPE)
    shape.update((it.split()[0], int(it.split()[1])) for it in config if it.split()[0] in shape)
    return shape


def rgb(colour: str) -> str:
    return f"rgb({', '.join(str(int(colour[at:at + 2], 16)) for at in (1, 3, 5))})"


# ---- states and messages

def check_lifelines(at: str, state: str, shown: dict[str, Any]) -> None:
    """Compares what is drawn of a line at a step with what `state` prints."""
    entry, owner, sharers, home, cores = re.fullmatch(
        r"line \d+ dir (\S+) owner (\S+) sharers (\S+) home (.*) cores (.*)", state).groups()
    states = {"directory": entry, **{f"core {core}": it for core, it in enumerate(cores.split())}}
    same(f"states at the heads at {at}", states, shown["heads"])
    same(f"what may be done at {at}", {who: "" if who == "directory" else MAY[it] for who, it in states.items()},
         shown["may"])
    who = f"owner {owner}" if owner != "-" else f"sharers {sharers}" if sharers != "-" else "no copies"
    same(f"entry at {at}", (who, [f"home copy {home}"]), (shown["who"], shown["home"]))
    under = [it for it in shown["bars"] if it["top"] <= shown["cursor"] - 20 < it["top"] + it["height"]]
    same(f"states at the cursor at {at}", states, {it["who"]: it["state"] for it in under})
    same(f"colours at {at}", {who: rgb(COLOURS[it]) for who, it in states.items()},
         {it["who"]: it["colour"] for it in under})


def check_messages(at: str, line: str, waiting: list[str], shown: dict[str, Any]) -> None:
    """Compares the messages of a line at a step with what `waiting` prints."""
    awaited = {"IS_D": "Data", "IM_AD": "Data and Inv-Ack", "IM_A": "Inv-Ack", "SM_AD": "Data and Inv-Ack",
               "SM_A": "Inv-Ack", "S_D": "Data home"}
    own = [it.split("   ") for it in waiting if it.split()[2] == line]
    same(f"messages at {at}", len(own), len(shown["messages"]))
    for (command, name, fate), listed in zip(own, shown["messages"]):
        told = f"{fate} waits for {awaited[fate.split()[1]]}" if fate.startswith("blocked") else fate
        found = re.fullmatch(r"(.+) (directory|core \d+) → (directory|core \d+): (.*) \((.*)\)", listed)
        want(found, f"{at} doesn't say who sent: {listed}")
        same(f"a message at {at}", [name, told, command], [found[1], found[4], found[5]])
    same(f"messages in flight at {at}", sorted(command for command, _, _ in own), sorted(set(shown["flying"])))


# ---- what the cores hold

def copies_of(shown: list[str]) -> dict[str, list[dict[str, Any]]]:
    """Returns what each core has, from what `show` prints."""
    found, last = {}, None
    for text in shown:
        copy = re.fullmatch(r"core (\d+) line (\d+) (\S+)(?: acks (\d+) of (\d+))? block (.*)", text)
        if copy:
            core, line, state, come, whole, block = copy.groups()
            acks = "" if come is None else f"acks {come} of {'?' if state in ('IM_AD', 'SM_AD') else whole}"
            # what has no block yet or any more has none to show
            last = {"line": line, "state": state, "acks": acks, "waits": [],
                    "block": "" if state in ("IS_D", "IM_AD", "II_A") else block}
            found.setdefault(core, []).append(last)
        elif " awaits " in text:
            tag, access = re.fullmatch(r"core \d+ tag (\d+) awaits (.*) seq \d+ since \d+", text).groups()
            last["waits"].append(f"tag {tag} {access}")
    return found


def check_cores(script: str, at: str, shown: list[str], step: dict[str, Any]) -> None:
    """Compares the tables of each core with what `show` prints."""
    shape, inverted = shape_of(script), re.search(r"^misses inverted", script, re.M)
    wanted, got = copies_of(shown), {it["core"]: it for it in step["cores"]}
    same(f"cores at {at}", sorted(wanted), sorted(got))
    for core, copies in wanted.items():
        missing = [it for it in copies if it["state"] in MISSING]
        rows = [[f"line {it['line']}", it["state"], it["acks"],
                 "; ".join(it["waits"]) + ("" if inverted else f" ({len(it['waits'])} of {shape['targets']})")]
                for it in missing]
        same(f"registers of core {core} at {at}", sorted(rows), sorted(got[core]["registers"]))
        bound = "an entry for each tag" if inverted else f"{len(missing)} of {shape['mshrs'] * shape['slices']} used"
        same(f"registers in use at {at}", f"miss registers: {bound}", got[core]["used"])
        same(f"blocks of core {core} at {at}", sorted([f"line {it['line']}", it["block"]] for it in copies if it["block"]),
             sorted(got[core]["blocks"]))
        leaving = [[f"line {it['line']}", it["state"]] for it in copies if it["state"] in LEAVING]
        same(f"what core {core} writes back at {at}", sorted(leaving), sorted(got[core]["leaving"]))
        stay = [it for it in copies if it["state"] not in LEAVING]
        check_sets(shape, f"core {core} at {at}", stay, got[core]["sets"])
    found = [re.match(r"(core \d+ tag \d+) entry (\d+)", it) for it in shown]
    replies = [f"{it[1]}, number {it[2]} in the log" for it in found if it]
    same(f"replies at {at}", sorted(replies), sorted(it for it in step["rest"] if it.startswith("core ")))


def check_sets(shape: dict[str, int], what: str, copies: list[dict[str, Any]], shown: list[list[str]]) -> None:
    sets = {}
    for it in copies:
        slice_, rest = int(it["line"]) % shape["slices"], int(it["line"]) // shape["slices"]
        name = f"set {rest % shape['sets']}" if shape["slices"] == 1 else f"slice {slice_} set {rest % shape['sets']}"
        sets.setdefault(name, []).append(f"line {it['line']} {it['state']}")
    same(f"sets of {what}", {name: sorted(it) for name, it in sets.items()},
         {row[0]: sorted(row[1:-1]) for row in shown})
    for row in shown:
        free = shape["ways"] - len(row) + 2
        same(f"free ways of {what}", "full" if free == 0 else f"{free} free", row[-1])


def check_victim(script: str, at: str, step: dict[str, Any], before: dict[str, Any], answer: str) -> None:
    """Checks that a line which makes room was the first of its set that could."""
    found = re.search(r"   core (\d+) \(I, .*; line (\d+) to ", answer)
    if not found or re.search(r"^policy random", script, re.M):
        return
    core, line = found.groups()
    rows = [row for it in before["cores"] if it["core"] == core for row in it["sets"]]
    row = next(row for row in rows if any(cell.split()[1:2] == [line] for cell in row[1:-1]))
    can = [cell.split()[1] for cell in row[1:-1] if cell.split()[2] in ("S", "M", "E")]
    same(f"the first line of its set at {at}", line, can[0])


# ---- the row of the table

@cache
def tables() -> dict[str, list[list[str]]]:
    """Returns the rows of the tables, each as the names of its columns and its cells."""
    found = {}
    for who, word in (("core", "cache"), ("dir", "directory")):
        parts = lockup("table", word, "--exclusive").out.split("\n\n")
        rows = [[[cell.strip() for cell in line[1:-1].split("|")] for line in part.split("\n")
                 if line.startswith("|") and not line.startswith("|---")] for part in parts]
        found[who] = [(table[0], row) for table in rows if table for row in table[1:]]
    return found


def row_name(script: str, state: str, core: str | None) -> str:
    """Returns the name of the directory's row for an entry, as `state` prints it, and a core that
    asks."""
    entry, owner, sharers = re.match(r"line \d+ dir (\S+) owner (\S+) sharers (\S+)", state).groups()
    if entry == "I":
        return "I (exclusive on)" if re.search(r"^exclusive on", script, re.M) else "I (exclusive off)"
    if entry == "M":
        return "M, owner r" if owner == core else "M, owner o"
    who = set() if sharers == "-" else set(sharers.split(","))
    mine, others = core in who, who - {core}
    if entry == "S":
        return f"S, sharers {'r, x' if mine and others else 'r' if mine else 'x'}"
    return f"S_D, sharers {'o, r' if mine and others else 'r' if mine else 'o, x'}" if who else "S_D"


def check_row(script: str, at: str, step: dict[str, Any], answer: str, before: list[str]) -> None:
    """Compares the row that is lit with the case of the explained answer. What found no room lights none, but is framed."""
    case = re.match(r"[^\n]*?   (core|dir) \d+ \((\S+), (.*?)\): (?:to (\w+))?", answer)
    words = step["now"].split()
    if not case:
        return same(f"no row at {at}", ([], []), (step["lit"], step["would"]))
    who, state, event, to = case.groups()
    if who == "dir":
        unnamed = f"line 0 dir {state} owner - sharers -"
        old = next((it for it in before if it.startswith(f"line {int(words[2])} ")), unnamed)
        name, column = row_name(script, old, words[3] if words[1] == "req" else None), event
    else:
        name, column = state, re.sub(r" for core \d+|\(\d+\)$", "", event)
    lit = []
    for heading, row in tables()[who]:
        if row[0].replace(" (exclusive on)", "") != name and row[0] != name:
            continue
        for title, cell in list(zip(heading, row))[1:]:
            plain = title.replace(" (exclusive on)", "")
            if title in (column, f"{column} of r") or plain.startswith(column + ",") and cell.split("; ")[-1] == to:
                lit.append(cell)
    shown = step["met"][1][0].replace(" (exclusive on)", "") if who == "core" else step["met"][1][0]
    is_in_vain = answer.startswith(("stall", "buffer full"))
    same(f"the row at {at}", (name, *((([], lit) if is_in_vain else (lit, [])))), (shown, step["lit"], step["would"]))
    want(len(lit) >= 1, f"no cell is lit at {at}")


# ---- the drawing of the whole run

def chart_of(script: str) -> tuple[list[tuple[str, ...]], int]:
    """Returns the arrows of the chart, and how many messages it shows as blocked, by their lines."""
    arrows, blocked = [], {}
    for text in lockup("chart", "-", text=script).out.split("\n"):
        found = re.fullmatch(r" +(\w+?)(->>|-x)(\w+?): (.*), line (\d+)( \(blocked\))?", text)
        if found and found[2] == "->>":
            who = ["directory" if it.startswith("dir") else it.replace("core", "core ") for it in (found[1], found[3])]
            arrows.append((*who, found[4], found[5]))
        elif found:
            blocked[found[5]] = blocked.get(found[5], 0) + 1
    return arrows, blocked


def check_drawing(script: str, drawing: list[dict[str, Any]], wanted: list[States]) -> None:
    """Compares the arrows and rings of the whole run with the chart, and their ends with the rows."""
    arrows, blocked = chart_of(script)
    for it in drawing:
        line, rows = it["line"], {}
        for step, y in it["rows"]:
            rows.setdefault(step, []).append(y)
        made = [arrow for arrow in it["arrows"] if arrow["delivered"]]
        made.sort(key=lambda arrow: arrow["way"][3])
        same(f"arrows of line {line}", [arrow[:3] for arrow in arrows if arrow[3] == line],
             [(arrow["from"], arrow["to"], arrow["name"]) for arrow in made])
        same(f"rings of line {line}", blocked.get(line, 0), it["rings"])
        for label, left, right in it["edges"]:
            want(left >= 0 and right >= 0, f"'{label}' of line {line} is cut: {left} and {right}")
        for arrow in it["arrows"]:
            check_ends(arrow, rows)
        for step, states in enumerate(wanted, 1):
            flying = {arrow["channel"]: arrow["name"] for arrow in reversed(it["arrows"])
                      if int(arrow["sent"]) <= step and (not arrow["delivered"] or int(arrow["delivered"]) > step)}
            waiting = dict(text.split("   ")[:2] for text in states.messages if text.split()[2] == line)
            same(f"arrows of line {line} that cross step {step}", waiting, flying)


def check_ends(arrow: dict[str, Any], rows: dict[int, list[float]]) -> None:
    """Checks that an arrow is drawn from the row of its sending to that of its delivery."""
    _, y1, _, y2 = arrow["way"]
    want(any(0 < y1 - y < 10 for y in rows[int(arrow["sent"])]), f"not drawn from where it is sent: {arrow}")
    if arrow["delivered"]:
        want(y2 in rows[int(arrow["delivered"])], f"not drawn to where it is delivered: {arrow}")


def check_performed(script: str, got: list[list[Any]]) -> None:
    """Compares what was performed with the logs."""
    slices = shape_of(script)["slices"]
    logs = "\n".join(f"log {it}" for it in range(slices))
    out = lockup("script", "--echo", "-", text=script.rstrip("\n") + "\n" + logs + "\n").out.split("\n")
    for slice_ in range(slices):
        begins = len(out) - 1 - out[::-1].index(f"log {slice_}")
        entries = []
        for text in out[begins + 1:]:
            if text.startswith("log "):
                break
            words = text.split()
            if words[:1] == ["entry"]:
                entries.append((" ".join(words[4:-2]), words[-2]))
        same(f"what slice {slice_} performed", [(slice_, at, *it) for at, it in enumerate(entries)],
             [tuple(it) for it in got if it[0] == slice_])


def check_answer(at: str, told: dict[str, Any], step: dict[str, Any]) -> None:
    if told["call"]["name"] != "stats":
        want(("moved" if is_in_pump(told) else told["answer"]).startswith(step["answer"]), f"{at} doesn't show its answer")
        return
    heads, *counts = [it.split() for it in told["answer"].split("\n") if it and not it.startswith("messages")]
    same(f"the report at {at}", [["", *(f"core {it[0]}" for it in counts)],
                                 *([name, *(it[place] for it in counts)] for place, name in enumerate(heads[1:], 1))],
         step["report"])


@seconds(8)
@each(shown_scripts)
def test_in_a_browser(name: str) -> None:
    script = shown_scripts()[name]
    found = read_in_a_browser(script, READ_ALL, "--window-size=1400,900")
    steps = steps_of(json.loads(value_of(lockup("page", "-", text=script).out)))
    _, wanted = states_of(step_by_step(script, steps))
    read = found["read"]
    same("steps", len(steps) + 1, len(read))
    for step, states, told in zip(read[1:], wanted, steps):
        at, before = f"step {step['step']}", read[step["step"] - 1]
        same(f"command at {at}", told["command"], step["now"])
        check_answer(at, told, step)
        check_cores(script, at, states.held, step)
        same(f"what can be delivered at {at}", [it.rsplit("   ", 1)[0] for it in states.messages if it.endswith("moves")],
             step["could"])
        check_victim(script, at, step, before, told["answer"])
        check_row(script, at, step, told["answer"], wanted[step["step"] - 2].lines if step["step"] > 1 else [])
        for shown in step["lines"]:
            state = next((it for it in states.lines if it.startswith(shown["line"] + " ")), None)
            if state:
                check_lifelines(at, state, shown)
                check_messages(at, shown["line"].split()[1], states.messages, shown)
    check_drawing(script, found["drawing"], wanted)
    check_performed(script, found["performed"])


# ---- how it is used

A_RACE = """# A race: an Inv before its Data.
issue 0 0 load 0
deliver req 0 0
issue 1 0 store 0 6
deliver req 0 1
# The Inv has to wait.
deliver fwd 0 0
deliver data 0 0
deliver fwd 0 0
"""

PRESS = READERS + """
<script>
function pressed(key, more = {}, target = document.body) {
    const event = new KeyboardEvent('keydown', { key, bubbles: true, cancelable: true, ...more });
    target.dispatchEvent(event);
    return [now, event.defaultPrevented];
}
const read = {
    right: [pressed('ArrowRight'), pressed('ArrowRight'), pressed('ArrowRight')], left: pressed('ArrowLeft'),
    end: pressed('End'), past: pressed('ArrowRight'), home: pressed('Home'), before: pressed('ArrowLeft'),
    down: pressed('ArrowDown', {}, at('time')), up: pressed('ArrowUp', {}, at('time')),
    scroll: pressed('ArrowDown', {}, at('focus')), browser: pressed('ArrowLeft', { altKey: true }),
    button: pressed(' ', {}, at('forward')), tables: pressed(' ', {}, document.querySelector('summary')),
    input: pressed('ArrowRight', {}, at('step')),
};
read.play = [pressed(' '), at('play').textContent, pressed(' '), at('play').textContent].flat();
show(5);
const rect = at('diagram').getBoundingClientRect();
const cursor = document.getElementById('cursor');
read.slider = [cursor.getAttribute('role'), cursor.getAttribute('aria-valuenow'), cursor.getAttribute('aria-valuemax')];
const told = { clientX: 9, pointerId: 1, bubbles: true, cancelable: true };
const point = (kind, y) => new PointerEvent(kind, { ...told, clientY: y });
at('diagram').setPointerCapture = () => {};
cursor.dispatchEvent(point('pointerdown', rect.top + cursorY(placed())));
at('diagram').dispatchEvent(point('pointermove', rect.top + cursorY(placed()) - 2 * ROW));
at('diagram').dispatchEvent(point('pointerup', rect.top));
read.dragged = now;
document.querySelector('.row[data-step="2"]').dispatchEvent(new MouseEvent('click', { bubbles: true }));
read.clicked = now;
show(4);
show(5);
read.said = at('said').textContent;
read.live = at('said').getAttribute('aria-live');
read.caption = at('caption').textContent;
read.title = document.title;
read.moving = all('.moving').length;
show(6);
read.landing = all('.moving').length;
read.buttons = all('button').map(it => it.getAttribute('aria-label') || it.textContent);
tell(read);
</script>
"""


@seconds(3)
def test_keys_and_the_pointer() -> None:
    """What the keys do, and what they leave to the browser and to buttons; what is told of a step."""
    read = read_in_a_browser(A_RACE, PRESS)
    wanted = {
        "right": [[1, True], [2, True], [3, True]], "left": [2, True], "end": [7, True], "past": [7, True],
        "home": [0, True], "before": [0, True], "down": [1, True], "up": [0, True], "scroll": [0, False],
        "browser": [0, False], "button": [0, False], "tables": [0, False], "input": [0, False],
        "play": [0, True, "stop", 0, True, "play"], "slider": ["slider", "5", "7"], "dragged": 3, "clicked": 2,
        "said": "step 5 of 7: deliver fwd 0 0: blocked; core 0 in IS_D, Inv for core 1; waits for Data",
        "live": "polite", "caption": "The Inv has to wait.", "title": "A race - lockup", "moving": 0, "landing": 1,
        "buttons": ["to the start", "a step back", "play", "a step forward", "to the end"],
    }
    for key, value in wanted.items():
        same(key, value, read[key])


@seconds(3)
def test_where_motion_is_unwelcome() -> None:
    read = read_in_a_browser(A_RACE, PRESS, "--force-prefers-reduced-motion")
    same("messages that move", (0, 0), (read["moving"], read["landing"]))


PHONE = READERS + """
<script>
const read = [];
for (let step = 1; step <= steps.length; step++) {
    show(step);
    const command = document.querySelector('#now .command').getBoundingClientRect();
    const row = document.querySelector('.row.current').getBoundingClientRect();
    const cursor = document.querySelector('#cursor line').getBoundingClientRect();
    const time = at('time').getBoundingClientRect();
    read.push([scrollX, scrollY, document.documentElement.scrollHeight <= innerHeight,
        command.top > 0 && command.bottom < innerHeight, row.top >= time.top && cursor.bottom <= time.bottom, innerWidth]);
}
tell(read);
</script>
"""


@seconds(3)
def test_on_a_telephone() -> None:
    """The command and its row are in view at each step, and nothing else scrolls."""
    read = read_in_a_browser(shown_scripts()["writer_waits_for_acknowledgements"], PHONE, "--window-size=390,844")
    want(read, "no steps")
    for step, (*rest, width) in enumerate(read, 1):
        want(width <= 500, f"the window is {width} wide")
        same(f"at step {step}", [0, 0, True, True, True], rest)


PRINT = READERS + """
<script>
dispatchEvent(new Event('beforeprint'));
tell(all('figure').map(it => ({ text: it.textContent, states: texts('.letters', it), names: texts('.label', it) })));
</script>
"""


@seconds(3)
def test_on_paper() -> None:
    """A picture for each step in which something happened, with the states after it and what is in
    flight."""
    read = read_in_a_browser(A_RACE, PRINT)
    pictures = [
        (["IS_D", "I"], ["GetS (in flight)"]), (["IS_D", "S"], ["GetS", "Data(0) (in flight)"]),
        (["IS_D", "S", "IM_AD"], ["Data(0) (in flight)", "GetM (in flight)"]),
        (["IS_D", "M", "IM_AD"], ["GetM", "Data(0) (in flight)", "Data(1) (in flight)", "Inv for core 1 (in flight)"]),
        (["IS_D", "M", "IM_AD"], ["Data(0) (in flight)", "Data(1) (in flight)", "Inv for core 1 (in flight)"]),
        (["S", "M", "IM_AD"], ["Data(0)", "Data(1) (in flight)", "Inv for core 1 (in flight)"]),
        (["I", "M", "IM_AD"], ["Inv for core 1", "Data(1) (in flight)", "Inv-Ack (in flight)"]),
    ]
    same("pictures", pictures, [(it["states"], it["names"]) for it in read])
    want("5. deliver fwd 0 0 blocked" in read[4]["text"] and "The Inv has to wait." in read[4]["text"], "no caption")


LONG = READERS + """
<script>
const timed = work => { const began = performance.now(); work(); return performance.now() - began; };
const read = { steps: steps.length, opened: performance.now() };
read.slowest = Math.max(...[1, 9000, 9001, 9002, 5000, 5001, steps.length, 3].map(it => timed(() => show(it))));
read.drawn = [1, 5000, steps.length].map(it => { show(it); return all('#diagram *').length; });
read.rows = all('.row').map(it => number(it, 'data-step'));
tell(read);
</script>
"""


@seconds(60)
def test_a_long_run() -> None:
    """10,002 commands are opened in some seconds and stepped without a wait, and what isn't in view isn't
    drawn."""
    script = "".join(f"issue {at % 2} 0 add 0 1\npump 99\nhand {at % 2} 0\n" for at in range(3334))
    told = lockup("script", "--explain", "-", text=script).out.split("\n")
    count = 10002 + sum(it.startswith("deliver ") for it in told)
    opened, slowest = [], []
    # the best of some, since other tests run beside it; alone it takes a fifth of this
    while not opened or (len(opened) < 9 and (min(opened) >= 5000 or min(slowest) >= 500)):
        read = read_in_a_browser(script, LONG, "--window-size=1280,900")
        same("steps", count, read["steps"])
        want(all(0 < it < 600 for it in read["drawn"]), f"{read['drawn']} elements are drawn")
        same("the last row", count, read["rows"][-1])
        want(len(read["rows"]) < 40, f"{len(read['rows'])} rows are drawn")
        opened.append(read["opened"])
        slowest.append(read["slowest"])
    want(min(opened) < 5000 and min(slowest) < 500, f"it takes {opened} and {slowest} ms")


WIDE = READERS + """
<script>
show(1);
const read = { drawn: all('.bar').map(it => it.dataset.who) };
show(steps.length);
read.last = all('.bar').map(it => it.dataset.who);
tell(read);
</script>
"""


@seconds(20)
def test_64_cores() -> None:
    """Of many lifelines those in view are drawn: the directory's, which stays, and those about the core that acts."""
    script = "cores 64\n" + "".join(f"issue {core} 0 add 0 1\npump 99\n" for core in range(64))
    read = read_in_a_browser(script, WIDE, "--window-size=1280,900")
    first, last = set(read["drawn"]), set(read["last"])
    want("directory" in first and "core 0" in first and "core 63" not in first, f"first come {sorted(first)}")
    want("core 63" in last and "core 0" not in last, f"last come {sorted(last)}")
    want(max(len(first), len(last)) < 12, f"{len(first)} and {len(last)} lifelines are drawn")
