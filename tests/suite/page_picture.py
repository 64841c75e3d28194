"""Looks at the picture of pages in a real browser, as one shows it: by the boxes of what is drawn, and by its words.

- No label stands on another, nor on a lifeline, at each step of each example, on a telephone, a tablet and a desk; and
  what the step is about always has its words.
- The commands at the left edge are whole, in narrow windows too.
- The core and the line that act are in view at each step, also of eight cores, where the directory stays in view.
- Several lines have lanes of their own, as the steps need them or as they are chosen; so one sees the misses that wait,
  and in each the accesses, from their issue to their performance.
- What Data bring and what accesses did to their words is worked out by hand; all that one delivery performs stands there.
- A step that found no room lights no row of the tables, and its cross stands on its own line's lifeline; with
  `exclusive off` the tables say what `table` prints without E; a report stands whole in its box.
- A page opens at the step, the lines and the size of its link, and says them in it; a run that ends early says so.
- A projector shows nothing of what comes, and the keys of a clicker go from event to event.
"""
import re
import tempfile
from contextlib import contextmanager
from typing import Any, Iterator

from harness import each, lockup, same, seconds, want, write
from harness.chromium import Chromium
from harness.scripts import example, examples, is_command, is_trace
from suite.page import needs_a_browser

PARTS = """
const all = (kind, from = document) => [...from.querySelectorAll(kind)];
const boxOf = it => (({ left, right, top, bottom }) => ({ left, right, top, bottom }))(it.getBoundingClientRect());
const meets = (a, b) => Math.min(a.right, b.right) - Math.max(a.left, b.left) > 1
    && Math.min(a.bottom, b.bottom) - Math.max(a.top, b.top) > 1;
const textsOf = kind => all(kind).map(it => it.textContent);
// a state stands in its own bar, or in its chip
function isOwn(text, bar) {
    const isAt = text.dataset.line === bar.dataset.line && (text.dataset.who || text.dataset.chip) === bar.dataset.who;
    return isAt && (bar.matches('.chip') ? 'chip' in text.dataset : text.matches('[transform]') && 'state' in text.dataset);
}
function badLabels() {
    const labels = all('#diagram text').filter(it => it.textContent.trim()).map(it => ({ it, box: boxOf(it) }));
    const bars = all('#diagram .bar, #diagram .chip').map(it => ({ it, box: boxOf(it) }));
    const view = boxOf(at('diagram'));
    const isCut = ({ left, right, top, bottom }) => left < view.left || right > view.right || top < view.top || bottom > view.bottom;
    const found = [...labels, ...bars.filter(({ it }) => it.matches('.chip'))].filter(({ box }) => isCut(box))
        .map(({ it }) => `'${it.textContent}' is cut`);
    labels.forEach((one, order) => {
        for (const other of labels.slice(order + 1)) {
            if (meets(one.box, other.box)) found.push(`'${one.it.textContent}' stands on '${other.it.textContent}'`);
        }
        for (const bar of bars) {
            if (meets(one.box, bar.box) && !isOwn(one.it, bar.it)) {
                found.push(`'${one.it.textContent}' stands on ${bar.it.dataset.who}, line ${bar.it.dataset.line}`);
            }
        }
    });
    return found;
}
// what the step is about and has no words, though it is in view
function unsaid() {
    const row = rows[now - 1];
    if (!row || !row.event) return [];
    const seen = new Set(all('#diagram .bar').map(it => it.dataset.who));
    const found = all('[data-channel]').filter(it => [it.dataset.sent, it.dataset.delivered].includes(String(now))
        && seen.has(it.dataset.from) && seen.has(it.dataset.to)
        && !document.querySelector(`.label[data-of="${it.dataset.of}"]`)).map(it => it.dataset.name);
    const marks = all(`.mark[data-step="${now}"], .performed[data-step="${now}"]`).length;
    const wanted = row.performed.length || (/^(blocked|stall|busy|buffer full)/.test(row.said) ? 1 : 0);
    return marks === wanted ? found : [...found, `${marks} of ${wanted} marks`];
}
"""


class Page(Chromium):
    """A script's page in a browser."""

    def show_page(self, script: str, link: str = "") -> None:
        page = lockup("page", "-", text=script).out
        file = write(f"{self.room.name}/page{self.count}.html", page.replace("</body>", f"<script>{PARTS}</script></body>"))
        self.open(f"file://{file}{link}")
        self.wait(f"location.pathname === {str(file)!r} && document.readyState === 'complete' && !!window.badLabels")

    def step(self, number: int) -> None:
        self.get(f"show({number})")

    def texts(self, kind: str) -> list[str]:
        return self.get(f"textsOf({kind!r})")

    def lines(self, kind: str = "#diagram .bar") -> list[str]:
        """Returns the lines that are drawn."""
        return sorted(set(self.get(f"all({kind!r}).map(it => it.dataset.line)")), key=int)

    def numbers(self, kind: str, *names: str) -> list[list[float]]:
        """Returns these numbers of each element."""
        return self.get(f"all({kind!r}).map(it => {list(names)}.map(name => Number(it.getAttribute(name))))")

    def middle(self, selector: str) -> float:
        left, right = self.get(f"(({{ left, right }}) => [left, right])(boxOf(document.querySelector({selector!r})))")
        return (left + right) / 2

    def follow(self, value: str) -> None:
        self.get(f"(() => {{ at('follow').value = {value!r}; at('follow').onchange(); }})()")


@contextmanager
def page(script: str, link: str = "", width: int = 1400, height: int = 900) -> Iterator[Page]:
    needs_a_browser()
    with Page(width, height) as it:
        it.show_page(script, link)
        yield it
        same("errors of the page", [], it.errors())


def scripts() -> list[str]:
    return [name for name in examples() if not is_trace(example(name))]


def numbered(script: str, said: str) -> list[int]:
    """Returns the numbers of the steps whose explained answers have these words, of a script without pumps."""
    answers = lockup("script", "--explain", "-", text=script).out.split("\n")
    return [number for number, it in enumerate(answers, 1) if said in it]


# ---- labels

@seconds(90)
@each(lambda: ["390x844", "1024x768", "1400x900"])
def test_labels(size: str) -> None:
    width, height = map(int, size.split("x"))
    needs_a_browser()
    with Page(width, height) as it:
        for name in scripts():
            it.show_page(example(name))
            bad, empty = it.get("""(() => {
                const found = [[], []];
                for (let step = 0; step <= steps.length; step++) {
                    show(step);
                    found[0].push(...badLabels().map(it => `step ${step}: ${it}`));
                    found[1].push(...unsaid().map(it => `step ${step}: ${it}`));
                }
                return found;
            })()""")
            same(f"labels of {name} at {size}", [], bad)
            same(f"what has no words in {name} at {size}", [], empty)
        same("errors of the page", [], it.errors())


@seconds(10)
def test_labels_that_are_shortened_say_all() -> None:
    """Each arrow says its whole name to whoever points at it."""
    with page(example("forwards_that_wait"), "#step=20", 390, 844) as it:
        for name, title in it.get("all('[data-channel]').map(it => [it.dataset.name, it.querySelector('title').textContent])"):
            want(title.startswith(name), f"'{title}' is said of {name}")


@seconds(10)
@each(lambda: ["390x844", "896x676", "1400x900"])
def test_commands_are_whole(size: str) -> None:
    """Of two cores each command at the left edge stands there whole, and its answer."""
    width, height = map(int, size.split("x"))
    script = example("invalidation_before_data")
    with page(script, width=width, height=height) as it:
        found = it.get("""Array.from({ length: steps.length }, (_, before) => {
            show(before + 1);
            return document.querySelector('.row.current .text').textContent;
        })""")
        commands = [line for line in script.splitlines() if is_command(line)]
        same("commands", [f"{number} {line}" for number, line in enumerate(commands, 1)], found)


# ---- what is in view

EIGHT = "cores 8\n" + "".join(f"issue {core} 0 add {8 * (core % 3)} 1\npump 9\n" for core in (7, 0, 6, 1, 5, 2, 4, 3))


@seconds(20)
@each(lambda: ["390x844", "1024x768", "1400x900"])
def test_who_acts_is_in_view(size: str) -> None:
    width, height = map(int, size.split("x"))
    with page(EIGHT, width=width, height=height) as it:
        for script in (EIGHT, example("false_sharing"), example("store_buffering")):
            it.show_page(script)
            gone = it.get("""(() => {
                const found = [];
                for (let step = 1; step <= steps.length; step++) {
                    show(step);
                    const { event } = rows[step - 1];
                    if (!event) continue;
                    const view = boxOf(at('time'));
                    for (const who of [event.who, 'directory']) {
                        const bars = all(`#diagram .bar[data-who="${who}"][data-line="${event.line}"]`);
                        const isSeen = bars.map(boxOf).some(it => it.left >= view.left && it.right <= view.right);
                        if (!isSeen) found.push(`step ${step}: ${who}, line ${event.line}`);
                    }
                }
                return found;
            })()""")
            same(f"what isn't in view at {size}", [], gone)
            same("labels", [], it.get("badLabels()"))


# ---- lanes

MISSES = "cores 1\nmshrs 8\n" + "".join(f"issue 0 {tag} load {8 * tag}\n" for tag in range(8))


@seconds(10)
def test_several_lines() -> None:
    """Store buffering needs two lines, which are both there where they are needed."""
    with page(example("store_buffering")) as it:
        count = it.get("steps.length")
        for step in range(8, count - 2):
            it.step(step)
            same(f"lines at step {step}", ["0", "1"], it.lines())
        lanes = it.get("all('#diagram .chip').map(it => [it.dataset.who, it.dataset.line])")
        same("lanes", [[who, line] for who in ("core 0", "directory", "core 1") for line in ("0", "1")], lanes)
        same("arrows", ["0", "1"], it.lines("[data-channel]"))
        # each arrow goes from its line's lane at the sender to that at the receiver
        off = it.get("""all('[data-channel]').filter(it => it.dataset.delivered).filter(it => {
            const x = who => (it => Number(it.getAttribute('x')) + Number(it.getAttribute('width')) / 2)(document.querySelector(
                `.bar[data-who="${who}"][data-line="${it.dataset.line}"]`));
            const way = ['x1', 'x2'].map(name => Number(it.querySelector('line').getAttribute(name)));
            return Math.abs(x(it.dataset.from) - way[0]) > 14 || Math.abs(x(it.dataset.to) - way[1]) > 14;
        }).length""")
        same("arrows that are off their lanes", 0, off)


@seconds(10)
def test_lines_that_are_chosen() -> None:
    with page(example("false_sharing"), "#step=25") as it:
        same("as the steps go", ["2", "3"], it.lines())
        it.follow("0")
        same("one that is chosen", ["0"], it.lines())
        boxes = "all('#lines input')"
        same("its box", [True, False, False], it.get(f"{boxes}.map(it => it.checked)"))
        it.get(f"{boxes}[2].click()")
        same("with another", (["0", "3"], "0, 3"), (it.lines(), it.get("at('follow').value")))
        it.wait("location.hash === '#step=25&line=0,3'")
        it.step(3)
        same("they stay", ["0", "3"], it.lines())
        it.get("all('#lines tr')[0].click()")
        same("a click on a row", ["0"], it.lines())
        it.follow("")
        it.step(27)
        want("2" in it.lines(), f"as the steps go, {it.lines()} are shown")


@seconds(5)
def test_misses_in_flight() -> None:
    """Eight misses of one core are eight lanes that wait."""
    with page(MISSES, "#step=8") as it:
        waiting = it.get("all('#diagram .bar.missing').map(it => [it.dataset.who, it.dataset.line, it.dataset.state])")
        same("misses", [["core 0", str(line), "IS_D"] for line in range(8)], waiting)
        same("labels", [], it.get("badLabels()"))


@seconds(5)
def test_accesses_that_wait() -> None:
    """Each begins at its issue and ends where it is performed, beside the others of its line."""
    script = "cores 1\nissue 0 7 load 0\nissue 0 1 load 1\nissue 0 2 load 8\ndeliver req 0 0\ndeliver data 0 0\n"
    with page(script + "issue 0 3 load 0\nhand 0 0\nissue 0 7 load 16\ndeliver req 2 0\ndeliver data 2 0\n", "#step=6") as it:
        it.get("choose([0, 1, 2])")
        found = it.get("all('#diagram .target').map(it => [it.dataset.line, it.dataset.issued, it.dataset.performed])")
        same("accesses", [["0", "1", "5"], ["0", "2", "5"], ["1", "3", ""], ["2", "8", "10"]], found)
        ends = it.numbers("#diagram .target line", "x1", "y1", "y2")
        heights = [y for y, in it.numbers(".row .rule", "y1")]
        want(ends[0][0] != ends[1][0], "two that wait for one line have one place")
        for (_, begins, _), issued in zip(ends, (0, 1, 2)):
            want(0 < begins - heights[issued] < 10, f"an access begins at {begins}, its row at {heights[issued]}")
        same("where they are performed", [heights[4]] * 2, [it[2] for it in ends[:2]])


# ---- values

VALUES = """cores 2
issue 0 0 add 0 5
deliver req 0 0
deliver data 0 0
issue 1 0 add 0 18446744073709551615
deliver req 0 1
deliver fwd 0 0
deliver data 0 1
issue 1 1 cas 0 4 9
issue 1 2 cas 0 4 8
issue 1 3 load 0
issue 1 4 store 1 7
issue 0 1 load 1
"""


@seconds(10)
def test_values() -> None:
    """0 + 5 = 5, and 5 + 2^64 - 1 wraps to 4."""
    with page(VALUES + "deliver req 0 0\ndeliver fwd 0 1\n", "#step=14", 1400, 1200) as it:
        performed = ["add 0 5: 0 to 5", "add 0 18446744073709551615: 5 to 4", "cas 0 4 9: 4 to 9", "cas 0 4 8: 9 stays",
                     "load 0: 9", "store 1 7"]
        same("what is performed", [f"#{number} {text}" for number, text in enumerate(performed)],
             it.texts("#diagram .diamond title"))
        def said(kind: str) -> list[str]:
            return [re.split(", core|, dir", text)[0] for text in it.texts(f"#diagram g.{kind}[data-channel] title")]
        same("what Data bring", ["Data(0): 0, 0", "Data(0): 5, 0", "Data(0): 9, 7"], said("data"))
        same("what comes home", ["Data home: 9, 7"], said("home"))
        for text in ("Data(0): 0, 0", "Data(0): 5, 0", "#0 add 0 5: 0 to 5", "#1: 5 to 4"):
            want(text in it.texts("#diagram text"), f"'{text}' stands nowhere")


@seconds(5)
def test_all_that_is_performed() -> None:
    """Eight loads of one line are performed by one delivery."""
    script = "cores 1\ntargets 8\n" + "".join(f"issue 0 {tag} load {tag}\n" for tag in range(8))
    with page(script + "deliver req 0 0\ndeliver data 0 0\nissue 0 9 load 0\n", "#step=10") as it:
        same("what stands there", [*(f"#{number} load {number}: 0" for number in range(8)), "#8 load 0: 0"],
             it.texts(".performed"))
        same("labels", [], it.get("badLabels()"))
        heights = [y for y, in it.numbers(".row .rule", "y1")]
        want(all(below - above > 39 for above, below in zip(heights, heights[1:])), f"rows stand at {heights}")
        want(heights[10] - heights[9] > 8 * 13, f"the row after those loads stands at {heights[10]}, theirs at {heights[9]}")


@seconds(5)
def test_legend() -> None:
    with page(example("store_buffering")) as it:
        same("before it is opened", 0, it.get("all('#legend li').length"))
        it.get("all('#legend summary')[0].click()")
        it.wait("all('#legend li').length > 0")
        for sign in ("req", "fwd", "data", "ack", "home", "open", "ring", "cross", "diamond", "bar.missing", "target"):
            want(it.get(f"!!document.querySelector('#legend li .{sign}')"), f"the legend has no {sign}")
        same("states", {"I", "S", "E", "M", "S_D", "IS_D", "IM_AD", "IM_A", "SM_AD", "SM_A", "MI_A", "SI_A", "II_A"},
             set(it.texts("#legend .cell")))


# ---- the tables and the answers

@seconds(5)
def test_a_stall() -> None:
    """It lights nothing, since nothing was sent; its cross stands in the lane of the line that was asked for."""
    script = re.sub("pump 9", "deliver req 2 0\ndeliver data 2 0", example("no_room_for_registers"))
    stalls = numbered(script, "stall 1 NoRegister")
    same("stalls", 2, len(stalls))
    with page(script) as it:
        for step, line, cell in zip(stalls, ("1", "2"), ("GetS; IS_D", "GetM; SM_AD")):
            it.step(step)
            same(f"what is lit at step {step}", ([], [cell]), (it.texts("#met .lit"), it.texts("#met .would")))
            want("would be" in it.get("at('met').textContent"), "it doesn't say that the row wasn't taken")
            cross = it.middle(f'.cross[data-step="{step}"]')
            lane = it.middle(f'#diagram .bar[data-who="core 0"][data-line="{line}"]')
            want(abs(cross - lane) < 2, f"the cross of step {step} stands at {cross}, its lane at {lane}")
        it.follow("0")
        same("crosses of other lines", [], it.lines(".cross"))


def cells_of(text: str) -> list[list[str]]:
    return [[cell.strip() for cell in line[1:-1].split("|")] for line in text.split("\n")
            if line.startswith("|") and not line.startswith("|---")]


@seconds(5)
@each(lambda: ["off", "on"])
def test_tables_without_e(exclusive: str) -> None:
    """With `exclusive off` what is there, but what is grey, is what `table` prints without E."""
    option = ["--exclusive"] if exclusive == "on" else []
    wanted = [*cells_of(lockup("table", "cache", *option).out), *cells_of(lockup("table", "directory", *option).out)]
    with page(f"exclusive {exclusive}\nissue 0 0 load 0\n", "#step=1") as it:
        it.get("all('#tables summary')[0].click()")
        it.wait("all('#tables tr').length > 0")
        # rows and columns of the other setting are grey as a whole; a single cell of it has a dash
        found = it.get("""all('#tables table').flatMap(table => {
            const [heads, ...rest] = all('tr', table).map(row => [...row.children]);
            const kept = row => row.filter((_, column) => !heads[column].matches('.off')).map(cell => cell.textContent);
            return [heads, ...rest.filter(row => !row[0].matches('.off'))].map(kept);
        })""")
        plain = [[re.sub(r" \(exclusive off\)", "", cell) if exclusive == "off" else cell for cell in row] for row in found]
        wanted = [row for row in wanted if exclusive == "off" or row[0] != "I (exclusive off)"]
        same("the tables", wanted, plain)
        grey = it.get("all('#tables td.off').map(it => it.textContent)")
        same("what isn't taken", {"-"}, set(grey))


@seconds(5)
@each(lambda: ["390x844", "1024x768", "1400x900"])
def test_a_report_is_whole(size: str) -> None:
    width, height = map(int, size.split("x"))
    with page(example("false_sharing"), width=width, height=height) as it:
        it.get("show(steps.length)")
        cut = it.get("""(() => {
            const inside = boxOf(at('now'));
            return all('#now td, #now th').filter(it => boxOf(it).right > inside.right || boxOf(it).left < inside.left).length;
        })()""")
        same("cells that are cut", 0, cut)
        same("its cores", ["core 0", "core 1"], it.texts("#now th")[1:3])


@seconds(5)
def test_a_run_that_ends_early() -> None:
    script = "issue 0 0 load 0\ndeliver req 0 0\nissue 0 ad\nstate 0\n"
    with page(script, "#step=1") as it:
        same("above", "This run ends early: line 3: not a command", it.get("at('fault').textContent"))
        top = it.get("[boxOf(at('fault')).bottom, boxOf(at('time')).top, at('fault').checkVisibility()]")
        want(top[0] <= top[1] and top[2], f"it isn't above the picture: {top}")
        same("not yet", [], it.texts("#now .ends"))
        it.step(2)
        same("at the last step", ["The run ends here: line 3: not a command"], it.texts("#now .ends"))
        same("behind the last row", ["ends here: line 3: not a command"], it.texts("#diagram .ends"))
        same("labels", [], it.get("badLabels()"))
    with page("issue 0 0 load 0\n", "#step=1") as it:
        same("a whole run", [False, []], [it.get("at('fault').checkVisibility()"), it.texts(".ends")])


@seconds(5)
def test_numbers_of_entries() -> None:
    """The number of an entry in the log is no reply."""
    with page("issue 0 5 add 0 3\npump 9\n", "#step=4") as it:
        same("what is to be handed out", ["core 0 tag 5, number 0 in the log"], it.texts("#cores .rest"))


@seconds(5)
def test_names_of_objects() -> None:
    with page("toString 5\nconstructor 5\n") as it:
        same("settings", [False, False], it.get("['toString', 'constructor'].map(it => Object.hasOwn(shape, it))"))


# ---- the link, the keys, the projector

@seconds(10)
def test_links() -> None:
    script = example("false_sharing")
    with page(script, "#step=25") as it:
        current = it.get("""(() => {
            const [row, view] = [boxOf(document.querySelector('.row.current')), boxOf(at('time'))];
            return [now, document.querySelector('.row.current').dataset.step, row.top >= view.top, row.bottom <= view.bottom];
        })()""")
        same("the step that is opened", [25, "25", True, True], current)
        it.step(7)
        it.wait("location.hash === '#step=7'")
        it.get("location.hash = '#step=9&line=2,0&zoom=1.5'")
        it.wait("now === 9")
        same("lines", ["0", "2"], it.lines())
        same("size", [1.5, "24px"], it.get("[zoom, getComputedStyle(document.documentElement).fontSize]"))
        below = it.get("boxOf(document.querySelector('.row.current')).bottom - boxOf(at('time')).bottom")
        want(below <= 0, f"its row is cut by {below}")
    for link in ("#step=x", "#step=-1", "#line=99,x&zoom=1e9", "#%", "#step=1&step=2&zoom=-3&line=__proto__"):
        with page(script, link) as it:
            want(it.get("0.5 <= zoom && zoom <= 4 && now >= 0 && chosenLines.length === 0"), f"{link} is opened as it says")


@seconds(10)
def test_a_projector() -> None:
    with page(example("store_buffering"), "#step=5") as it:
        size = it.get("boxOf(all('.row .text')[0]).bottom - boxOf(all('.row .text')[0]).top")
        it.click("#projector")
        larger = it.get("boxOf(all('.row .text')[0]).bottom - boxOf(all('.row .text')[0]).top")
        want(larger > 1.4 * size, f"texts are {size} high, and then {larger}")
        same("what comes", ["1", "auto"], it.get("""(({ opacity, pointerEvents }) => [opacity, pointerEvents])(
            getComputedStyle(all('.coming')[0]))"""))
        it.wait("location.hash === '#step=5&zoom=1.5&projector=on'")
        # the lines of what comes aren't told either
        it.step(3)
        same("lines", ["1"], it.lines())
        for _ in range(3):
            it.key("PageDown")
        want(it.get("now") > 3, "the keys of a clicker don't step")
        same("labels", [], it.get("badLabels()"))
        it.click("#projector")
        same("as before", 1, it.get("zoom"))


@seconds(5)
def test_the_keys_of_a_clicker() -> None:
    """They go from event to event: what only looks is passed over, and so is what a pump leaves."""
    script = "issue 0 0 load 0\nstate 0\nwaiting\npump 9\nword 0\nissue 0 1 load 0\nshow\n"
    with page(script) as it:
        seen = []
        for key in ["PageDown"] * 6 + ["PageUp"] * 6:
            it.key(key)
            seen.append(it.get("now"))
        same("steps", [1, 4, 5, 8, 9, 9, 8, 5, 4, 1, 0, 0], seen)
        it.get("at('focus').focus()")
        it.key("PageDown")
        same("where one reads", 0, it.get("now"))
        it.get("document.activeElement.blur()")
        for key, size in (("+", 1.25), ("+", 1.5), ("-", 1.25), ("-", 1), ("-", 1)):
            it.get(f"document.body.dispatchEvent(new KeyboardEvent('keydown', {{ key: {key!r}, bubbles: true }}))")
            same(f"size after {key}", size, it.get("zoom"))


@seconds(10)
def test_2000_commands() -> None:
    """A click stays under 50 ms; the best of some, since other tests run beside it."""
    script = "".join(f"issue {at % 2} 0 add {8 * (at % 5)} 1\npump 9\nhand {at % 2} 0\n" for at in range(667))
    with page(script) as it:
        taken = []
        for step in range(500, 1500, 20):
            taken.append(it.get(f"""(() => {{
                const began = performance.now();
                show({step});
                document.body.getBoundingClientRect();
                return performance.now() - began;
            }})()"""))
            if taken[-1] < 50:
                return
        want(False, f"a click takes {taken} ms")
