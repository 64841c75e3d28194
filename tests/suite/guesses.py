"""Opens pages of `lockup page --guess` in a browser: no answer is shown, nor what follows it, before
it was guessed or asked for."""
import re

from harness import lockup, same, seconds, want
from suite.page import READERS, read_in_a_browser

SCRIPT = """# A miss.
issue 0 0 add 0 5
waiting
pump 9
hand 0 0
word 0
"""

GUESS = READERS + """
<script>
const read = {};
const asked = () => [now, at('question').hidden ? '' : at('question').firstChild.textContent];
const heard = () => document.querySelector('#question [role=status]').textContent;
function guessed(text) {
    at('guess').value = text;
    at('question').requestSubmit();
    return [...asked(), heard()];
}
// whether what comes is covered: rows behind the step are under an opaque cover, which the pointer meets
function covered() {
    const cover = getComputedStyle(document.querySelector('.coming'));
    return [cover.opacity, cover.pointerEvents];
}
function onPaper() {
    dispatchEvent(new Event('beforeprint'));
    return all('figure').map(it => it.hidden);
}
read.first = asked();
read.cover = covered();
show(99);
read.end = asked();
read.wrong = guessed('pending 1');
read.papers = [onPaper()];
read.right = guessed('  pending   0 ');
read.papers.push(onPaper());
read.state = document.querySelector('[data-chip="core 0"]').textContent;
read.lines = [guessed('none'), guessed('deliver req 0 0   GetM   moves')];
show(99);
read.pump = [asked(), guessed('left')];
all('#question button')[1].click();
read.shown = [...asked(), heard()];
show(2);
read.before = asked();
show(99);
read.again = asked();
at('hides').click();
show(99);
read.off = [...asked(), covered(), document.querySelector('#now .command').textContent];
at('hides').click();
read.on = asked();
read.rest = [guessed('receipt 0 tag 0 reply 0'), guessed('5')];
tell(read);
</script>
"""


@seconds(5)
def test_in_a_browser() -> None:
    """Each command is asked of, but none of a pump's deliveries; an answer is right by its words, without
    what is told of it."""
    read = read_in_a_browser(SCRIPT, GUESS, options=("--guess",))
    wanted = {
        "first": [0, "What does issue 0 0 add 0 5 answer?"], "cover": ["1", "auto"],
        "end": [0, "What does issue 0 0 add 0 5 answer?"],
        "wrong": [0, "What does issue 0 0 add 0 5 answer?", "not so"],
        "right": [1, "What does waiting answer?", "right: pending 0"], "state": "IM_AD",
        "papers": [[True, True, True], [False, True, True]],
        "lines": [[1, "What does waiting answer?", "not so"], [2, "", "right: deliver req 0 0 GetM moves"]],
        "pump": [[4, "What does pump 9 answer?"], [4, "What does pump 9 answer?", "not so"]],
        "shown": [5, "What does hand 0 0 answer?", "it answered: empty"], "before": [2, ""],
        "again": [5, "What does hand 0 0 answer?"], "off": [7, "", ["0.72", "none"], "word 0"],
        "on": [5, "What does hand 0 0 answer?"],
        "rest": [[6, "What does word 0 answer?", "right: receipt 0 tag 0 reply 0"], [7, "", "right: 5"]],
    }
    for key, value in wanted.items():
        same(key, value, read[key])


def test_the_value() -> None:
    """The page has the same value, and code of its own, which a plain page hasn't."""
    plain, guessed = (lockup("page", *options, "-", text=SCRIPT).out for options in ((), ("--guess",)))
    part = guessed.index("\n// ---- guessing\n")
    same("up to the code", plain[:part], guessed[:part])
    same("behind the code", True, guessed[part:].endswith(plain[part:]))
    want(not re.search("guess", plain), "a plain page speaks of guesses")
