// ---- what the keys do, where nothing is written

const LETTERS = { l: 'load', s: 'store', a: 'add', c: 'cas' };
const STEPS = { ArrowLeft: -1, ArrowRight: 1, Home: -Infinity, End: Infinity };
const EVENTS = { PageUp: -1, PageDown: 1 };
const SIZES = { '+': 1, '-': -1 };
const SAID = [
    ['L, S, A, C', 'load, store, add or cas of the core that is marked, to the word that stands above it'],
    ['arrow up, down', 'marks another core'],
    ['W', 'goes to the word; Escape back'],
    ['1 to 9', 'delivers the message with that number in the list'],
    ['N, Shift N', 'delivers the next message; all that can be'],
    ['H, E', 'goes to the replies to hand out; to the copies to evict: Enter does it, Tab goes on'],
    ['U, R', 'undo, redo; as Ctrl Z and Ctrl Y'],
    ['arrow left, right', 'a step back, forward; Home and End: to the first, to the last'],
    ['PageUp, PageDown', 'to the event before, to the next one'],
    ['+, -', 'the run larger, smaller'],
    ['?', 'shows this'],
];

// Goes to the first button below an element, or says why there is none.
function goTo(id, none) {
    const first = at(id).querySelector('button');
    if (first) first.focus();
    else say(none);
}

class Keys {
    constructor(moves, run, goBack) {
        Object.assign(this, { moves, run, goBack });
        at('keys-table').append(...SAID.map(([key, what]) => made('tr', '', made('th', '', key), made('td', '', what))));
        at('keys').onclick = () => this.show();
        at('keys-close').onclick = () => at('keys-shown').close();
    }
    show() {
        if (!at('keys-shown').open) at('keys-shown').showModal();
    }
    // Does what a key does. Returns whether it does anything.
    press(key) {
        const isPlay = document.body.dataset.tab === PLAY;
        if (key === '?') this.show();
        else if (STEPS[key]) this.run.go(STEPS[key]);
        else if (EVENTS[key]) this.run.goEvent(EVENTS[key]);
        else if (SIZES[key]) this.run.larger(SIZES[key]);
        else return isPlay && this.act(key);
        return true;
    }
    act(key) {
        const { moves } = this;
        const letter = key.toLowerCase();
        if (LETTERS[letter]) moves.issue(moves.core, LETTERS[letter]);
        else if (/^[1-9]$/.test(key)) moves.deliver(Number(key) - 1);
        else if (letter === 'n') (key === 'n' ? at('next') : at('all')).click();
        else if (letter === 'u' || letter === 'r') this.goBack(letter === 'u' ? 'undo' : 'redo');
        else if (letter === 'h') goTo('hand', 'no reply waits to be handed out');
        else if (letter === 'e') goTo('evict', 'no core has a copy that can be evicted');
        else if (letter === 'w') at('word').select();
        else if (key === 'ArrowUp' || key === 'ArrowDown') moves.mark(moves.core + (key === 'ArrowUp' ? -1 : 1));
        else return false;
        return true;
    }
}
