// ---- litmus tests: a table of the outcomes, on random schedules and over threads, each with a run that leads to it

// Numbers of 64 bits stay as they are written.
const numbersOf = json => JSON.parse(json.replace(/([:,[])(\d{16,})/g, '$1"$2"'));

// Which of two outcomes comes first: by their values, from the first.
function compared(left, right) {
    const at = left.findIndex((it, place) => it !== right[place]);
    return at < 0 ? 0 : BigInt(left[at]) < BigInt(right[at]) ? -1 : 1;
}

class Litmus {
    constructor(begin, open) {
        this.open = open;
        this.work = new LongWork(begin, at('walk-stop'), at('walk-says'));
        this.forget('');
        at('walk').onclick = () => this.ask('walked', ['walk', '-', '--json', '--rounds', at('rounds').value || '1000', ...seed()]);
        at('threads').onclick = () => this.ask('threaded', ['litmus', '-', '--json', ...seed()]);
        const seed = () => ['--seed', at('seed').value || '1'];
    }
    show(text) {
        at('litmus-text').value = text;
        this.forget(text);
        at('outcomes').replaceChildren();
    }
    // What was found of a test, as far as it is the same test.
    forget(text) {
        Object.assign(this, { text, walked: null, threaded: null });
    }
    async ask(way, words) {
        const text = at('litmus-text').value;
        if (text !== this.text) this.forget(text);
        this[way] = null;
        this.draw();
        const { out, err } = await this.work.ask(text, words);
        if (text !== this.text) return;
        const told = out && numbersOf(out);
        if (told && told.outcomes) {
            this[way] = told;
            this.draw();
        } else {
            const [stuck] = told ? Object.entries(told) : [];
            at('outcomes').replaceChildren(made('pre', 'bad', stuck ? stuck.join(' ').replaceAll('_', ' ') : err));
        }
        at('outcomes').scrollIntoView({ block: 'nearest' });
    }
    draw() {
        const found = [this.walked, this.threaded].filter(it => it);
        if (found.length === 0) {
            at('outcomes').replaceChildren();
            return;
        }
        const { names, counters } = found[0];
        const rounds = (told, values) => {
            const row = told.outcomes.find(it => compared(it.values.map(String), values) === 0);
            return row ? row.rounds : 0;
        };
        const all = found.flatMap(it => it.outcomes.map(row => row.values.map(String))).sort(compared)
            .filter((it, place, those) => place === 0 || compared(it, those[place - 1]) !== 0);
        const heads = [...names, ...counters.map(it => 'word ' + it), ...this.walked ? ['on random schedules'] : [],
            ...this.threaded ? ['over threads'] : [], ''];
        const rows = all.map(values => [...values, ...found.map(it => rounds(it, values)), this.way(values)]);
        const isForbidden = forbiddenBy(this.text, names);
        const forbidden = found.map(it => it.forbidden).reduce((sum, it) => sum + it, 0);
        at('outcomes').replaceChildren(tableOf(heads, rows, row => isForbidden(all[row]) ? 'bad' : ''),
            made('p', forbidden ? 'bad' : '', `rounds with a forbidden outcome: ${forbidden}`));
    }
    // What leads to the run of an outcome.
    way(values) {
        const row = this.walked && this.walked.outcomes.find(it => compared(it.values.map(String), values) === 0);
        if (!row) return '';
        const see = button('small', 'see one', () => this.see(String(row.seed)));
        see.dataset.seed = row.seed;
        return see;
    }
    // Opens the run of a seed as a script.
    async see(seed) {
        const { text } = this;
        const { out, err } = await this.work.ask(text, ['walk', '-', '--script', '--seed', seed]);
        if (out) this.open(`# ${titleOf(text)}, seed ${seed}\n` + out);
        else say(err);
    }
}

// Gives whether values are of an outcome that a test's lines `forbid NAME=VALUE ..` forbid.
function forbiddenBy(text, names) {
    const rules = text.split('\n').map(it => it.trim().split(/\s+/)).filter(it => it[0] === 'forbid')
        .map(it => it.slice(1).map(pair => pair.split('=')));
    return values => rules.some(rule => rule.every(([name, value]) => values[names.indexOf(name)] === value));
}

// What a text is called: how its first comment begins.
function titleOf(text) {
    const comment = text.split('\n').find(it => it.startsWith('#')) || '# a test';
    return comment.slice(1).split(/[:.]/)[0].trim();
}
