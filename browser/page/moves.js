// ---- what can be done at the step that is shown: accesses, deliveries, evictions, replies to hand out

const ACCESSES = { load: [], store: ['value'], add: ['value'], cas: ['expected', 'value'] };
const TAGS = 64;
const ROWS = 8;
// The copies that can be evicted: all others wait for a message.
const EVICTED = ['S', 'M', 'E'];

// Puts these parts in place of those that are there; what has the focus hands it to the one in its place.
function put(into, parts) {
    const held = [...into.children].indexOf(document.activeElement);
    into.replaceChildren(...parts);
    const next = parts[Math.min(held, parts.length - 1)];
    if (held >= 0 && next instanceof HTMLButtonElement) next.focus();
}

class Moves {
    constructor(act) {
        this.act = act;
        this.told = null;
        // whose accesses the keys issue
        this.core = 0;
        at('core').onchange = () => this.mark(Number(at('core').value));
        for (const { id, command } of [{ id: 'next', command: 'pump 1' }, { id: 'all', command: 'pump 1000' }]) {
            at(id).onclick = () => act(command);
        }
        at('word').oninput = () => this.showWord();
        this.showWord();
    }
    show(told) {
        this.told = told;
        this.showIssue();
        this.showDeliveries();
        this.showCores();
    }
    showWord() {
        const word = Number(at('word').value) || 0;
        at('of').textContent = `of line ${Math.floor(word / 8)}`;
    }

    // Issues an access, under the first tag of the core that is free.
    issue(core, name) {
        const { busy } = this.told.cores[core];
        const tag = Array.from({ length: TAGS }, (_, it) => it).find(it => !busy.includes(it));
        if (tag === undefined) {
            say(`core ${core} has a request under each of its ${TAGS} tags: hand out a reply first`);
            return;
        }
        const number = id => at(id).value.trim() || '0';
        this.act(['issue', core, tag, name, number('word'), ...ACCESSES[name].map(number)].join(' '));
    }
    // Has the keys issue a core's accesses.
    mark(core) {
        const count = this.told.shape.cores;
        this.core = (core + count) % count;
        at('core').value = this.core;
        this.showIssue();
    }
    // Has the accesses of a core at hand.
    choose(core) {
        this.mark(core);
        const first = at('issue').querySelector(`[data-issue="${core} load"]`);
        first.scrollIntoView({ block: 'nearest' });
        first.focus();
    }
    // A row of buttons for each of few cores; of many, for the one that is chosen.
    showIssue() {
        const count = this.told.shape.cores;
        const many = count > ROWS;
        at('core').parentElement.hidden = !many;
        if (at('core').options.length !== count) {
            at('core').replaceChildren(...Array.from({ length: count }, (_, it) => made('option', '', String(it))));
        }
        if (this.core >= count) this.core = 0;
        const cores = many ? [this.core] : Array.from({ length: count }, (_, it) => it);
        const rows = at('issue');
        const key = cores.join();
        if (rows.dataset.cores !== key) rows.replaceChildren(...cores.map(core => this.rowOf(core)));
        rows.dataset.cores = key;
        cores.forEach((core, place) => rows.children[place].classList.toggle('marked', core === this.core));
    }
    rowOf(core) {
        const row = made('div', 'row', made('span', 'who', 'core ' + core), ...Object.keys(ACCESSES).map(name => {
            const it = button('', name, () => this.issue(core, name));
            it.dataset.issue = core + ' ' + name;
            return it;
        }));
        row.addEventListener('focusin', () => this.mark(core));
        return row;
    }

    // Delivers the message that stands at this place of the list, blocked ones too.
    deliver(place) {
        const it = this.told.moves[place];
        if (it) this.act(it.command);
    }
    showDeliveries() {
        const { moves } = this.told;
        const rows = moves.map((it, place) => {
            const way = made('span', 'way', `${it.from} → ${it.to}, line ${it.line}`);
            const why = it.moves ? [] : [made('span', 'why', it.why)];
            const key = place < 9 ? [made('kbd', '', String(place + 1))] : [];
            const row = button('move ' + it.kind + (it.moves ? '' : ' blocked'), [...key, made('b', '', it.name), ' ', way, ...why],
                () => this.act(it.command));
            row.title = it.command;
            row.dataset.command = it.command;
            return row;
        });
        put(at('deliver'), rows.length ? rows : [made('p', 'rest', 'No message is in flight.')]);
        at('next').disabled = at('all').disabled = !moves.some(it => it.moves);
    }

    showCores() {
        const evict = [];
        const hand = [];
        this.told.cores.forEach(({ copies, replies }, core) => {
            for (const { line, state } of copies.filter(it => EVICTED.includes(it.state))) {
                evict.push(this.small(`evict ${core} ${line}`, `core ${core} line ${line} (${state})`));
            }
            const slices = new Set(replies.map(it => it.slice));
            for (const slice of slices) {
                const { tag, number } = replies.find(it => it.slice === slice);
                hand.push(this.small(`hand ${core} ${slice}`, `core ${core} tag ${tag}, number ${number}`));
            }
        });
        for (const [id, all] of [['evict', evict], ['hand', hand]]) {
            at(id).parentElement.hidden = all.length === 0;
            put(at(id), all.slice(0, 100));
        }
    }
    small(command, text) {
        const it = button('small', text, () => this.act(command));
        it.dataset.command = it.title = command;
        return it;
    }
}
