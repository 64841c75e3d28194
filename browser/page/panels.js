// ---- exercises and tables: panels beside the run

// Exercises: a script with the answers that are wanted, and the first that differs.
class Exercises {
    constructor(engine, open) {
        at('compare').onclick = async () => {
            const { status, out, err } = await engine.ask(at('exercise-text').value, ['test', '-']);
            at('compared').className = status ? 'bad' : 'good';
            at('compared').textContent = out + err;
        };
        at('exercise-see').onclick = () => {
            const lines = at('exercise-text').value.split('\n').map(it => it.startsWith('#') ? it : it.replace(/\s*=.*/, ''));
            open(lines.filter(it => it !== '').join('\n') + '\n');
        };
    }
    show(text) {
        at('exercise-text').value = text;
        at('compared').textContent = '';
    }
}

// The tables of a text whose lines are `| cell | cell |`, as rows of cells.
function cellsOf(text) {
    return text.trim().split('\n\n').filter(it => it.startsWith('|')).map(part => part.split('\n')
        .filter(it => it.startsWith('|') && !it.startsWith('|---')).map(row => row.slice(1, -1).split('|').map(it => it.trim())));
}

// The tables of the protocol, as the code has them. The row that the step took is marked, and its cell. A cell can be changed.
const TAKEN = { core: 'cache', dir: 'directory' };
// What isn't of the table: an access that never comes to it.
const FIXED = ['joins', 'stalls', 'busy', 'not held'];
class Tables {
    constructor(engine) {
        this.engine = engine;
        this.taken = null;
        this.texts = {};
        this.changes = new Map();
        at('with-exclusive').onchange = () => this.show();
    }
    // `taken` says of the step that is shown which row and columns of whose table it took.
    take(taken, isExclusive) {
        this.taken = taken;
        if (isExclusive !== this.isExclusive) at('with-exclusive').checked = isExclusive;
        this.isExclusive = isExclusive;
        if (document.body.dataset.tab === 'tables') this.show();
    }
    async show() {
        const { cache, directory } = await this.ask(at('with-exclusive').checked);
        at('both').replaceChildren(made('h2', '', 'What a cache does'), ...this.tablesOf('cache', cache),
            made('h2', '', 'What the directory does'), ...this.tablesOf('directory', directory));
        const cell = at('both').querySelector('.taken-cell');
        at('taken').textContent = cell ? 'The row that the step took is marked, and its cell.'
            : 'The row that a step takes is marked here. This step took none.';
        if (cell) cell.scrollIntoView({ block: 'center', inline: 'center' });
    }
    forget() {
        this.changes.clear();
        this.show();
    }
    // The changed cells, as texts of tables by their names.
    changed() {
        const texts = {};
        for (const { name, line, column, cell } of this.changes.values()) {
            const heading = name === 'cache' ? 'Cache' : 'Directory';
            texts[name] = `${texts[name] || ''}| ${heading} | ${column} |\n|---|---|\n| ${line} | ${cell} |\n\n`;
        }
        return texts;
    }
    // A cell that whoever presses it can choose or write anew. An empty one is ours again.
    changeable(name, line, column, ours, others) {
        const key = [name, line, column].join('|');
        const cell = made('td', '', '');
        const draw = () => {
            const change = this.changes.get(key);
            cell.textContent = change ? change.cell : ours;
            cell.classList.toggle('changed', change !== undefined);
            cell.title = change ? `ours: ${ours}` : 'press to change it';
        };
        cell.onclick = () => {
            if (cell.querySelector('input')) return;
            const field = made('input', '');
            field.value = cell.textContent;
            field.setAttribute('list', 'cells');
            at('cells').replaceChildren(...others.map(it => made('option', '', it)));
            field.onblur = () => {
                const said = field.value.trim();
                if (said === '' || said === ours) this.changes.delete(key);
                else this.changes.set(key, { name, line, column, cell: said });
                draw();
            };
            field.onkeydown = ({ key: pressed }) => {
                if (pressed === 'Enter') field.blur();
            };
            cell.replaceChildren(field);
            field.focus();
            field.select();
        };
        draw();
        return cell;
    }
    async ask(withExclusive) {
        if (!this.texts[withExclusive]) {
            const more = withExclusive ? ['--exclusive'] : [];
            const ask = async name => (await this.engine.ask('', ['table', name, ...more])).out;
            this.texts[withExclusive] = { cache: await ask('cache'), directory: await ask('directory') };
        }
        return this.texts[withExclusive];
    }
    tablesOf(name, text) {
        const plain = it => at('with-exclusive').checked ? it : it.replace(/ \(exclusive (on|off)\)/, '');
        const met = this.taken && TAKEN[this.taken.who] === name ? this.taken : { row: '', columns: [] };
        const columns = met.columns.map(plain);
        return cellsOf(text).map(([heading, ...rows]) => {
            const isTaken = row => row[0] === plain(met.row) && heading.some(it => columns.includes(it));
            const others = column => [...new Set(rows.map(it => it[column]))].filter(it => !FIXED.includes(it));
            const cellOf = (row, cell, column) => {
                const it = column === 0 ? made('th', '', cell) : FIXED.includes(cell) ? made('td', '', cell)
                    : this.changeable(name, row[0], heading[column], cell, others(column));
                if (isTaken(row) && columns.includes(heading[column])) it.classList.add('taken-cell');
                return it;
            };
            return made('table', '', made('tr', '', ...heading.map(it => made('th', '', it))), ...rows.map(row =>
                made('tr', isTaken(row) ? 'taken' : '', ...row.map((cell, column) => cellOf(row, cell, column)))));
        });
    }
}
