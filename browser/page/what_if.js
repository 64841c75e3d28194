// ---- what changed cells break: the run that the program finds, as its steps and as its picture over time

const DIRECTORY = 'directory';

class WhatIf {
    constructor(begin, tables) {
        this.tables = tables;
        this.work = new LongWork(begin, at('what-if-stop'), at('what-if-says'));
        at('what-if').onclick = () => this.ask();
        at('ours').onclick = () => {
            tables.forget();
            at('broken').replaceChildren();
        };
    }
    async ask() {
        const files = this.tables.changed();
        const words = ['--cores', at('what-if-cores').value || '3', ...at('with-exclusive').checked ? ['--exclusive'] : [],
            ...Object.keys(files).flatMap(name => ['--' + name, name])];
        const run = form => this.work.ask('', ['what-if', form, ...words], files);
        const { out, err } = await run('--json');
        if (out) this.show(JSON.parse(out), async () => (await run('--svg')).out);
        else at('broken').replaceChildren(made('pre', 'bad', err));
        at('broken').scrollIntoView({ block: 'nearest' });
    }
    async show(told, draw) {
        if (told.broken === null) {
            const { states, all, rounds, steps_taken: steps, cores } = told;
            at('broken').replaceChildren(made('p', 'good', all ? `Nothing broke in the ${states} states of ${cores} cores.`
                : `Nothing broke in ${states} states and ${rounds} rounds, by ${steps} steps, which proves nothing: Rumur searches all.`));
            return;
        }
        const rowOf = ({ actor, state, event, row, write }, number) => [number,
            actor === DIRECTORY ? actor : 'core ' + actor, `${state}, ${event}`, write ? `${row}, then ${write.row}` : row];
        const rows = [...told.steps.map((step, place) => rowOf(step, place + 1)), ...told.blocked.map(step => rowOf(step, '-'))];
        const changed = [...told.steps, ...told.blocked].map(step => step.changed);
        const picture = made('img', '');
        picture.alt = 'the run over time';
        picture.src = 'data:image/svg+xml,' + encodeURIComponent(await draw());
        at('broken').replaceChildren(made('p', 'bad', `Broken: ${told.broken}`), picture,
            tableOf(['', 'who', 'cell', 'row'], rows, row => changed[row] ? 'taken' : ''));
    }
}
