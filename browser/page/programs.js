// ---- programs of the cores: the report of a run, its script, and rows over settings and seeds

// Settings that may vary.
const VARIED = [...Object.keys(SETTINGS), 'outstanding'];
const SHOWN_ROWS = 300;

class Programs {
    constructor(begin, open) {
        this.work = new LongWork(begin, at('run-stop'), at('run-says'));
        this.csv = '';
        for (const id of ['vary-1', 'vary-2']) at(id).append(...['', ...VARIED].map(it => made('option', '', it)));
        at('vary-1').value = 'ways';
        at('run-report').onclick = () => this.report();
        at('run-see').onclick = async () => {
            const { out, err } = await this.ask(this.seed(), '--script');
            if (out) open(out);
            else this.tell(err);
        };
        at('run-rows').onclick = () => this.rows();
        at('rows-save').onclick = () => saveAs('rows.csv', this.csv, 'text/csv');
        at('count').onchange = () => this.plot();
    }
    seed() {
        return ['--seed', at('run-seed').value || '1'];
    }
    ask(...words) {
        const outstanding = at('outstanding').value ? ['--outstanding', at('outstanding').value] : [];
        return this.work.ask(at('program-text').value, ['run', '-', ...outstanding, ...words.flat()]);
    }
    show(text) {
        at('program-text').value = text;
        this.tell('');
        at('rows').hidden = true;
    }
    // Says what went wrong, in place of a report.
    tell(said, ...parts) {
        at('report').replaceChildren(...parts, ...said ? [made('pre', 'bad', said)] : []);
    }

    // A table for the cores, and one for the lines with their sums.
    async report() {
        const { out, err } = await this.ask(this.seed(), '--json');
        if (!out.startsWith('{')) {
            this.tell(out + err);
            return;
        }
        const { seed, cores, lines, all } = JSON.parse(out);
        const rowsOf = (list, names) => list.map(it => names.map(name => name in it ? it[name] : ''));
        const [ofCores, ofLines] = [Object.keys(cores[0]), Object.keys(lines[0] || { line: 0, ...all })];
        const few = lines.slice(0, SHOWN_ROWS);
        const sums = { ...all, line: 'all' };
        const more = lines.length > few.length ? [made('p', '', `.. and ${lines.length - few.length} more lines`)] : [];
        this.tell(err, made('h2', '', `Seed ${seed}: each core`), tableOf(ofCores, rowsOf(cores, ofCores)),
            made('h2', '', 'Each line'), tableOf(ofLines, rowsOf([...few, sums], ofLines)), ...more);
        at('report').scrollIntoView({ block: 'nearest' });
    }

    // A row of each run, over up to two settings and some seeds.
    async rows() {
        const chosen = ['vary-1', 'vary-2'].filter(it => at(it).value);
        const valuesOf = it => at(it.replace('vary', 'values')).value.replace(/,\s+/g, ',').trim();
        const settings = chosen.flatMap(it => ['--set', `${at(it).value}=${valuesOf(it)}`]);
        const { out, err } = await this.ask(...settings, '--seeds', at('seeds').value.trim() || '1', '--csv');
        this.csv = out;
        const [heading, ...rows] = out.trim().split('\n').map(it => it.split(','));
        at('rows').hidden = rows.length === 0;
        this.tell(err);
        if (rows.length === 0) return;
        // the column of the setting `misses` has another name than that of the count
        const varied = chosen.map(it => at(it).value === 'misses' ? 'miss_file' : at(it).value);
        Object.assign(this, { heading, varied, cells: rows });
        const names = heading.slice(heading.indexOf('seed') + 1);
        const count = names.includes(at('count').value) ? at('count').value : 'misses';
        at('count').replaceChildren(...names.map(it => made('option', '', it)));
        at('count').value = count;
        const more = rows.length > SHOWN_ROWS ? [made('p', '', `.. and ${rows.length - SHOWN_ROWS} more rows, in the file`)] : [];
        at('row-table').replaceChildren(tableOf(heading, rows.slice(0, SHOWN_ROWS)), ...more);
        this.plot();
        at('rows').scrollIntoView({ block: 'nearest' });
    }
    // What is counted over the first setting, a line for each value of the others; over the seeds, where no setting varies.
    plot() {
        const [first = 'seed', ...others] = this.varied;
        const cell = (row, name) => row[this.heading.indexOf(name)];
        const name = row => others.map(it => `${it} ${cell(row, it)}`).join(', ');
        const series = seriesOf(this.cells, row => cell(row, first), name, row => Number(cell(row, at('count').value)));
        const seeds = new Set(this.cells.map(row => cell(row, 'seed'))).size;
        const isMean = this.varied.length > 0 && seeds > 1;
        const means = isMean ? [`Each point is the mean of ${seeds} seeds, its bar from the least to the most.`] : [];
        at('plot').replaceChildren(plotOf(series, first, at('count').value),
            made('p', 'legend', ...legendOf(series), ...means));
    }
}
