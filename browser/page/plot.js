// ---- a plot of rows: a line for each series, through the mean at each place, with a bar from the least to the most

const PLOT = { width: 640, height: 300, left: 62, right: 14, top: 12, bottom: 46 };
const SHAPES = ['M-4,-4h8v8h-8z', 'M0,-5l5,9h-10z', 'M0,-5l5,5l-5,5l-5,-5z', 'M-4,0a4,4 0 1 0 8,0a4,4 0 1 0 -8,0z'];
const COLORS = 6;

// Gives steps of 1, 2 or 5 up to the most that is shown.
function ticksOf(most) {
    const rough = Math.max(most, 1) / 5;
    const power = 10 ** Math.floor(Math.log10(rough));
    const step = Math.max(1, power * [1, 2, 5, 10].find(it => it * power >= rough));
    return Array.from({ length: Math.ceil(Math.max(most, 1) / step) + 1 }, (_, it) => it * step);
}

// Gives each series of the rows with its points in order: the place, and of the values there the mean, least and most.
function seriesOf(rows, place, name, value) {
    const found = new Map();
    for (const row of rows) {
        if (!found.has(name(row))) found.set(name(row), new Map());
        const points = found.get(name(row));
        if (!points.has(place(row))) points.set(place(row), []);
        points.get(place(row)).push(value(row));
    }
    return [...found].map(([name, points]) => ({ name, points: [...points].map(([place, all]) => ({ place,
        mean: all.reduce((sum, it) => sum + it, 0) / all.length, least: Math.min(...all), most: Math.max(...all) })) }));
}

// Draws series over places, which stand in the order in which they are given, as far from one another as their numbers where
// all are numbers. `across` and `up` say what the axes have.
function plotOf(series, across, up) {
    const { width, height, left, right, top, bottom } = PLOT;
    const places = [...new Set(series.flatMap(it => it.points.map(point => point.place)))];
    const areNumbers = places.every(it => /^\d+$/.test(it));
    const at = it => areNumbers ? Number(it) : places.indexOf(it);
    const [least, most] = [Math.min(...places.map(at)), Math.max(...places.map(at))];
    const x = it => left + 14 + (width - left - right - 28) * (most === least ? 0.5 : (at(it) - least) / (most - least));
    const ticks = ticksOf(Math.max(...series.flatMap(it => it.points.map(point => point.most))));
    const y = it => height - bottom - (height - top - bottom) * it / ticks[ticks.length - 1];
    const svg = drawn('svg', { class: 'plot', viewBox: `0 0 ${width} ${height}`, role: 'img', 'aria-label': `${up} over ${across}` });
    for (const it of ticks) {
        svg.append(drawn('line', { class: 'grid', x1: left, x2: width - right, y1: y(it), y2: y(it) }),
            drawn('text', { x: left - 6, y: y(it) + 4, 'text-anchor': 'end' }, it.toLocaleString('en')));
    }
    // names of places, as many as there is room for
    const every = Math.ceil(places.length / 16);
    for (const it of places.filter((_, order) => order % every === 0)) {
        svg.append(drawn('text', { x: x(it), y: height - bottom + 16, 'text-anchor': 'middle' }, it));
    }
    svg.append(drawn('text', { class: 'axis', x: (left + width - right) / 2, y: height - 8, 'text-anchor': 'middle' }, across),
        drawn('text', { class: 'axis', transform: `translate(14,${(top + height - bottom) / 2}) rotate(-90)`,
            'text-anchor': 'middle' }, up),
        drawn('path', { class: 'frame', d: `M${left},${top}V${height - bottom}H${width - right}` }));
    series.forEach((it, order) => svg.append(lineOf(it, order, x, y)));
    return svg;
}
function lineOf({ name, points }, order, x, y) {
    const group = drawn('g', { class: 'series-' + order % COLORS }, drawn('title', {}, name));
    group.append(drawn('path', { class: 'line', d: 'M' + points.map(it => `${x(it.place)},${y(it.mean)}`).join('L') }));
    for (const { place, mean, least, most } of points) {
        if (least < most) group.append(drawn('line', { class: 'range', x1: x(place), x2: x(place), y1: y(least), y2: y(most) }));
        group.append(drawn('path', { class: 'point', d: SHAPES[order % SHAPES.length],
            transform: `translate(${x(place)},${y(mean)})` }, drawn('title', {}, `${name} ${place}: ${mean}`)));
    }
    return group;
}

// Gives what each series is, beside its mark. One alone needs no name.
function legendOf(series) {
    if (series.length < 2) return [];
    return series.map(({ name }, order) => made('span', 'key', drawn('svg', { class: 'series-' + order % COLORS, width: 14,
        height: 14, viewBox: '-7 -7 14 14' }, drawn('path', { class: 'point', d: SHAPES[order % SHAPES.length] })), name));
}
