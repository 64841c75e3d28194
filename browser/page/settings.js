// ---- how the machine is made: a form, which writes the lines that configure

const SETTINGS = {
    cores: { plain: 2, least: 1, most: 64 },
    lines: { plain: 16, least: 1, most: 65536 },
    slices: { plain: 1, values: [1, 2, 4] },
    sets: { plain: 4, values: [1, 2, 4, 8, 16, 32, 64, 128, 256] },
    ways: { plain: 2, least: 1, most: 16 },
    mshrs: { plain: 4, least: 1, most: 32, says: 'miss registers' },
    targets: { plain: 4, least: 1, most: 32, says: 'targets of a register' },
    writebacks: { plain: 2, least: 1, most: 16, says: 'write-back entries' },
    misses: { plain: 'explicit', values: ['explicit', 'inverted'], says: 'registers are' },
    policy: { plain: 'lru', values: ['lru', 'fifo', 'random 1'], says: 'replaced is by' },
    exclusive: { plain: 'off', values: ['off', 'on'], says: 'state E' },
};
// What a setting may be, in words.
function allowedOf(name) {
    const { values, least, most } = SETTINGS[name];
    const range = values ? values.join(', ') : `${least} to ${most}`;
    return `${name}: ${range}${name === 'lines' ? ', a multiple of the slices' : ''}`;
}
const settingOf = line => {
    const [name, ...value] = line.trim().split(/\s+/);
    return Object.hasOwn(SETTINGS, name) ? { name, value: value.join(' ') } : null;
};

class Settings {
    constructor(changed) {
        this.fields = {};
        for (const [name, { plain, values, least, most, says }] of Object.entries(SETTINGS)) {
            const field = values ? choice(values, plain) : made('input');
            if (!values) Object.assign(field, { type: 'number', min: least, max: most, value: plain });
            field.id = 'set-' + name;
            field.onchange = () => changed(name, field.value);
            this.fields[name] = field;
            at('fields').append(made('label', '', says || name, field));
        }
    }
    // Shows the settings of a script.
    show(lines) {
        const found = Object.fromEntries(Object.entries(SETTINGS).map(([name, { plain }]) => [name, String(plain)]));
        for (const { name, value } of lines.map(settingOf).filter(it => it)) found[name] = value;
        for (const [name, field] of Object.entries(this.fields)) {
            if (document.activeElement === field) continue;
            if (field.options && ![...field.options].some(it => it.value === found[name])) {
                field.append(made('option', '', found[name]));
            }
            field.value = found[name];
        }
    }
}

// Gives a script's lines with this setting: its own line is changed, or one stands before the others that aren't comments.
function withSetting(lines, name, value) {
    const rest = lines.filter(it => (settingOf(it) || {}).name !== name);
    if (value === String(SETTINGS[name].plain)) return rest;
    const begins = rest.findIndex(it => it.trim() !== '' && !it.startsWith('#'));
    const place = begins < 0 ? rest.findIndex(it => it.trim() === '') : begins;
    const where = place < 0 ? rest.length : place;
    return [...rest.slice(0, where), `${name} ${value}`, ...rest.slice(where)];
}
