// ---- parts of the page, which are made of text alone: nothing that is shown is read as HTML

const at = id => document.getElementById(id);

function made(name, kind, ...inside) {
    const it = document.createElement(name);
    if (kind) it.className = kind;
    it.append(...inside);
    return it;
}
function drawn(name, attributes, ...inside) {
    const it = document.createElementNS('http://www.w3.org/2000/svg', name);
    for (const [key, value] of Object.entries(attributes)) it.setAttribute(key, value);
    it.append(...inside);
    return it;
}
function button(kind, inside, press) {
    const it = made('button', kind, ...[inside].flat());
    it.type = 'button';
    it.onclick = press;
    return it;
}
function choice(values, chosen) {
    const it = made('select', '', ...values.map(value => made('option', '', String(value))));
    it.value = String(chosen);
    return it;
}

// Says something for a while, beside the buttons.
let saying = 0;
function say(text) {
    at('said').textContent = text;
    clearTimeout(saying);
    saying = setTimeout(() => { at('said').textContent = ''; }, 6000);
}

// A table of rows of cells, the first of which is its heading.
function tableOf(heading, rows, kindOf = () => '') {
    const cells = (name, row) => row.map(it => made(name, '', it instanceof Node ? it : String(it)));
    return made('table', '', made('tr', '', ...cells('th', heading)),
        ...rows.map((row, order) => made('tr', kindOf(order), ...cells('td', row))));
}

// Saves a text as a file.
function saveAs(name, text, type) {
    const link = made('a');
    link.href = URL.createObjectURL(new Blob([text], { type }));
    link.download = name;
    link.click();
    setTimeout(() => URL.revokeObjectURL(link.href), 1000);
}
