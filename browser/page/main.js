// ---- the page: what belongs together is tied here

const DATA = JSON.parse(at('data').textContent);
const EMPTY = '# An empty machine: issue an access, and deliver its messages one by one.\n';
const HINT = 'No cache has anything yet.';
const PLAY = 'play';
// what the page opens with
const OPENED = DATA.opened || { kind: 'scripts', text: EMPTY };
const edits = new Edits(OPENED.kind === 'scripts' ? OPENED.text : EMPTY);
// the step that the frame shows last, and the number of the run that it was handed last
let shown = null;
let number = 0;
// whether the worker has a script, and what is to be shown of the one behind it
let isAtWork = false;
let waits = null;

function tabsOf(chosen) {
    document.body.dataset.tab = chosen;
    for (const it of document.querySelectorAll('[data-to]')) it.setAttribute('aria-pressed', it.dataset.to === chosen);
    for (const it of document.querySelectorAll('.panel')) it.hidden = it.id !== chosen;
    if (chosen === 'tables') tables.show();
    if (chosen === PLAY) script.draw();
}

// Plays the script as it is, and shows its step `to`. While the worker has one, the last that is asked for waits.
async function play(to) {
    script.show(edits.text);
    settings.show(edits.lines);
    at('undo').disabled = edits.done.length === 0 && !edits.lines.some(isCommand);
    at('redo').disabled = edits.undone.length === 0;
    waits = { to };
    if (isAtWork) return;
    isAtWork = true;
    const slow = setTimeout(() => { at('stop').hidden = false; }, 700);
    while (waits) await playNext();
    clearTimeout(slow);
    at('stop').hidden = true;
    isAtWork = false;
}
async function playNext() {
    const { to } = waits;
    waits = null;
    const text = edits.text;
    keep(text);
    const { same, steps, fault, err, took, memory } = await engine.ask(text);
    number = run.take({ text, same, steps, fault }, to);
    Object.assign(document.body.dataset, { took: took.toFixed(1), memory });
    if (!waits) script.tellFault(fault ? err : '');
}

// Does one more command behind the step that is shown: what stood behind it goes. Behind what isn't answered yet a command
// stands last.
function act(command) {
    const isShown = !takeTyped() && !isAtWork && shown && shown.number === number;
    const { lines, more } = isShown ? shown.cut : { lines: edits.lines.length, more: [] };
    const kept = edits.lines.slice(0, lines);
    while (kept.length && kept[kept.length - 1] === '') kept.pop();
    edits.take([...kept, ...more, command, ''].join('\n'));
    play();
}
// Takes what was typed just now and isn't played yet. Returns whether there is any.
function takeTyped() {
    const isTyped = script.area.value !== edits.text;
    edits.take(script.area.value);
    return isTyped;
}
function goBack(way) {
    takeTyped();
    if (way === 'undo' ? edits.undo() : edits.redo()) play();
}
// Opens another script. It can be taken back as any edit.
function open(text) {
    takeTyped();
    edits.take(text.replaceAll('\r\n', '\n'));
    tabsOf(PLAY);
    play();
}

function told(it) {
    shown = it;
    document.body.dataset.run = it.number;
    document.body.dataset.step = `${it.now} of ${it.count}`;
    if (it.number !== number || waits) return;
    script.mark(it.line);
    moves.show(it);
    goals.take(it, edits.text.startsWith(EMPTY), edits.text === EMPTY);
    tables.take(it.taken, it.isExclusive);
    at('answer').textContent = it.now ? it.answer.trim().slice(0, 300) : it.count ? '' : HINT;
}

// ---- the menu, and what goes in and out

const KINDS = { scripts: open, litmus: text => { litmus.show(text); tabsOf('litmus'); },
    programs: text => { programs.show(text); tabsOf('programs'); },
    exercises: text => { exercises.show(text); tabsOf('exercises'); } };
const NAMES = { scripts: 'runs', litmus: 'litmus tests', programs: 'programs', exercises: 'exercises' };

function fillMenu() {
    const menu = at('menu');
    for (const [kind, texts] of Object.entries(DATA.texts)) {
        const group = made('optgroup');
        group.label = NAMES[kind];
        for (const name of Object.keys(texts)) {
            const option = made('option', '', name.replaceAll('_', ' '));
            option.value = kind + '/' + name;
            group.append(option);
        }
        menu.append(group);
    }
    menu.onchange = () => {
        const [kind, name] = menu.value.split('/');
        menu.value = '';
        if (kind === 'empty') open(EMPTY);
        else KINDS[kind](DATA.texts[kind][name]);
    };
}

// The script stays over a reload, where the browser keeps something for a page.
const KEPT = 'script of ' + location.pathname;
function keep(text) {
    try {
        sessionStorage.setItem(KEPT, text);
    } catch {
        // it keeps nothing, or not so much
    }
}
function kept() {
    try {
        return sessionStorage.getItem(KEPT);
    } catch {
        return null;
    }
}
async function copy(text, what) {
    try {
        await navigator.clipboard.writeText(text);
        say(what + ' is copied');
    } catch {
        // where a page may not: it stands to be copied by hand
        prompt(what + ':', text);
    }
}
async function openLink() {
    try {
        const text = await scriptOf(location.hash);
        if (text !== null) open(text);
        return text !== null;
    } catch (wrong) {
        say('the link has no script that can be read: ' + wrong.message);
        return false;
    }
}

// Whether an element keeps a key for itself: a text each, and a number or a choice those that don't change the size.
const FIELDS = ['INPUT', 'SELECT', 'TEXTAREA'];
function keepsKey({ tagName, type }, key) {
    if (!FIELDS.includes(tagName) || type === 'checkbox') return false;
    return !Object.hasOwn(SIZES, key) || tagName === 'TEXTAREA' || type === 'text';
}
function press(event) {
    const { key, ctrlKey, metaKey, shiftKey, altKey, target } = event;
    const writes = keepsKey(target, key);
    if ((ctrlKey || metaKey) && ['z', 'Z', 'y'].includes(key) && (!writes || target.id === 'script')) {
        event.preventDefault();
        goBack(key === 'y' || shiftKey ? 'redo' : 'undo');
    }
    if (ctrlKey || metaKey || altKey || at('keys-shown').open) return;
    if (writes && key === 'Escape') target.blur();
    if (!writes && shown && keys.press(key)) event.preventDefault();
}

// ---- how it begins

let engine, module;
const workerPlace = URL.createObjectURL(new Blob([DATA.worker], { type: 'text/javascript' }));
const beginEngine = () => new Engine(module, workerPlace);
const run = new Run(at('run'), told, it => {
    if (it.deliver) act(it.deliver);
    if (it.history) goBack(it.history);
    if (it.key) keys.press(it.key);
    if (it.core !== undefined) {
        tabsOf(PLAY);
        moves.choose(it.core);
    }
});
const script = new Script(text => {
    edits.take(text);
    play();
});
const moves = new Moves(act);
const settings = new Settings((name, value) => {
    takeTyped();
    edits.take(withSetting(edits.lines, name, value).join('\n'));
    play();
});
const goals = new Goals();
const keys = new Keys(moves, run, goBack);
let litmus, programs, exercises, tables;

async function begin() {
    module = await WebAssembly.compile(await unpacked(at('module').textContent.trim()));
    engine = beginEngine();
    litmus = new Litmus(beginEngine, open);
    programs = new Programs(beginEngine, open);
    exercises = new Exercises(engine, open);
    tables = new Tables(engine);
    new WhatIf(beginEngine, tables);
    fillMenu();
    for (const it of document.querySelectorAll('[data-to]')) it.onclick = () => tabsOf(it.dataset.to);
    at('stop').onclick = () => engine.restart();
    at('undo').onclick = () => goBack('undo');
    at('redo').onclick = () => goBack('redo');
    at('save').onclick = () => saveAs('script.txt', edits.text, 'text/plain');
    at('load').onclick = () => at('file').click();
    at('file').onchange = async () => {
        const [file] = at('file').files;
        if (file && file.size > MOST) say('the file is too long for a script');
        else if (file) open(await file.text());
        at('file').value = '';
    };
    at('copy').onclick = () => copy(edits.text, 'the script');
    at('link').onclick = async () => {
        const hash = await linkOf(edits.text);
        history.replaceState(null, '', hash);
        copy(location.href.split('#')[0] + hash, 'the link');
    };
    addEventListener('hashchange', openLink);
    document.addEventListener('keydown', press);
    litmus.show(DATA.texts.litmus.sb || '');
    programs.show(DATA.texts.programs.histogram_shared || '');
    exercises.show(DATA.texts.exercises.first_miss || '');
    at('about').textContent = DATA.about;
    document.body.classList.remove('empty');
    tabsOf(PLAY);
    const before = kept();
    script.show(edits.text);
    if (await openLink()) return;
    if (before) open(before);
    else play();
    if (OPENED.kind !== 'scripts') KINDS[OPENED.kind](OPENED.text);
}
begin().catch(wrong => {
    at('answer').textContent = 'This browser can\'t run it: ' + wrong.message;
});
