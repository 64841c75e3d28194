// In the frame, behind the page's own code: takes runs from the page around it, in place of the one that it was written
// with, and tells that page what can be done at the step that is shown. It uses the names of the page's code.

'use strict';
history.replaceState = () => {};

// as the page has them of an empty script
const PLAIN = { shape: { ...shape }, chosen: { ...chosen } };
let taken = 0;

function takeSettings(text, isPlain) {
    Object.assign(shape, PLAIN.shape);
    Object.assign(chosen, PLAIN.chosen);
    script.length = 0;
    for (const line of text.split('\n')) script.push(line.replace(/\r$/, ''));
    for (const line of isPlain ? [] : script) {
        const [name, value] = line.trim().split(/\s+/);
        if (Object.hasOwn(PLAIN.shape, name) && /^\d+$/.test(value)) shape[name] = Number(value);
        if (Object.hasOwn(PLAIN.chosen, name) && value) chosen[name] = value;
    }
    slices.length = shape.slices;
    for (let slice = 0; slice < shape.slices; slice++) slices[slice] = slice;
    setsOf.length = Math.min(setsOf.length, shape.cores);
    while (setsOf.length < shape.cores) setsOf.push(new Set());
}

// The page's code reads all steps; behind a run that goes on it reads those that are new.
let read = 0;
steps.forEach = call => {
    for (let step = read; step < steps.length; step++) call(steps[step], step);
};
function takeSteps(isMore, same, given) {
    read = isMore ? steps.length : 0;
    steps.length = Math.min(steps.length, same);
    for (const it of given) steps.push(JSON.parse(it));
    if (!isMore) forgetRun();
    histories.clear();
    readSteps();
    readRows();
    ascending.length = 0;
    for (const line of [...lines.all.keys()].sort((a, b) => a - b)) ascending.push(line);
}

// the comments before each command
function takeCaptions() {
    captions.length = 0;
    let [said, step] = [[], 0];
    script.forEach((text, before) => {
        if (text.startsWith('#')) said.push(text.slice(1).trim());
        while (step < steps.length && steps[step].at <= before) step += 1;
        if (step === steps.length || steps[step].at > before + 1) return;
        captions[step + 1] = said.join(' ');
        said = [];
    });
}

function take({ number, text, fault, same, steps: given, to }) {
    if (timer) play();
    taken = number;
    run.script = text;
    run.fault = fault;
    const settings = JSON.stringify([shape, chosen]);
    // settings that can't be are the script's, and no machine's
    takeSettings(text, fault && same + given.length === 0);
    takeSteps(same === steps.length && settings === JSON.stringify([shape, chosen]), same, given);
    takeCaptions();
    fillLines();
    at('title').textContent = titleOf();
    at('count').textContent = steps.length;
    at('step').max = steps.length;
    show(to === undefined ? steps.length : to);
}

// ---- what is told of a step

// How much of the script stands up to the step: so many lines, and of a pump that isn't done its deliveries.
function cutAt(step) {
    const next = steps[step];
    const [, invalid] = /^line (\d+)/.exec(run.fault || '') || [];
    if (step === 0) return { lines: next ? next.at - 1 : invalid ? invalid - 1 : script.length, more: [] };
    const { at: line } = steps[step - 1];
    if (!next) return { lines: run.fault ? line : script.length, more: [] };
    if (next.at !== line) return { lines: line, more: [] };
    return { lines: line - 1, more: steps.slice(0, step).filter(it => it.at === line).map(it => it.command) };
}

const SHOWN = 200;
function movesAt(step) {
    const found = [];
    for (const slice of slices) {
        for (const line of givenAt(step).filter(it => sliceOf(it) === slice)) {
            for (const message of lineAt(step, line).messages) {
                const command = channelOf(line, message);
                const sent = senderOf(command);
                found.push({ command, line, kind: message.class, name: nameOf(message), from: sent ? sent.from : '',
                    to: whoOf(message.to), moves: message.fate === 'moves', why: fateOf(step, line, message) });
            }
        }
    }
    return found.slice(0, SHOWN);
}
function coreAt(step, core) {
    const held = partsOf(core);
    const all = [...setsOf[core]].flatMap(key => sets.at(key, step) || []).sort((a, b) => a - b);
    const waits = held.flatMap(it => it.registers).flatMap(line => copyAt(step, core, line).targets.map(it => it.tag));
    const replies = slices.flatMap(slice => (parts.at(keyOf(core, slice), step) || { replies: [] }).replies
        .map(it => ({ slice, tag: it.tag, number: it.number })));
    return { copies: all.map(line => ({ line, state: copyAt(step, core, line).state })), replies,
        busy: [...waits, ...replies.map(it => it.tag)] };
}

// whose table's row the step took, and which columns of it
function takenAt(step) {
    const met = caseOf(step);
    if (!met || met.lit === 'would') return null;
    for (const [heading, ...all] of tables[met.who]) {
        for (const row of all.filter(it => met.row(it[0]))) {
            const columns = heading.filter((it, column) => column > 0 && met.fits(it, row[column]));
            if (columns.length) return { who: met.who, row: row[0], columns };
        }
    }
    return null;
}

function tell() {
    const step = now && steps[now - 1];
    parent.postMessage({ told: { number: taken, now, count: steps.length, line: step ? step.at : 0, cut: cutAt(now), shape,
        followed: followed(), moves: movesAt(now), cores: Array.from({ length: shape.cores }, (_, core) => coreAt(now, core)),
        taken: takenAt(now), isExclusive: chosen.exclusive === 'on', answer: step ? step.answer : '' } }, '*');
}
const showAlone = show;
show = number => {
    showAlone(number);
    tell();
};
const followAlone = follow;
follow = line => {
    followAlone(line);
    tell();
};

// ---- what is clicked: a message in flight, or one of those that can be delivered, is delivered; a core's lifeline asks for an
// access of that core

at('diagram').addEventListener('click', event => {
    const arrow = event.target.closest('[data-channel], [data-flying], .label');
    if (!arrow) return;
    const channel = arrow.dataset.channel || arrow.dataset.flying || messages[Number(arrow.dataset.of)].channel;
    const front = senderOf(channel);
    // an arrow of what was delivered already, or stands behind another, is a picture alone
    if (!front || arrow.dataset.sent && Number(arrow.dataset.sent) !== front.sent.step) return;
    parent.postMessage({ asked: { deliver: channel } }, '*');
});
at('diagram').addEventListener('click', event => {
    const { who, chip } = (event.target.closest('[data-who], [data-chip]') || { dataset: {} }).dataset;
    const name = who || chip || DIRECTORY;
    if (name !== DIRECTORY) parent.postMessage({ asked: { core: Number(name.split(' ')[1]) } }, '*');
});
at('could').addEventListener('click', event => {
    const row = event.target.closest('.rest');
    if (row) parent.postMessage({ asked: { deliver: row.textContent.split('   ')[0] } }, '*');
});
document.addEventListener('keydown', event => {
    const { key, ctrlKey, metaKey, shiftKey, target } = event;
    if ((ctrlKey || metaKey) && ['z', 'Z', 'y'].includes(key)) {
        event.preventDefault();
        parent.postMessage({ asked: { history: key === 'y' || shiftKey ? 'redo' : 'undo' } }, '*');
    }
    if (event.defaultPrevented || event.altKey || ctrlKey || metaKey) return;
    // what changes its size does so in a number and a choice too
    if (['+', '-'].includes(key)) {
        event.preventDefault();
        larger(key === '+' ? 1 : -1);
        return;
    }
    // all other keys are the page's around it, but where something is written, or read that they would scroll
    const isRead = at('focus').contains(target) && key.startsWith('Arrow');
    if (isRead || ['INPUT', 'SELECT', 'TEXTAREA'].includes(target.tagName)) return;
    if (/^(.|Arrow\w+)$/.test(key)) parent.postMessage({ asked: { key } }, '*');
});

addEventListener('message', ({ source, data }) => {
    if (source !== parent) return;
    if (data.take) take(data.take);
    if (data.go) show(now + data.go);
    if (data.goEvent) show(eventFrom(now, data.goEvent));
    if (data.larger) larger(data.larger);
});
parent.postMessage({ ready: true }, '*');
