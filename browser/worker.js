// The page's worker: runs the program beside the page, so that nothing freezes it. It is handed the module first, and
// then calls of the program, whose answers it gives, and before an answer how far a long run has got. The class Machine
// stands before it.

const encoder = new TextEncoder();
let machine = null;
// the value of the last run's page, as its steps are known to the page around it
let known = new Uint8Array();

function joined(pieces) {
    const all = new Uint8Array(pieces.reduce((size, it) => size + it.length, 0));
    let at = 0;
    for (const it of pieces) {
        all.set(it, at);
        at += it.length;
    }
    return all;
}
const textOf = pieces => new TextDecoder().decode(joined(pieces));

// Runs the program on a text as its standard input.
function ran(words, text) {
    return machine.run(['lockup', ...words].map(it => encoder.encode(it)), encoder.encode(text));
}

// Runs it as `ran` does, and tells how far it has got, which the program writes to standard error: `500 of 2000 rounds`.
const DONE = /^(\d+ of \d+ \w+)\r/;
function watched(words, text, files, tell) {
    const out = [];
    let err = '';
    const write = (file, piece) => {
        if (file === STANDARD_OUTPUT) {
            out.push(piece);
            return;
        }
        err += textOf([piece]);
        for (let done = DONE.exec(err); done; done = DONE.exec(err)) {
            tell(done[1]);
            err = err.slice(done[0].length);
        }
    };
    const all = ['lockup', ...words].map(it => encoder.encode(it));
    const named = new Map(Object.entries(files).map(([name, it]) => [name, encoder.encode(it)]));
    const { status } = machine.run(all, encoder.encode(text), named, write, true);
    return { status, out: textOf(out), err };
}

// Where some letters stand in bytes behind a place.
function placeOf(letters, bytes, from) {
    const wanted = encoder.encode(letters);
    for (let at = bytes.indexOf(wanted[0], from); at >= 0; at = bytes.indexOf(wanted[0], at + 1)) {
        if (wanted.every((it, place) => bytes[at + place] === it)) return at;
    }
    return bytes.length;
}

// Plays a script. Of its steps those are given that aren't as in the run before: behind the first `same`. The program writes a
// page, whose value has a line for each step between its first line and its last.
function played(text) {
    const { status, out, err } = ran(['page', '-'], text);
    const page = joined(out);
    // settings that can't be have no page
    if (page.length === 0) {
        known = page;
        return { status, err: textOf(err), fault: textOf(err), same: 0, steps: [] };
    }
    const begins = placeOf('\n{"script"', page, 0) + 1;
    const first = page.indexOf(10, begins) + 1;
    const value = page.subarray(first, placeOf('\n</script>', page, first));
    let [same, line] = [0, 0];
    const most = Math.min(value.length, known.length);
    for (let at = 0; at < most && value[at] === known[at]; at++) {
        if (value[at] !== 10) continue;
        same += 1;
        line = at + 1;
    }
    const steps = new TextDecoder().decode(value.subarray(line)).split('\n');
    const { fault } = JSON.parse('{"rest":[' + steps.pop());
    known = value;
    return { status, err: textOf(err), fault, same, steps: steps.map(it => it.slice(0, -1)) };
}

onmessage = ({ data: { id, module, words, text, files } }) => {
    if (module) {
        machine = new Machine(module);
        return;
    }
    const began = performance.now();
    let answer;
    try {
        answer = words ? watched(words, text, files, done => postMessage({ id, done })) : played(text);
    } catch (stopped) {
        known = new Uint8Array();
        answer = { status: -1, out: '', err: 'lockup: ' + stopped.message + '\n', fault: stopped.message, same: 0, steps: [] };
    }
    postMessage({ id, ...answer, took: performance.now() - began, memory: machine.size() });
};
