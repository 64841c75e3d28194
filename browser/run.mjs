// Runs the program in node as its command line does, of the module that tools/browser built:
//   node browser/run.mjs MODULE.wasm ARGUMENT..
import fs from 'node:fs';
import { Machine } from './machine.mjs';

const [file, ...words] = process.argv.slice(2);
if (!file) {
    console.error('usage: node browser/run.mjs MODULE.wasm ARGUMENT..');
    process.exit(2);
}

function readAll(from) {
    try {
        return fs.readFileSync(from);
    } catch {
        return undefined;
    }
}

// each is read when it is asked for
const files = { get: name => readAll(Buffer.from(name, 'latin1')) };
const write = (to, piece) => {
    for (let at = 0; at < piece.length;) at += fs.writeSync(to, piece, at);
};
const machine = new Machine(new WebAssembly.Module(fs.readFileSync(file)));
const isAsked = words.includes('-') || words[0] === 'try';
const input = isAsked ? readAll(0) : undefined;
const isWatched = process.stderr.isTTY === true;
process.exitCode = machine.run(['lockup', ...words].map(it => Buffer.from(it)), input, files, write, isWatched).status;
