// Runs the program many times in one process of node, as the page does: node browser/many.mjs MODULE.wasm. Standard input is a
// list of JSON, of calls with their words and input; printed is a list of what came of each. Texts are latin1, a character a
// byte.
import fs from 'node:fs';
import { Machine } from './machine.mjs';

const [module] = process.argv.slice(2);
const machine = new Machine(new WebAssembly.Module(fs.readFileSync(module)));
const bytes = text => Buffer.from(text, 'latin1');
const files = {
    get: name => {
        try {
            return fs.readFileSync(bytes(name));
        } catch {
            return undefined;
        }
    },
};
const told = JSON.parse(fs.readFileSync(0, 'utf8')).map(({ words, input }) => {
    const { status, out, err } = machine.run(['lockup', ...words].map(bytes), bytes(input), files);
    return { status, out: Buffer.concat(out).toString('latin1'), err: Buffer.concat(err).toString('latin1') };
});
fs.writeFileSync(1, JSON.stringify(told));
