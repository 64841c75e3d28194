// Runs the program: the WebAssembly module with arguments, standard input and named files, to its end.

// What a file has that is open: its bytes and how far they are read.
class Opened {
    constructor(bytes) {
        this.bytes = bytes;
        this.at = 0;
    }
    read(to) {
        const part = this.bytes.subarray(this.at, this.at + to.length);
        to.set(part);
        this.at += part.length;
        return part.length;
    }
}

class Exit extends Error {
    constructor(status) {
        super('exit');
        this.status = status;
    }
}

const STANDARD_INPUT = 0;
const STANDARD_OUTPUT = 1;
const NOTHING = -1n;
const TOO_LONG = -2n;
// What a memory may keep for the next run; a greater one is given back.
const KEPT = 64 << 20;

export class Machine {
    constructor(module) {
        this.module = module;
        this.instance = null;
    }

    // Runs the program with these arguments, input and files, by name, all of bytes. Gives its status and what it wrote, in
    // pieces. `write` may take the pieces as they come: the output's, and those of errors. A run that is watched writes to
    // standard error how far it has got.
    run(words, input = new Uint8Array(), files = new Map(), write = null, isWatched = false) {
        const out = [];
        const err = [];
        this.words = words;
        this.opened = [new Opened(input)];
        this.files = files;
        this.isWatched = isWatched;
        this.write = write || ((file, piece) => (file === STANDARD_OUTPUT ? out : err).push(piece));
        const status = this.call();
        return { status, out, err };
    }

    call() {
        if (!this.instance) this.begin();
        else this.reset();
        const { exports } = this.instance;
        try {
            return exports.main(0, 0n);
        } catch (stopped) {
            if (stopped instanceof Exit) return stopped.status;
            // a full stack, say: this memory isn't trusted any more
            this.instance = null;
            throw stopped;
        } finally {
            if (exports.memory.buffer.byteLength > KEPT) this.instance = null;
        }
    }

    begin() {
        const page = { write: this.pageWrite, read: this.pageRead, open: this.pageOpen, argument: this.pageArgument,
            watched: () => this.isWatched ? 1 : 0, exit: status => { throw new Exit(status); } };
        for (const name of ['write', 'read', 'open', 'argument']) page[name] = page[name].bind(this);
        this.instance = new WebAssembly.Instance(this.module, { page });
        const { memory, __heap_base: heap, __stack_pointer: stack } = this.instance.exports;
        // the data lie between the stack, which is first, and the heap
        this.stack = stack.value;
        this.data = new Uint8Array(memory.buffer).slice(Number(this.stack), Number(heap.value));
    }

    // Puts all back as it was before the first run.
    reset() {
        const { memory, reset, __stack_pointer: stack } = this.instance.exports;
        stack.value = this.stack;
        new Uint8Array(memory.buffer).set(this.data, Number(this.stack));
        reset();
    }

    // How many bytes its memory has.
    size() {
        return this.instance ? this.instance.exports.memory.buffer.byteLength : 0;
    }
    bytes(at, count) {
        return new Uint8Array(this.instance.exports.memory.buffer, Number(at), Number(count));
    }
    pageWrite(file, at, count) {
        this.write(file, this.bytes(at, count).slice());
        return count;
    }
    pageRead(file, at, count) {
        return BigInt(this.opened[file === STANDARD_INPUT ? 0 : file - 2].read(this.bytes(at, count)));
    }
    // The names of files are compared byte by byte, as latin1 has them.
    pageOpen(at, length) {
        const file = this.files.get(String.fromCharCode(...this.bytes(at, length)));
        return file ? this.opened.push(new Opened(file)) + 1 : -1;
    }
    pageArgument(which, at, room) {
        const word = this.words[Number(which)];
        if (!word) return NOTHING;
        if (word.length >= Number(room)) return TOO_LONG;
        this.bytes(at, word.length).set(word);
        return BigInt(word.length);
    }
}
