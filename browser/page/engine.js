// ---- the program: a worker that has it, and what is asked of it

// The signs of the program's text, by value: five of them are four bytes.
const SIGNS = '0123456789ABCDEFGHIJKLMNOPQRSTUVWXYZabcdefghijklmnopqrstuvwxyz!#$%&()*+-;,=>?@^_`{|}~';

// Gives the bytes of a text; past its end stands the last sign.
function bytesOf(text) {
    const values = new Uint8Array(128);
    [...SIGNS].forEach((it, value) => { values[it.charCodeAt(0)] = value; });
    const words = new DataView(new ArrayBuffer(Math.ceil(text.length / 5) * 4));
    for (let at = 0; at < text.length; at += 5) {
        let word = 0;
        for (let sign = at; sign < at + 5; sign++) {
            word = word * 85 + (sign < text.length ? values[text.charCodeAt(sign)] : 84);
        }
        words.setUint32(at / 5 * 4, word);
    }
    return new Uint8Array(words.buffer, 0, Math.floor(text.length * 4 / 5));
}

// Gives the bytes that gzip made to such a text.
async function unpacked(text) {
    const packed = bytesOf(text);
    const stream = new Blob([packed]).stream().pipeThrough(new DecompressionStream('gzip'));
    return new Response(stream).arrayBuffer();
}

// What is answered where the worker itself fails.
const failed = said => ({ status: -1, out: '', err: `lockup: ${said}\n`, fault: said, same: 0, steps: [], took: 0, memory: 0 });

class Engine {
    // `place` is where the worker's code is found: a blob of the page, which stays, since a worker may read it late.
    constructor(module, place) {
        Object.assign(this, { module, place, waiting: new Map(), count: 0 });
        this.begin();
    }
    begin() {
        this.worker = new Worker(this.place);
        this.worker.onmessage = ({ data }) => this.tell(data);
        this.worker.onerror = ({ message }) => this.fail(message);
        this.worker.postMessage({ module: this.module });
    }
    fail(said) {
        for (const id of [...this.waiting.keys()]) this.tell({ id, ...failed(said) });
    }
    tell(told) {
        const { answer, watch } = this.waiting.get(told.id);
        if (told.done) {
            watch(told.done);
            return;
        }
        this.waiting.delete(told.id);
        answer(told);
    }

    // Runs the program with these words and this text as its input, or plays the text where there are no words. `watch` is
    // told how far a long run has got. `files` has the texts of further files, by their names.
    ask(text, words = null, watch = () => {}, files = {}) {
        const id = this.count++;
        return new Promise(answer => {
            this.waiting.set(id, { answer, watch });
            this.worker.postMessage({ id, text, words, files });
        });
    }

    stop() {
        this.worker.terminate();
    }
    // Stops what is at work, and begins anew.
    restart() {
        this.stop();
        this.begin();
        this.fail('stopped');
    }
}

// Work that may take long, in a worker of its own, which a button stops.
class LongWork {
    constructor(begin, button, says) {
        Object.assign(this, { begin, button, says, engine: null });
        button.onclick = () => this.stop();
        button.hidden = true;
    }
    async ask(text, words, files) {
        this.stop();
        const engine = this.begin();
        this.engine = engine;
        this.button.hidden = false;
        this.says.textContent = 'at work ..';
        const answer = await engine.ask(text, words, done => { this.says.textContent = done; }, files);
        if (this.engine === engine) this.end('');
        return answer;
    }
    stop() {
        if (this.engine) this.end('stopped');
    }
    end(said) {
        this.engine.stop();
        this.engine = null;
        this.button.hidden = true;
        this.says.textContent = said;
    }
}
