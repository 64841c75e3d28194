// ---- a text that is edited: each edit is kept as the lines that it took and gave, so that it can be taken back

const COMMANDS = ['issue', 'evict', 'deliver', 'pump', 'hand', 'word', 'state', 'waiting', 'show', 'stats', 'log'];
const isCommand = line => COMMANDS.includes(line.trim().split(/\s+/)[0]);

// Gives the edit that makes the lines `to` of the lines `from`.
function editOf(from, to) {
    let begins = 0;
    const most = Math.min(from.length, to.length);
    while (begins < most && from[begins] === to[begins]) begins += 1;
    let ends = 0;
    while (ends < most - begins && from[from.length - 1 - ends] === to[to.length - 1 - ends]) ends += 1;
    return { at: begins, took: from.slice(begins, from.length - ends), gave: to.slice(begins, to.length - ends) };
}

class Edits {
    constructor(text) {
        this.lines = text.split('\n');
        this.done = [];
        this.undone = [];
    }
    get text() {
        return this.lines.join('\n');
    }
    make({ at, took, gave }) {
        this.lines = [...this.lines.slice(0, at), ...gave, ...this.lines.slice(at + took.length)];
    }
    // Takes this text in place of the one that is there.
    take(text) {
        if (text === this.text) return;
        const edit = editOf(this.lines, text.split('\n'));
        this.make(edit);
        this.done.push(edit);
        this.undone = [];
    }
    // Takes the last edit back. Where there is none, as in a script that was opened, its last command goes.
    undo() {
        const edit = this.done.pop() || this.lastCommand();
        if (!edit) return false;
        this.make({ at: edit.at, took: edit.gave, gave: edit.took });
        this.undone.push(edit);
        return true;
    }
    redo() {
        const edit = this.undone.pop();
        if (!edit) return false;
        this.make(edit);
        this.done.push(edit);
        return true;
    }
    lastCommand() {
        const at = this.lines.findLastIndex(isCommand);
        return at < 0 ? null : { at, took: [], gave: [this.lines[at]] };
    }
}
