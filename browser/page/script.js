// ---- the script as text: its lines numbered, the one that is invalid marked, with what is wrong beside it

class Script {
    constructor(changed) {
        this.area = at('script');
        this.area.oninput = () => {
            this.draw();
            clearTimeout(this.later);
            this.later = setTimeout(() => changed(this.area.value), 150);
        };
        this.area.onscroll = () => this.draw();
        this.fault = null;
        this.shown = 0;
    }
    show(text) {
        clearTimeout(this.later);
        if (this.area.value !== text) this.area.value = text;
        this.draw();
    }
    // What is said of an invalid line: `lockup: line 4: FAULT   HINT`; or of the configuration, `lockup: config 1 Cores`, which
    // names no line: it is the last that sets this.
    tellFault(err) {
        const found = /^lockup: (?:line (\d+): |config \d+ (\w+))?(.*)/m.exec(err);
        const name = found && found[2] && found[2].toLowerCase();
        if (name && Object.hasOwn(SETTINGS, name)) {
            const line = this.area.value.split('\n').findLastIndex(it => (settingOf(it) || {}).name === name) + 1;
            this.fault = { line: line || null, text: allowedOf(name) };
        } else {
            const text = found && (found[2] ? 'not allowed: ' + found[2] : found[3].replace('   ', ': '));
            this.fault = found && { line: found[1] ? Number(found[1]) : null, text };
        }
        this.draw();
    }
    // Marks the line of the step that is shown, and brings it into view.
    mark(line) {
        if (this.shown === line) return;
        this.shown = line;
        const { top, bottom } = this.placeOf(line);
        if (line && document.activeElement !== this.area) {
            if (top < 0) this.area.scrollTop += top;
            if (bottom > this.area.clientHeight) this.area.scrollTop += bottom - this.area.clientHeight;
        }
        this.draw();
    }
    placeOf(line) {
        const height = parseFloat(getComputedStyle(this.area).lineHeight);
        const top = 4 + (line - 1) * height - this.area.scrollTop;
        return { top, bottom: top + height, height };
    }
    // Draws the numbers of the lines in view, and what is said of the one that is invalid.
    draw() {
        const { height } = this.placeOf(1);
        const count = this.area.value.split('\n').length;
        const first = Math.floor(this.area.scrollTop / height);
        const last = Math.min(count, first + Math.ceil(this.area.clientHeight / height) + 1);
        const numbers = [];
        for (let line = first + 1; line <= last; line++) {
            const kind = this.fault && this.fault.line === line ? 'bad' : line === this.shown ? 'now' : '';
            const number = made('div', kind, String(line));
            number.style.top = this.placeOf(line).top + 'px';
            numbers.push(number);
        }
        at('numbers').replaceChildren(...numbers);
        const told = at('fault');
        told.hidden = !this.fault;
        if (!this.fault) return;
        const line = this.fault.line;
        told.textContent = line ? `line ${line}: ${this.fault.text}` : this.fault.text;
        const room = this.area.clientHeight - 30;
        told.style.top = Math.max(2, Math.min(line ? this.placeOf(line).bottom + 2 : 2, room)) + 'px';
    }
}
