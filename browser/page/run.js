// ---- the run as a picture: the page that the program writes, in a frame of its own, which is handed runs and tells its step

class Run {
    constructor(frame, told, asked) {
        this.frame = frame;
        this.number = 0;
        this.isReady = false;
        this.next = null;
        addEventListener('message', event => {
            if (event.source !== frame.contentWindow) return;
            if (event.data.ready) this.begin();
            if (event.data.told) told(event.data.told);
            if (event.data.asked) asked(event.data.asked);
        });
        frame.srcdoc = DATA.frame;
    }
    begin() {
        this.isReady = true;
        if (this.next) this.send(this.next);
        this.next = null;
    }
    send(message) {
        this.frame.contentWindow.postMessage(message, '*');
    }
    // Shows a run from its step `to`, its last one where none is named. Gives the number that the frame tells it by.
    take(run, to) {
        this.number += 1;
        const message = { take: { ...run, number: this.number, to } };
        if (this.isReady) this.send(message);
        // the worker gives what isn't as in the run before, which then has to be there too
        else this.next = this.next ? { take: { ...message.take, ...joined(this.next.take, run) } } : message;
        return this.number;
    }
    go(by) {
        this.send({ go: by });
    }
    goEvent(by) {
        this.send({ goEvent: by });
    }
    larger(by) {
        this.send({ larger: by });
    }
}
function joined(before, run) {
    return { same: before.same, steps: [...before.steps.slice(0, run.same - before.same), ...run.steps] };
}
