// ---- what somebody who sees the machine for the first time may try: from an empty machine to a race, a goal at a time

const copiesIn = (told, ...states) => told.cores.flatMap(it => it.copies).filter(it => states.includes(it.state)).length;
// Whether a core that waits to write what it may read can be handed an Inv.
const hasInvInUpgrade = told => told.moves.some(message => message.moves && message.name.startsWith('Inv for')
    && told.cores.some(({ copies }, core) => message.to === 'core ' + core
        && copies.some(it => it.line === message.line && it.state === 'SM_AD')));
const isOver = told => copiesIn(told, 'SM_AD') === 0;

// A goal, when it is reached, and when it can't be any more.
const GOALS = [
    { says: 'Two cores, each with a cache, and the directory of their memory. Nothing moves by itself: you choose each access '
        + 'and each message. Let core 0 load word 0: press its "load".', is: told => told.count > 0 },
    { says: 'Core 0 has no copy, so it asks for one: GetS is on its way to the directory. Deliver it, and then the Data that '
        + 'answer it: press them below, or the open ends of their arrows.', is: told => copiesIn(told, 'S', 'E', 'M') > 0 },
    { says: 'Core 0 has its copy. Let core 1 load the same word, and deliver its messages too.',
        is: told => copiesIn(told, 'S') > 1 },
    { says: 'Both may read (S), and none may write. For a race, let both cores store before you deliver anything.',
        is: told => copiesIn(told, 'SM_AD') > 1 },
    { says: 'Both wait in SM_AD: on the way from S to M, for acknowledgements (A) and data (D). Each still reads, and has asked '
        + 'to write (GetM). Deliver one of the two GetM.', is: hasInvInUpgrade, isOver },
    { says: 'That core comes first. The other gets an Inv now, in the middle of its own upgrade ("for" names the core that asked '
        + 'for it, and gets the answer): deliver the Inv, and see what becomes of its SM_AD.',
        is: told => copiesIn(told, 'IM_AD', 'IM_A') > 0, isOver },
    { says: 'This is the upgrade race: that core has lost its copy, and waits for a new one (IM_AD). Deliver the rest, one by '
        + 'one. Data(1) says that one acknowledgement is to come. A message that is blocked says what it waits for.',
        is: told => told.moves.length === 0 && copiesIn(told, 'M') > 0 },
    { says: 'Both stores are done, one after the other. Undo some deliveries, or step back, and go another way: let the other '
        + 'core come first. Or open other runs, from the list at the top.', is: () => false },
];
// the goal at which the race begins
const RACE = GOALS.findIndex(it => it.is === hasInvInUpgrade);
const OVER = 'The race is over, and you missed it. Undo until both cores are in SM_AD, and deliver one message at a time.';

class Goals {
    constructor() {
        this.reached = 0;
        this.isClosed = false;
        at('goal-close').onclick = () => {
            this.isClosed = true;
            at('goal').hidden = true;
        };
    }
    // Goes on to the first goal that isn't reached, in a script that began with the empty machine. It begins anew in a
    // machine that is emptied, and goes back to the race where that stands before somebody again.
    take(told, isTheirs, isEmpty) {
        at('goal').hidden = this.isClosed || !isTheirs;
        if (!isTheirs) return;
        if (isEmpty) this.reached = 0;
        if (this.reached > RACE && copiesIn(told, 'SM_AD') > 1) this.reached = RACE;
        while (GOALS[this.reached].is(told)) this.reached += 1;
        const goal = GOALS[this.reached];
        at('goal-says').textContent = goal.isOver && goal.isOver(told) ? OVER : goal.says;
        at('goal-count').textContent = `Try (${this.reached + 1} of ${GOALS.length})`;
    }
}
