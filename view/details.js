// The part of the page that shows one step: of each trace, what it did, and the registers behind it.
'use strict';

const REGISTERS_CAPTION = 'Registers after this step, as far as the trace tells';
const FRAME_OF_TAIL_CHAIN = 'The words that the first entry wrote stay. At most R4 to R11 are written below them.';

class Details {
    constructor(container, page) {
        this.container = container;
        this.page = page;
    }

    draw() {
        const { page } = this;
        const facts = page.axis.tracks.map((track) => factsOf(track, track.rows[page.cell]));
        if (page.comparison.isMade) markDifferent(facts);
        const parts = page.axis.tracks.map((track, at) => this.section(track, facts[at]));
        this.container.replaceChildren(...parts);
        this.container.classList.toggle('two', parts.length > 1);
    }

    section(track, facts) {
        const { trace } = track;
        const name = this.page.axis.tracks.length > 1 ? element('p', { class: 'name' }, trace.name) : null;
        if (!facts) return element('section', {}, name, element('p', {}, 'This trace has no line here.'));
        return element('section', {}, name, heading(facts), element('p', { class: 'sentence' }, facts.sentence),
            placeTable(facts), furtherLines(facts), changesTable(facts), storesTable(facts),
            this.entryParts(trace, facts), ...facts.frames.map(frameTable), this.registersTable(facts));
    }

    stepLink(step) {
        const onclick = () => this.page.goToStep(step);
        return element('button', { type: 'button', class: 'link', onclick }, String(step));
    }

    registersTable(facts) {
        const rows = facts.registers.map((register) => [
            register.name,
            knownValue(register.value),
            register.isChanged ? 'changed' : register.flags || register.note,
            register.since < 0 ? '' : this.stepLink(register.since),
        ]);
        const classes = facts.registers.map((register) => (
            `${register.isChanged ? 'changed' : ''} ${register.isDifferent ? 'differs' : ''}`));
        return table(REGISTERS_CAPTION, ['Register', 'Value', '', 'Since step'], rows, (at) => classes[at]);
    }

    entryParts(trace, facts) {
        if (!facts.entry) return null;
        const { entry } = facts;
        const end = entry.end < 0 ? 'is still active where the trace ends'
            : ['ends at step ', this.stepLink(trace.steps[entry.end])];
        const bits = table(`LR in the handler: ${hex(entry.link)} (EXC_RETURN)`, ['Bit', 'Value', 'Meaning'],
            entry.bits.map(({ name, value, meaning }) => [name, value, meaning]));
        const told = element('p', {}, `Exception ${entry.number} `, ...[end].flat(), '.');
        return element('div', {}, told, bits, entry.isTail ? element('p', {}, FRAME_OF_TAIL_CHAIN) : null);
    }
}

function factsOf(track, row) {
    return row === undefined || row === NO_ROW ? null : describe(track.trace, row);
}

// Marks the registers whose values are known in both traces and aren't the same.
function markDifferent(facts) {
    const [one, other] = facts;
    if (!one || !other) return;
    one.registers.forEach((register, at) => {
        const beside = other.registers[at];
        register.isDifferent = Boolean(register.value && beside.value && register.value !== beside.value);
        beside.isDifferent = register.isDifferent;
    });
}

function heading(facts) {
    const count = facts.last - facts.step + 1;
    const fold = count > 1 ? ` to ${facts.last}: ${plural(count, 'equal line')}` : '';
    return element('h2', {}, `Step ${facts.step}${fold}`);
}

function knownValue(text) {
    return text ? element('code', {}, text) : element('span', { class: 'unknown' }, 'not known');
}

function placeTable(facts) {
    const pairs = [['Side', facts.side], ['Mode', facts.mode]];
    if (facts.where) {
        const { address, code, text, name } = facts.where;
        pairs.push(['Instruction', element('code', {}, text)], ['Address', element('code', {}, address)],
            ['Code', element('code', {}, code)], ['Function', name]);
    }
    const shown = pairs.filter(([, value]) => value);
    return element('dl', {}, ...shown.flatMap(([name, value]) => [element('dt', {}, name), element('dd', {}, value)]));
}

function changesTable(facts) {
    if (!facts.changes.length) return null;
    const rows = facts.changes.map(({ name, before, after, note }) => [
        name + note, element('code', {}, before || '—'), element('code', {}, after)]);
    return table('Changed registers', ['Register', 'Before', 'After'], rows);
}

function storesTable(facts) {
    if (!facts.stores.length) return null;
    return table('Stores', ['Address', 'Bytes', 'Value'], facts.stores.map(({ address, size, value }) => [
        element('code', {}, hex(address)), String(size), element('code', {}, hex(value))]));
}

function frameTable({ caption, words }) {
    const rows = words.map(({ address, value, what }) => [
        element('code', {}, address || '—'), element('code', {}, value || '—'), what]);
    return table(caption, ['Address', 'Word', 'What'], rows);
}

// A line that is broken goes on further in.
function furtherLines(facts) {
    if (!facts.further) return null;
    const lines = facts.further.split('\n').filter(Boolean);
    return element('div', { class: 'further' }, ...lines.map((line) => element('p', {}, line.trim())));
}
