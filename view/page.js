// The page: what is open, which step is shown, and what each key and button does.
'use strict';

const READ_MILLISECONDS = 80;
const nextTurn = () => new Promise((resolve) => { setTimeout(resolve); });

class Page {
    constructor() {
        this.traces = [];
        // The names of functions of the first trace, and those of the second.
        this.symbols = [new Symbols(), new Symbols()];
        this.axis = new Axis([], true);
        this.comparison = new Comparison(this.axis);
        this.cell = 0;
        this.found = null;
        this.isBeside = false;
        this.isReady = false;
        this.chart = new Chart(byId('chart'), this);
        this.overview = new Overview(byId('overview'), this);
        this.lines = new Lines(byId('lines'), this);
        this.details = new Details(byId('details'), this);
    }

    say(text) {
        byId('status').textContent = text;
    }

    // Takes files, which replace what is open; names of functions are added, and a trace that comes beside another is
    // the second one.
    async take(files, isBeside) {
        const kinds = files.map((file) => ({ ...file, kind: kindOfFile(file.bytes) }));
        const sweep = kinds.find((file) => file.kind === 'sweep');
        if (sweep) return this.showSweep(sweep);
        if (kinds.some((file) => file.kind === 'elf')) {
            this.say('An ELF file is read by tzrun picture --symbols; here give what nm -S writes of it.');
        }
        for (const file of kinds) if (file.kind === 'symbols') this.takeNames(file);
        return this.takeTraces(kinds.filter((file) => file.kind === 'trace'), isBeside);
    }

    // Names are of both traces, unless their file says of which one.
    takeNames({ bytes, place }) {
        const chosen = place === undefined ? this.symbols : [this.symbols[place]];
        for (const symbols of chosen) symbols.add(textOf(bytes, 0, bytes.length));
    }

    async takeTraces(files, isBeside) {
        const traces = isBeside ? this.traces.slice(0, 1) : [];
        for (const file of files) {
            const trace = await this.read(file);
            if (trace.count) traces.push(trace);
            else this.say(`${file.name} has no line of a trace.`);
        }
        if (files.length && !traces.length) return;
        if (files.length) this.traces = traces.slice(0, 2);
        if (!this.traces.length) return;
        this.traces.forEach((trace, at) => { trace.symbols = this.symbols[at]; });
        this.open(true);
        this.tell();
    }

    async read(file) {
        const trace = new Trace(file.name, file.bytes);
        const reader = new Reader(trace);
        while (reader.readFor(READ_MILLISECONDS)) {
            this.say(`Reading ${file.name}: ${Math.floor(100 * reader.share)} %`);
            await nextTurn();
        }
        return trace;
    }

    // What was read, in a line.
    tell() {
        const parts = this.traces.map((trace) => {
            const unread = trace.unread ? `, ${plural(trace.unread, 'line')} not of a trace passed over` : '';
            const view = trace.hasFurther ? 'full' : trace.showsAll ? 'all' : 'ns';
            return `${trace.name}: ${plural(trace.lastStep - trace.steps[0] + 1, 'step')}, view ${view}${unread}`;
        });
        if (this.traces.length === 2) parts.push(this.tellOfDifference());
        this.say(parts.join(' · '));
    }

    tellOfDifference() {
        if (!this.comparison.isMade) return 'two views, so lines are not compared';
        const { first } = this.comparison;
        return first < 0 ? 'no line differs' : `first difference at step ${this.axis.starts[first]}`;
    }

    // Makes the axis anew, and shows the same step, or at first the one that the address names or the first
    // difference.
    open(isFirst) {
        const step = isFirst ? -1 : this.axis.starts[this.cell];
        byId('empty').hidden = true;
        byId('sweep').hidden = true;
        byId('run').hidden = false;
        document.body.dataset.traces = this.traces.length;
        document.title = `${this.traces.map((trace) => trace.name).join(' | ')}: picture of a run`;
        byId('title').textContent = this.traces.map((trace) => trace.name).join(' | ');
        this.axis = new Axis(this.traces, isFirst ? true : this.axis.isFolded);
        this.comparison = new Comparison(this.axis);
        byId('fold').setAttribute('aria-pressed', String(this.axis.isFolded));
        this.layOut();
        if (isFirst) this.chart.showAll();
        this.select(isFirst ? this.firstCell() : this.axis.cellOfStep(step));
    }

    firstCell() {
        const asked = /^#step=(\d{1,8})$/.exec(location.hash);
        if (asked) return this.axis.cellOfStep(Number(asked[1]));
        return Math.max(0, this.comparison.first);
    }

    layOut() {
        this.chart.layOut();
        this.overview.layOut();
        this.lines.reveal(this.cell);
        this.redraw();
    }

    // Draws the chart at the next frame, however often it is asked for before.
    redraw() {
        if (this.isAsked) return;
        this.isAsked = true;
        requestAnimationFrame(() => {
            this.isAsked = false;
            this.chart.draw();
            this.overview.draw();
        });
    }

    select(cell) {
        if (!this.axis.count) return;
        this.cell = Math.max(0, Math.min(this.axis.count - 1, cell));
        this.chart.reveal(this.cell);
        this.lines.reveal(this.cell);
        this.lines.draw();
        this.details.draw();
        this.speak();
        this.redraw();
    }

    speak() {
        const told = this.axis.tracks.filter((track) => track.rows[this.cell] !== NO_ROW)
            .map((track) => sentenceOf(track.trace, track.rows[this.cell]));
        byId('spoken').textContent = `Step ${this.axis.starts[this.cell]}. ${told.join(' ')}`;
    }

    goToStep(step) {
        this.select(this.axis.cellOfStep(step));
    }

    // The next cell behind which a trace leaves its side or level as `accepts` says.
    goToWay(isBackwards, accepts) {
        const found = this.axis.tracks.map((track) => track.findTurn(this.cell, isBackwards, accepts))
            .filter((cell) => cell >= 0);
        const cell = isBackwards ? Math.max(...found) : Math.min(...found);
        this.goTo(found.length ? cell : -1, `No such step ${isBackwards ? 'before' : 'behind'} this one.`);
    }

    goToDifference(isBackwards) {
        if (!this.comparison.isMade) return;
        const cell = isBackwards ? this.comparison.before(this.cell) : this.comparison.next(this.cell);
        this.goTo(cell, `No line differs ${isBackwards ? 'before' : 'behind'} this one.`);
    }

    // Shows a cell, or says why there is none.
    goTo(cell, why) {
        if (cell < 0) {
            this.say(why);
            return;
        }
        this.select(cell);
        this.tell();
    }

    search(words, isBackwards) {
        const search = readSearch(words, this.traces);
        if (!search) return;
        if (search.step !== undefined) {
            this.goToStep(search.step);
            return;
        }
        this.found = search;
        this.findNext(isBackwards);
    }

    findNext(isBackwards) {
        if (!this.found) return;
        const cell = findCell(this.axis, this.cell, isBackwards, this.found.test);
        if (cell < 0) {
            this.say(`No ${this.found.what} ${isBackwards ? 'before' : 'behind'} step ${this.axis.starts[this.cell]}.`);
            return;
        }
        this.select(cell);
        this.say(`Found ${this.found.what} at step ${this.axis.starts[cell]}. n: next, N: before.`);
    }

    fold() {
        this.axis.isFolded = !this.axis.isFolded;
        this.open(false);
        this.say(this.axis.isFolded ? 'Equal lines are folded.' : 'Each step is shown.');
    }

    zoom(factor) {
        const x = this.chart.xOf(this.cell);
        const isSeen = x >= this.chart.gutter && x <= this.chart.width;
        this.chart.zoom(factor, isSeen ? x : this.chart.gutter + this.chart.span / 2);
        this.redraw();
    }

    pan(share) {
        this.chart.pan(share * this.chart.span);
        this.redraw();
    }

    theme() {
        const { dataset } = document.documentElement;
        dataset.theme = dataset.theme === 'dark' ? 'light' : 'dark';
        this.layOutAll();
    }

    // Takes the window's size and the colours anew, whatever is shown.
    layOutAll() {
        if (this.traces.length) {
            this.layOut();
            this.lines.draw();
        } else if (this.map) {
            this.map.layOut();
        }
    }

    // The window has another size. A chosen step that was in view stays there.
    resize() {
        const isShown = this.traces.length && this.chart.shows(this.cell);
        this.layOutAll();
        if (isShown) this.chart.reveal(this.cell);
    }

    help() {
        const rows = KEYS.map(([key, meaning]) => [element('kbd', {}, key), meaning]);
        byId('keys-table').replaceChildren(table('', ['Key', 'Does'], rows));
        byId('keys').showModal();
    }

    pick(isBeside) {
        this.isBeside = isBeside;
        byId('files').click();
    }

    showSweep(file) {
        byId('empty').hidden = true;
        byId('run').hidden = true;
        byId('sweep').hidden = false;
        document.body.dataset.traces = 0;
        document.title = `${file.name}: picture of a sweep`;
        byId('title').textContent = file.name;
        this.traces = [];
        this.map = new SweepMap(byId('sweep'), readSweep(textOf(file.bytes, 0, file.bytes.length)));
        this.say(this.map.summary);
    }

    // Does what a key or a button asks for. Says whether there is such a thing now.
    do(action) {
        const always = { open: () => this.pick(false), theme: () => this.theme(), help: () => this.help() };
        const chosen = always[action] || (this.traces.length && this.actionsOfRun()[action]);
        if (!chosen) return false;
        chosen();
        return true;
    }

    actionsOfRun() {
        const isAny = () => true;
        const isException = (way) => way === WAY.EXCEPTION;
        return {
            beside: () => this.pick(true),
            stepBack: () => this.select(this.cell - 1),
            stepOn: () => this.select(this.cell + 1),
            pageBack: () => this.select(this.cell - this.lines.capacity),
            pageOn: () => this.select(this.cell + this.lines.capacity),
            first: () => this.select(0),
            last: () => this.select(this.axis.count - 1),
            wayOn: () => this.goToWay(false, isAny),
            wayBack: () => this.goToWay(true, isAny),
            exceptionOn: () => this.goToWay(false, isException),
            exceptionBack: () => this.goToWay(true, isException),
            differenceOn: () => this.goToDifference(false),
            differenceBack: () => this.goToDifference(true),
            find: () => byId('words').select(),
            findOn: () => this.findNext(false),
            findBack: () => this.findNext(true),
            zoomIn: () => this.zoom(1.5),
            zoomOut: () => this.zoom(1 / 1.5),
            panBack: () => this.pan(-0.25),
            panOn: () => this.pan(0.25),
            showAll: () => { this.chart.showAll(); this.redraw(); },
            fold: () => this.fold(),
        };
    }
}

// What is on paper is light, whatever the screen is.
function listenToPrint(page) {
    const root = document.documentElement;
    let before;
    const drawNow = () => {
        if (!page.traces.length) return;
        page.layOut();
        page.chart.draw();
        page.overview.draw();
    };
    window.addEventListener('beforeprint', () => {
        before = root.dataset.theme;
        root.dataset.theme = 'light';
        drawNow();
    });
    window.addEventListener('afterprint', () => {
        root.dataset.theme = before;
        drawNow();
    });
}

// Light or dark as the system has it, until a key or the button says otherwise.
function listenToScheme(page) {
    const dark = window.matchMedia('(prefers-color-scheme: dark)');
    const follow = () => {
        document.documentElement.dataset.theme = dark.matches ? 'dark' : 'light';
        page.layOutAll();
    };
    dark.addEventListener('change', follow);
    follow();
}

async function start() {
    const page = new Page();
    window.page = page;
    listenToFiles(page);
    listenToKeys(page);
    listenToChart(page);
    listenToPrint(page);
    listenToScheme(page);
    window.addEventListener('resize', () => page.resize());
    window.addEventListener('hashchange', () => page.traces.length && page.select(page.firstCell()));
    try {
        const files = await embeddedFiles();
        if (files.length) await page.take(files, false);
    } catch (error) {
        page.say(`What this page has embedded can't be read: ${error.message}`);
    }
    await new Promise((resolve) => { requestAnimationFrame(() => setTimeout(resolve)); });
    performance.mark('ready');
    page.isReady = true;
}

start();
