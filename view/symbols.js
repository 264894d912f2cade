// Names of functions by address. They are read from text as `nm -S` writes it, `ADDRESS [SIZE] TYPE NAME`; a function
// without a size ends where the next one begins.
'use strict';

const SYMBOL_LINE = /^([0-9a-fA-F]{8})(?: ([0-9a-fA-F]{8}))? ([A-Za-z]) (\S+)$/;

class Symbols {
    constructor() {
        this.list = [];
        this.starts = [];
    }

    // Takes the functions of a text, and says how many it has.
    add(text) {
        const found = [];
        for (const line of text.split(/\r?\n/)) {
            const parts = SYMBOL_LINE.exec(line.trim());
            if (!parts || !'tTwW'.includes(parts[3])) continue;
            const start = (parseInt(parts[1], 16) & ~1) >>> 0;
            found.push({ start, size: parseInt(parts[2] || '0', 16), name: parts[4] });
        }
        this.list = this.list.concat(found).sort((one, other) => one.start - other.start);
        this.list = this.list.filter((symbol, at) => !at || symbol.start !== this.list[at - 1].start);
        this.starts = this.list.map((symbol) => symbol.start);
        return found.length;
    }

    // The number of the function that has an address, or -1.
    at(address) {
        const place = lastAtMost(this.starts, this.starts.length, address);
        if (place < 0) return -1;
        const { start, size } = this.list[place];
        return !size || address < start + size ? place : -1;
    }

    name(place) {
        return place < 0 ? '' : this.list[place].name;
    }

    // An address as name and offset, or nothing.
    nameOf(address) {
        const place = this.at(address);
        if (place < 0) return '';
        const offset = address - this.list[place].start;
        return offset ? `${this.name(place)}+0x${offset.toString(16)}` : this.name(place);
    }

    has(name) {
        return this.list.some((symbol) => symbol.name === name);
    }
}
