// The chart from near: bars of code with their names, what waits below a handler, folded steps, and arrows.
'use strict';

const ARROW_ROOM = 5;
const WAY_DASHES = [[], [], [], [], [4, 3], [4, 3], [1, 3], [2, 2], [2, 2]];

// The cells from `cell` on, below `to`, that are drawn as one bar: the same code of the same function.
function endOfBar(chart, track, cell, to) {
    const { trace, rows } = track;
    const row = rows[cell];
    if (row === NO_ROW) return cell + 1;
    const place = functionOf(chart, trace, row);
    let end = cell + 1;
    while (end < to && rows[end] !== NO_ROW && isSameBar(chart, trace, row, rows[end], place)) end++;
    return end;
}

function isSameBar(chart, trace, row, other, place) {
    return trace.kinds[other] === trace.kinds[row] && trace.kinds[row] !== KIND.TAKEN
        && trace.bands[other] === trace.bands[row] && trace.innermost[other] === trace.innermost[row]
        && functionOf(chart, trace, other) === place;
}

function functionOf(chart, trace, row) {
    return trace.kinds[row] === KIND.RAN ? trace.symbols.at(trace.pcs[row]) : -1;
}

function drawNear(chart, panel, from, to) {
    const { track } = panel;
    for (let cell = from; cell < to;) {
        const end = endOfBar(chart, track, cell, to);
        if (track.rows[cell] !== NO_ROW) drawBar(chart, panel, cell, end);
        cell = end;
    }
    drawWaiting(chart, panel, from, to);
    drawArrows(chart, panel, from, to);
}

function drawBar(chart, panel, cell, end) {
    const { context, colours } = chart;
    const { trace, rows } = panel.track;
    const row = rows[cell];
    const x = chart.xOf(cell);
    const width = (end - cell) * chart.scale;
    const y = panel.yOfBand[trace.bands[row]];
    const isSecure = trace.sideOf(row) === SECURE;
    context.fillStyle = isSecure ? colours.secure : colours.nonsecure;
    const isQuiet = trace.kinds[row] !== KIND.RAN && trace.kinds[row] !== KIND.TAKEN;
    context.globalAlpha = isQuiet ? 0.35 : 1;
    context.fillRect(x, y + 1, Math.max(1, width - (width > 4 ? 1 : 0)), ROW_HEIGHT - 2);
    context.globalAlpha = 1;
    if (trace.kinds[row] === KIND.TAKEN) drawEntry(chart, x, y, width);
    if (isQuiet && width > 6) hatch(chart, x, y + 1, width, ROW_HEIGHT - 2);
    if (width >= 26) drawLabel(chart, labelOf(chart, trace, row, end - cell), x, y, width, isQuiet);
    drawCellEdges(chart, cell, end, y);
}

// Fine lines between the cells of a bar, where they are wide enough to be pointed at.
function drawCellEdges(chart, cell, end, y) {
    if (chart.scale < 6) return;
    chart.context.fillStyle = chart.colours.paper;
    chart.context.globalAlpha = 0.5;
    for (let at = cell + 1; at < end; at++) chart.context.fillRect(chart.xOf(at) - 1, y + ROW_HEIGHT - 5, 1, 4);
    chart.context.globalAlpha = 1;
}

// The step of an entry: no instruction runs in it.
function drawEntry(chart, x, y, width) {
    chart.context.fillStyle = chart.colours.ink;
    chart.context.fillRect(x, y + 1, Math.min(3, Math.max(1, width / 2)), ROW_HEIGHT - 2);
}

function hatch(chart, x, y, width, height) {
    const { context } = chart;
    const from = Math.max(x, chart.gutter);
    const to = Math.min(x + width, chart.width);
    context.save();
    context.beginPath();
    context.rect(from, y, to - from, height);
    context.clip();
    context.strokeStyle = chart.colours.ink;
    context.globalAlpha = 0.35;
    context.lineWidth = 1;
    context.beginPath();
    for (let at = from - (from - x) % 7 - height; at < to; at += 7) {
        context.moveTo(at, y + height);
        context.lineTo(at + height, y);
    }
    context.stroke();
    context.restore();
}

const KIND_LABELS = ['', '', 'asleep', 'locked', 'not shown'];

function labelOf(chart, trace, row, cells) {
    const kind = trace.kinds[row];
    if (kind === KIND.TAKEN) return `→ ${exceptionName(trace.takenNumbers[trace.takenAtRow(row)])}`;
    const steps = trace.lastOf(row) - trace.steps[row] + 1;
    const fold = cells === 1 && chart.axis.isFolded && steps > 1 ? ` ×${steps.toLocaleString('en')}` : '';
    if (kind !== KIND.RAN) return KIND_LABELS[kind] + fold;
    const name = trace.symbols.nameOf(trace.pcs[row]).replace(/\+.*/, '');
    const handler = trace.innermost[row] < 0 ? '' : exceptionName(trace.takenNumbers[trace.innermost[row]]);
    if (name && handler) return `${name} · ${handler}${fold}`;
    if (name || handler) return (name || handler) + fold;
    return (cells === 1 ? trace.instruction(row).text : hex(trace.pcs[row])) + fold;
}

function drawLabel(chart, label, x, y, width, isQuiet) {
    const { context } = chart;
    const from = Math.max(x, chart.gutter) + 4;
    const room = Math.min(x + width, chart.width) - from - 3;
    context.font = TEXT_FONT;
    context.textBaseline = 'middle';
    context.textAlign = 'left';
    context.fillStyle = isQuiet ? chart.colours.ink : chart.colours['on-bar'];
    const text = clip(context, label, room);
    if (text) context.fillText(text, from, y + ROW_HEIGHT / 2 + 1);
}

// Below a handler, all that it interrupted waits: a thin bar where each stood when it was interrupted.
function drawWaiting(chart, panel, from, to) {
    const { trace, rows } = panel.track;
    for (let cell = from; cell < to;) {
        const taken = rows[cell] === NO_ROW ? -1 : trace.innermost[rows[cell]];
        let end = cell + 1;
        while (end < to && rows[end] !== NO_ROW && trace.innermost[rows[end]] === taken) end++;
        for (let outer = taken; outer >= 0; outer = trace.takenOuter[outer]) drawWait(chart, panel, outer, cell, end);
        cell = end;
    }
}

function drawWait(chart, panel, taken, cell, end) {
    const { trace } = panel.track;
    const y = panel.yOfBand[waitingBand(trace, taken)];
    if (y < 0) return;
    chart.context.fillStyle = waitingBand(trace, taken) >= LEVELS ? chart.colours.nonsecure : chart.colours.secure;
    chart.context.globalAlpha = 0.35;
    chart.context.fillRect(chart.xOf(cell), y + ROW_HEIGHT / 2 - 2, (end - cell) * chart.scale, 4);
    chart.context.globalAlpha = 1;
}

// Where the code stood that an exception interrupted: of a tail-chain, what its first entry interrupted, on the side
// that EXC_RETURN names.
function waitingBand(trace, taken) {
    const side = exceptionReturn(trace.takenLinks[taken]).secureFrame ? SECURE : NONSECURE;
    let level = 0;
    for (let outer = trace.takenOuter[taken]; outer >= 0; outer = trace.takenOuter[outer]) level++;
    return bandOf(side, level);
}

// Arrows from the row that code leaves to the one that it goes to, with the kind beside them where there is room.
function drawArrows(chart, panel, from, to) {
    const { track } = panel;
    const { turns } = track;
    const first = lastAtMost(turns, turns.length, from - 1) + 1;
    let lastX = -Infinity;
    let free = -Infinity;
    for (let at = first; at < turns.length && turns[at] < to; at++) {
        const x = chart.xOf(turns[at] + 1);
        if (x - lastX < ARROW_ROOM) continue;
        lastX = x;
        const next = at + 1 < turns.length ? chart.xOf(turns[at + 1] + 1) : Infinity;
        free = drawArrow(chart, panel, turns[at], x, Math.min(next - 4, chart.width), free);
    }
}

function drawArrow(chart, panel, cell, x, room, free) {
    const { context, colours } = chart;
    const { trace, rows } = panel.track;
    const row = rows[cell];
    const next = cell + 1 < rows.length ? rows[cell + 1] : NO_ROW;
    if (next === NO_ROW) return free;
    const start = panel.yOfBand[trace.bands[row]] + ROW_HEIGHT / 2;
    const end = panel.yOfBand[trace.bands[next]] + ROW_HEIGHT / 2;
    if (start === end) return free;
    const way = trace.ways[row];
    context.strokeStyle = colours.ink;
    context.fillStyle = colours.ink;
    context.lineWidth = 1.5;
    context.setLineDash(WAY_DASHES[way]);
    context.beginPath();
    context.moveTo(x, start);
    context.lineTo(x, end);
    context.stroke();
    context.setLineDash([]);
    drawHead(context, x, end, Math.sign(end - start));
    return drawKind(chart, panel, way, x, room, free);
}

function drawHead(context, x, y, direction) {
    context.beginPath();
    context.moveTo(x, y);
    context.lineTo(x - 4, y - 7 * direction);
    context.lineTo(x + 4, y - 7 * direction);
    context.fill();
}

// The kind of a way, in the line between the sides. Gives where the next text may begin.
function drawKind(chart, panel, way, x, room, free) {
    const { context } = chart;
    context.font = TEXT_FONT;
    const text = WAY_LABELS[way];
    const width = context.measureText(text).width;
    const from = x + 5;
    if (from < free || from + width > room) return free;
    context.fillStyle = chart.colours.ink;
    context.textBaseline = 'middle';
    context.textAlign = 'left';
    context.fillText(text, from, lineBetween(panel) + CROSSING_HEIGHT / 2);
    return from + width + 4;
}
