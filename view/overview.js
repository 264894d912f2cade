// The strip below the chart: the whole run, small, with the part that the chart shows. It is drawn once for a size,
// and then copied.
'use strict';

const STRIP_HEIGHT = 7;

class Overview {
    constructor(canvas, page) {
        this.canvas = canvas;
        this.page = page;
        this.context = canvas.getContext('2d');
        this.strip = document.createElement('canvas');
        dragAlong(canvas, (x) => this.moveTo(x));
    }

    layOut() {
        const { chart, axis } = this.page;
        this.width = this.canvas.clientWidth;
        this.height = axis.tracks.length * (2 * STRIP_HEIGHT + 3) + 5;
        this.canvas.style.height = `${this.height}px`;
        fitCanvas(this.canvas, this.width, this.height);
        fitCanvas(this.strip, this.width, this.height);
        const context = this.strip.getContext('2d');
        context.clearRect(0, 0, this.width, this.height);
        axis.tracks.forEach((track, at) => this.drawStrip(context, track, at * (2 * STRIP_HEIGHT + 3) + 2, chart));
    }

    get perCell() {
        return this.page.chart.span / Math.max(1, this.page.axis.count);
    }

    drawStrip(context, track, y, chart) {
        const counts = new Uint32Array(256);
        const { count } = this.page.axis;
        for (let x = 0; x < chart.span; x++) {
            const from = Math.floor(x / this.perCell);
            const to = Math.min(count, Math.max(from + 1, Math.floor((x + 1) / this.perCell)));
            if (from >= count) return;
            track.countInto(counts, from, to);
            for (const band of track.used) {
                if (!counts[band]) continue;
                const isNonsecure = band >= LEVELS;
                context.fillStyle = isNonsecure ? chart.colours.nonsecure : chart.colours.secure;
                context.globalAlpha = 0.25 + 0.5 * counts[band] / (to - from) + (band % LEVELS ? 0.25 : 0);
                context.fillRect(chart.gutter + x, y + (isNonsecure ? STRIP_HEIGHT : 0), 1, STRIP_HEIGHT - 1);
            }
        }
        context.globalAlpha = 1;
    }

    draw() {
        const { context } = this;
        const { chart, cell, comparison } = this.page;
        context.clearRect(0, 0, this.width, this.height);
        context.drawImage(this.strip, 0, 0, this.width, this.height);
        context.strokeStyle = chart.colours.ink;
        context.lineWidth = 1.5;
        const width = Math.min(chart.span - 1, Math.max(4, chart.span / chart.scale * this.perCell));
        context.strokeRect(chart.gutter + chart.left * this.perCell, 1, width, this.height - 2);
        this.drawMark(comparison.first, chart.colours.differ);
        this.drawMark(cell, chart.colours.mark);
    }

    drawMark(cell, colour) {
        if (cell < 0) return;
        this.context.fillStyle = colour;
        this.context.fillRect(this.page.chart.gutter + cell * this.perCell - 1, 0, 3, this.height);
    }

    // Puts the middle of the chart where the pointer is.
    moveTo(x) {
        const { chart } = this.page;
        chart.left = (x - chart.gutter) / this.perCell - chart.span / chart.scale / 2;
        chart.clamp();
        this.page.redraw();
    }
}

// Tells `move` where a pointer is that is pressed on an element.
function dragAlong(target, move) {
    target.addEventListener('pointerdown', (event) => {
        target.setPointerCapture(event.pointerId);
        move(event.offsetX);
    });
    target.addEventListener('pointermove', (event) => {
        if (target.hasPointerCapture(event.pointerId)) move(event.offsetX);
    });
}
