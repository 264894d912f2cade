// Elements of the page, made of plain values. All text goes in as text, never as markup.
'use strict';

function element(name, attributes, ...children) {
    const made = document.createElement(name);
    for (const [key, value] of Object.entries(attributes || {})) {
        if (key === 'onclick') made.addEventListener('click', value);
        else if (value !== undefined && value !== false) made.setAttribute(key, value === true ? '' : value);
    }
    made.append(...children.filter((child) => child !== null && child !== undefined && child !== ''));
    return made;
}

// A table of rows of cells. A cell is text, or an element.
function table(caption, heads, rows, rowClass) {
    const head = element('tr', {}, ...heads.map((text) => element('th', { scope: 'col' }, text)));
    const body = rows.map((cells, at) => element('tr', { class: rowClass ? rowClass(at) : undefined },
        ...cells.map((cell) => element('td', {}, cell))));
    return element('table', {},
        element('caption', {}, caption), element('thead', {}, head), element('tbody', {}, ...body));
}

function byId(id) {
    return document.getElementById(id);
}
