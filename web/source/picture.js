// SPDX-License-Identifier: Apache-2.0
"use strict";

/** The width of a letter of a map or a graph, in pixels. */
const LETTER = 6.7;

/** The kinds of nodes, each with its words in the legend. */
const KIND_WORDS = {
    agent: "agent",
    memory: "memory (1 MiB or more)",
    registers: "registers",
    both: "accepts and maps",
    bus: "bus or bridge",
    vectors: "interrupt vectors",
    unit: "unit of translation",
    none: "node without a part",
};

/**
 * An element of SVG.
 * @param {string} tag
 * @param {Record<string, string | number>} attributes
 * @param {string} [text]
 */
function drawn(tag, attributes, text) {
    const element = document.createElementNS("http://www.w3.org/2000/svg", tag);
    for (const [name, value] of Object.entries(attributes)) element.setAttribute(name, String(value));
    if (text !== undefined) element.textContent = text;
    return element;
}

/**
 * An element of HTML.
 * @param {string} tag
 * @param {string} [text]
 * @param {string} [sort] its class
 */
function made(tag, text, sort) {
    const element = document.createElement(tag);
    if (text !== undefined) element.textContent = text;
    if (sort) element.className = sort;
    return element;
}

/**
 * A text that is no longer than so many letters.
 * @param {string} text
 * @param {number} most
 */
function shortened(text, most) {
    return text.length <= most ? text : `${text.slice(0, most - 1)}…`;
}

/**
 * The legend of the kinds that a picture has.
 * @param {Set<string>} kinds
 * @param {string[]} notes what else is to be said
 */
function legendOf(kinds, notes) {
    const legend = made("ul", undefined, "legend");
    for (const [kind, words] of Object.entries(KIND_WORDS)) {
        if (!kinds.has(kind)) continue;
        const line = made("li", words);
        line.prepend(made("span", undefined, `swatch kind-${kind}`));
        legend.append(line);
    }
    for (const note of notes) legend.append(made("li", note, "note"));
    return legend;
}
