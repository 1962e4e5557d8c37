// SPDX-License-Identifier: Apache-2.0
"use strict";

/**
 * A statement of a description: its text without comments, its words, and the places in the whole text of its first
 * letter and of the one after its semicolon.
 * @typedef {{text: string, words: string[], start: number, end: number}} Statement
 */

/** The commands that change tables. The reply to each is one line. */
const CHANGES = ["grant", "gather", "route", "revoke"];

/**
 * A text in which each letter of a comment is a space.
 * @param {string} text
 */
function withoutComments(text) {
    return text.replace(/\/\/[^\n]*/g, (comment) => " ".repeat(comment.length));
}

/**
 * The statements of a description, in order. What follows the last semicolon is none.
 * @param {string} text
 * @returns {Statement[]}
 */
function statementsOf(text) {
    const plain = withoutComments(text);
    const found = [];
    let from = 0;
    for (let end = plain.indexOf(";"); end >= 0; end = plain.indexOf(";", from)) {
        const whole = plain.slice(from, end);
        const body = whole.trim();
        const start = from + whole.length - whole.trimStart().length;
        found.push({ text: body, words: body.match(/\w+/g) || [], start, end: end + 1 });
        from = end + 1;
    }
    return found;
}

/**
 * A description in two: the text of its declarations, and its commands.
 * @param {string} text
 * @returns {{declared: string, commands: Statement[], begins: boolean}}
 */
function partsOf(text) {
    const statements = statementsOf(text);
    const begin = statements.findIndex((statement) => statement.text === "begin");
    if (begin < 0) return { declared: text, commands: [], begins: false };
    return { declared: text.slice(0, statements[begin].start), commands: statements.slice(begin + 1), begins: true };
}

/**
 * The line of a place in a text, counted from 1.
 * @param {string} text
 * @param {number} at
 */
function lineOf(text, at) {
    let line = 1;
    for (let end = text.indexOf("\n"); end >= 0 && end < at; end = text.indexOf("\n", end + 1)) line += 1;
    return line;
}

/**
 * The line of the statement that declares a node, or 0 where none is found. Of a node in a module it is the line of the
 * use that its name begins with.
 * @param {string} text
 * @param {string} node the full name
 */
function lineDeclaring(text, node) {
    const first = node.split(".")[0];
    const base = first.replace(/\[.*/, "");
    const name = first.includes("[") ? `${base}\\s*\\[[^;]*\\]` : base;
    const declared = node.includes(".")
        ? new RegExp(`^use\\b.*\\bas\\s+${name}$`, "s")
        : new RegExp(`^(?:(?:agent|vectors|unit)\\s+)?${name}\\s+(?:is|kind)\\b`, "s");
    const found = statementsOf(text).find((statement) => declared.test(statement.text));
    return found ? lineOf(text, found.start) : 0;
}

/**
 * A number as a description spells it, or with one of K, M, G and T behind it; null where it is none.
 * @param {string} text
 * @returns {bigint | null}
 */
function numberOf(text) {
    const found = /^\s*(0x[0-9a-fA-F]+|[0-9]+)\s*([KMGT]?)\s*$/.exec(text);
    if (!found) return null;
    return BigInt(found[1]) << BigInt(10 * (found[2] ? "KMGT".indexOf(found[2]) + 1 : 0));
}

/**
 * An address or a size in hexadecimal.
 * @param {bigint} number
 */
function hexadecimal(number) {
    return `0x${number.toString(16)}`;
}

/**
 * A size in the largest unit of which there is at least one, with `~` where it is rounded, such as 4 KiB.
 * @param {bigint} size
 */
function sizeText(size) {
    const units = ["bytes", "KiB", "MiB", "GiB", "TiB", "PiB"];
    const power = Math.min(Math.floor((size.toString(2).length - 1) / 10), units.length - 1);
    if (power === 0) return size === 1n ? "1 byte" : `${size} bytes`;
    const number = (Number(size) / 2 ** (10 * power)).toFixed(1).replace(".0", "");
    const rounded = Number(number) * 2 ** (10 * power) !== Number(size);
    return `${rounded ? "~" : ""}${number} ${units[power]}`;
}
