// SPDX-License-Identifier: Apache-2.0
"use strict";

/**
 * A row of a view: addresses from lo to hi, and the names to which the first comes.
 * @typedef {{lo: bigint, hi: bigint, names: {node: string, at: bigint}[]}} Row
 * A view of an agent: how many rows it has, and the first of them.
 * @typedef {{agent: string, access: string, count: number, rows: Row[]}} View
 * A map entry of a node.
 * @typedef {{lo: bigint, hi: bigint, to: {node: string, at: bigint}[]}} Entry
 * A node of the printed net. A unit has its kind, page, slots, reach and ports.
 * @typedef {{name: string, role: string, accepts: {lo: bigint, hi: bigint}[], entries: Entry[], over: string,
 *     kind: string, page: number, slots: number, reach: number, ports: string[]}} NetNode
 * A reply to a command: its first line, and the place of the whole in the output.
 * @typedef {{command: Statement, line: string, start: number, end: number}} Reply
 */

/** The first line of a reply that has more lines. */
const COUNTED = /^(?:view \S+(?: for \w+)? rows|dump bytes|radix \S+ pages|split nodes|absorb nodes) (\d+)$/;

/** A node of a printed net that is no unit: its role, name, accept blocks, map entries and over. */
const PRINTED = new RegExp(
    "^(?:(agent|vectors) )?(\\S+) is(?: accept \\[(.*?)\\](?= map|;| over))?"
        + "(?: map \\[(.*?)\\](?=;| over))?(?: over (\\S+))?;$",
);

/** How many bytes of an image a line has, and how many lines a page of a tree has. */
const LINE_BYTES = 32;
const PAGE_LINES = 128;

/** How many rows of one view the page keeps. */
const MOST_ROWS = 400;

/**
 * The place after so many lines from a place on.
 * @param {string} output
 * @param {number} at
 * @param {number} lines
 */
function afterLines(output, at, lines) {
    for (let line = 0; line < lines && at < output.length; line++) {
        const end = output.indexOf("\n", at);
        if (end < 0) return output.length;
        at = end + 1;
    }
    return at;
}

/**
 * How many lines follow the first line of a reply.
 * @param {string} word the command's word
 * @param {string} line the first line
 */
function linesAfter(word, line) {
    const counted = COUNTED.exec(line);
    if (!counted || [...CHANGES, "resolve", "lookup"].includes(word)) return 0;
    const count = Number(counted[1]);
    if (word === "dump") return Math.ceil(count / LINE_BYTES);
    return word === "radix" ? count * PAGE_LINES : count;
}

/**
 * The replies of an output to commands, in order; fewer where the output ends before.
 * @param {Statement[]} commands
 * @param {string} output
 * @returns {Reply[]}
 */
function repliesIn(commands, output) {
    const found = [];
    let at = 0;
    for (const command of commands) {
        const end = output.indexOf("\n", at);
        if (end < 0) break;
        const line = output.slice(at, end);
        const after = afterLines(output, end + 1, linesAfter(command.words[0], line));
        found.push({ command, line, start: at, end: after });
        at = after;
    }
    return found;
}

/**
 * The rule by which a reply refuses its command, or an empty text.
 * @param {string} line its first line
 */
function ruleIn(line) {
    const found = /^\S+(?: \S+)* refused: (\w+)/.exec(line);
    return found ? found[1] : "";
}

/**
 * A name and an address, as dram@0x1000.
 * @param {string} text
 */
function placeOf(text) {
    const at = text.lastIndexOf("@");
    return { node: text.slice(0, at), at: BigInt(text.slice(at + 1)) };
}

/**
 * The view that a reply is, or null where it is refused.
 * @param {string} text the whole reply
 * @returns {View | null}
 */
function viewOf(text) {
    const lines = text.split("\n", MOST_ROWS + 1);
    const heading = /^view (\S+)(?: for (\w+))? rows (\d+)$/.exec(lines[0]);
    if (!heading) return null;
    const rows = lines.slice(1).filter(Boolean).map((line) => {
        const space = line.indexOf(" ");
        const [lo, hi] = line.slice(0, space).split("-").map(BigInt);
        return { lo, hi, names: line.slice(space + 1).split(", ").map(placeOf) };
    });
    return { agent: heading[1], access: heading[2] || "read", count: Number(heading[3]), rows };
}

/**
 * A block of addresses, as 0x0-0xfff.
 * @param {string} text
 */
function blockOf(text) {
    const [lo, hi] = text.split("-").map(BigInt);
    return { lo, hi };
}

/**
 * A node of the printed net.
 * @param {string} line the statement, as check prints it
 * @returns {NetNode}
 */
function nodeOf(line) {
    const unit = /^unit (\S+) kind (\w+) page (\d+) slots (\d+) reach (\d+) to (.*);$/.exec(line);
    const plain = { accepts: [], entries: [], over: "", kind: "", page: 0, slots: 0, reach: 0, ports: [] };
    if (unit) {
        const [page, slots, reach] = unit.slice(3, 6).map(Number);
        return { ...plain, name: unit[1], role: "unit", kind: unit[2], page, slots, reach, ports: unit[6].split(", ") };
    }
    const found = PRINTED.exec(line);
    if (!found) throw new Error(`no node is read in: ${line.slice(0, 100)}`);
    const entries = (found[4] ? found[4].split(/, (?=0x)/) : []).map((entry) => {
        const [block, names] = entry.split(" to ");
        const to = names.split(" and ").map((name) => {
            const [node, at] = name.split(" at ");
            return { node, at: BigInt(at) };
        });
        return { ...blockOf(block), to };
    });
    return {
        ...plain,
        name: found[2],
        role: found[1] || "",
        accepts: found[3] ? found[3].split(", ").map(blockOf) : [],
        entries,
        over: found[5] || "",
    };
}

/**
 * The nodes of a net that check printed, in order.
 * @param {string} output
 */
function nodesIn(output) {
    return output.split("\n").filter(Boolean).map(nodeOf);
}

/**
 * The kind of a node, for its colour.
 * @param {NetNode} node
 */
function kindOf(node) {
    if (node.role) return node.role;
    const maps = node.entries.length > 0 || node.over !== "";
    if (!node.accepts.length) return maps ? "bus" : "none";
    if (maps) return "both";
    const size = node.accepts.reduce((sum, block) => sum + block.hi - block.lo + 1n, 0n);
    return size >= 1n << 20n ? "memory" : "registers";
}

/**
 * A record of an image: its slot, its words, what the first says, and whether it is one that a lookup uses.
 * @typedef {{slot: number, words: bigint[], open: boolean, reads: boolean, writes: boolean, port: string,
 *     output: bigint}} TableRecord
 * The table of a unit: its node, how many slots it has, and the records of those whose words are not all 0.
 * @typedef {{node: NetNode, from: number, records: TableRecord[], used: number}} Table
 */

/** How many records of one table the page keeps. */
const MOST_RECORDS = 256;

/**
 * What the words of a record say.
 * @param {NetNode} unit
 * @param {number} slot
 * @param {bigint[]} words
 * @returns {TableRecord}
 */
function recordOf(unit, slot, words) {
    const gate = words[words.length - 1];
    const port = unit.ports[Number((gate >> 1n) & 7n)] || "";
    const outputs = { vectors: () => words[0], radix: () => ((words[0] >> 12n) & ((1n << 44n) - 1n)) << 12n };
    const output = outputs[/** @type {"vectors" | "radix"} */ (unit.kind)];
    return {
        slot,
        words,
        open: (gate & 1n) === 1n,
        reads: (gate & 16n) === 0n,
        writes: (gate & 32n) === 0n,
        port,
        output: output ? output() : (words[0] >> 8n) << BigInt(unit.page),
    };
}

/**
 * The tables of an image, as the reply to dump prints it.
 * @param {string} text the whole reply
 * @param {NetNode[]} nodes the nodes of its net, in order
 * @returns {Table[]}
 */
function tablesIn(text, nodes) {
    const digits = text.slice(text.indexOf("\n") + 1).replace(/\n/g, "");
    // A number of so many bytes, the lowest first.
    /** @type {(at: number, size: number) => bigint} */
    const number = (at, size) => {
        let value = 0n;
        for (let byte = size - 1; byte >= 0; byte--) {
            value = (value << 8n) | BigInt(parseInt(digits.substr(2 * (at + byte), 2), 16));
        }
        return value;
    };
    const tables = [];
    let at = 8;
    for (let unit = Number(number(6, 2)); unit > 0; unit--) {
        const node = nodes[Number(number(at, 2))];
        const each = Number(number(at + 2, 1));
        const slots = Number(number(at + 4, 4));
        const from = at + 8;
        const records = [];
        let used = 0;
        for (let slot = 0; slot < slots; slot++) {
            const begins = 2 * (from + 8 * each * slot);
            if (!/[1-9a-f]/.test(digits.substr(begins, 16 * each))) continue;
            used += 1;
            if (records.length === MOST_RECORDS) continue;
            const words = Array.from({ length: each }, (_, word) => number(from + 8 * (each * slot + word), 8));
            records.push(recordOf(node, slot, words));
        }
        tables.push({ node, from, records, used });
        at = from + 8 * each * slots;
    }
    return tables;
}
