// SPDX-License-Identifier: Apache-2.0
"use strict";

/**
 * What the page is told of a text: the answer of the program, with its first replies and the last, how many replies
 * there are and how many refuse; then the net, the views and the tables, where the text was not refused.
 * @typedef {{status: number, output: string, replies: Reply[], last: Reply | undefined, count: number,
 *     refused: number}} Answer
 * @typedef {{nodes: NetNode[], views: View[], tables: Table[], dump: string, missing: string}} Picture
 * @typedef {{number: number, answer?: Answer, picture?: Picture, audit?: {status: number, output: string},
 *     trouble?: string}} Told
 */

/** How many replies the page keeps. */
const MOST_REPLIES = 500;

/** How many letters a dump has at most that the page keeps. */
const MOST_DUMP = 1 << 16;

/** @type {WebAssembly.Module | null} */
let program = null;

/**
 * The program's answer to a text.
 * @param {WebAssembly.Module} module
 * @param {string} text
 * @returns {Answer}
 */
function answerTo(module, text) {
    const { status, output } = runProgram(module, "run", bytesOf(text));
    const replies = status === 4 ? [] : repliesIn(partsOf(text).commands, output);
    const refused = replies.filter((reply) => ruleIn(reply.line) !== "").length;
    const [count, last] = [replies.length, replies[replies.length - 1]];
    return { status, output, replies: replies.slice(0, MOST_REPLIES), last, count, refused };
}

/**
 * The bytes of a text.
 * @param {string} text
 */
function bytesOf(text) {
    return new TextEncoder().encode(text);
}

/**
 * The text that asks what each agent sees after the changes of a description, and for its tables.
 * @param {string} text
 * @param {NetNode[]} nodes
 */
function questions(text, nodes) {
    const { declared, commands } = partsOf(text);
    const asked = commands.filter((command) => CHANGES.includes(command.words[0])).map((command) => `${command.text};`);
    for (const node of nodes.filter(({ role }) => role === "agent")) {
        asked.push(`view ${node.name};`, `view ${node.name} for write;`);
    }
    asked.push("dump;");
    return `${declared}\nbegin;\n${asked.join("\n")}\n`;
}

/**
 * The net of a description with its views and tables.
 * @param {WebAssembly.Module} module
 * @param {string} text
 * @returns {Picture}
 */
function pictureOf(module, text) {
    const none = { nodes: [], views: [], tables: [], dump: "", missing: "" };
    const checked = runProgram(module, "check", bytesOf(text));
    if (checked.status) return { ...none, missing: `netconf check ends with status ${checked.status}.` };
    const nodes = nodesIn(checked.output);
    const asked = questions(text, nodes);
    const { status, output } = runProgram(module, "run", bytesOf(asked));
    if (status) {
        const why = output.startsWith("refused: Length") ? "the text with the questions for them is longer than 4 MiB"
            : `their questions end with status ${status}`;
        return { ...none, nodes, missing: `The views are missing: ${why}.` };
    }
    const views = [];
    /** @type {Table[]} */
    let tables = [];
    let dump = "";
    for (const reply of repliesIn(partsOf(asked).commands, output)) {
        const whole = output.slice(reply.start, reply.end);
        const view = viewOf(whole);
        if (view) views.push(view);
        if (!reply.line.startsWith("dump bytes")) continue;
        tables = tablesIn(whole, nodes);
        dump = whole.length < MOST_DUMP ? whole : "";
    }
    return { nodes, views, tables, dump, missing: "" };
}

self.onmessage = (event) => {
    const { module, number, text, image } = event.data;
    if (module) {
        program = module;
        return;
    }
    if (program === null) return;
    /** @type {(told: Told) => void} */
    const tell = (told) => self.postMessage(told);
    try {
        if (image) {
            const bytes = bytesOf(text);
            const whole = new Uint8Array(bytes.length + 1 + image.length);
            whole.set(bytes);
            whole.set(image, bytes.length + 1);
            tell({ number, audit: runProgram(program, "audit", whole) });
            return;
        }
        const answer = answerTo(program, text);
        tell({ number, answer });
        if (answer.status === 0) tell({ number, picture: pictureOf(program, text) });
    } catch (error) {
        tell({ number, trouble: String(error) });
    }
};
