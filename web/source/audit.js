// SPDX-License-Identifier: Apache-2.0
"use strict";

/** How many shared spans, and how many letters of a report, are shown. */
const MOST_SHARED = 200;
const MOST_REPORT = 100000;

/**
 * The bytes of an image in hexadecimal, as dump prints it or without its first line; null where it is none.
 * @param {string} text
 * @returns {Uint8Array | null}
 */
function imageIn(text) {
    const digits = text.replace(/^\s*dump bytes \d+/, "").replace(/\s+/g, "");
    if (!digits || digits.length % 2 || !/^[0-9a-fA-F]*$/.test(digits)) return null;
    return Uint8Array.from(digits.match(/../g) || [], (pair) => parseInt(pair, 16));
}

/**
 * The views in the report of an audit.
 * @param {string} report
 * @returns {View[]}
 */
function viewsIn(report) {
    const found = [];
    const heading = /^view \S+ for \w+ rows (\d+)$/gm;
    for (let hit = heading.exec(report); hit; hit = heading.exec(report)) {
        const rows = Math.min(Number(hit[1]), MOST_ROWS);
        const view = viewOf(report.slice(hit.index, afterLines(report, hit.index, 1 + rows)));
        if (view) found.push(view);
    }
    return found;
}

/**
 * The heading of the table of what agents share.
 * @param {number} count how many spans they share
 */
function shownOf(count) {
    return `Seen by several agents${count > MOST_SHARED ? `: the first ${MOST_SHARED} of ${count}` : ""}`;
}

/**
 * What agents share under an image, as a table: each span of a node with the agents that see it.
 * @param {string} report
 */
function sharedTable(report) {
    const rows = [...report.matchAll(/^shared (\S+) (\S+) (.*)$/gm)];
    const table = made("table");
    table.append(made("caption", rows.length ? shownOf(rows.length) : "No two agents see the same."));
    for (const [, node, addresses, agents] of rows.slice(0, MOST_SHARED)) {
        const line = made("tr");
        for (const cell of [`${node} ${addresses}`, agents.split(" ").join(", ")]) line.append(made("td", cell));
        table.append(line);
    }
    return table;
}

/**
 * The report of an audit: what agents share, what each sees, and the program's own words.
 * @param {{status: number, output: string}} audit
 * @param {NetNode[]} nodes
 */
function auditPicture(audit, nodes) {
    const whole = made("div");
    if (audit.status !== 0) {
        whole.append(made("p", audit.output.trim() || `The program ends with status ${audit.status}.`, "wrong"));
        return whole;
    }
    whole.append(sharedTable(audit.output));
    whole.append(mapsOf({ nodes, views: viewsIn(audit.output), tables: [], dump: "", missing: "" },
        field("access").value));
    const words = made("details");
    words.append(made("summary", "The report of netconf audit"), made("pre", audit.output.slice(0, MOST_REPORT)));
    whole.append(words);
    return whole;
}
