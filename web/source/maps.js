// SPDX-License-Identifier: Apache-2.0
"use strict";

/** The last address of a node. */
const TOP_ADDRESS = (1n << 56n) - 1n;

/** Measures of a map, in pixels: its box, its break, its least row, a line of text, and the room for sizes. */
const BOX = 156;
const BREAK = 22;
const LEAST_ROW = 18;
const LINE = 14;
const BEHIND = 72;

/** How many names of a row are written out. */
const MOST_NAMES = 4;

/**
 * The logarithm of a number to the base 2.
 * @param {bigint} number
 */
function logarithm(number) {
    return number < 1n ? 0 : Math.log2(Number(number));
}

/**
 * The agents of one map: those that see the same.
 * @typedef {{agents: string[], view: View}} Alike
 */

/**
 * The views for an access, those that are the same as one.
 * @param {View[]} views
 * @param {string} access
 * @returns {Alike[]}
 */
function alikeOf(views, access) {
    /** @type {Map<string, Alike>} */
    const found = new Map();
    for (const view of views.filter((one) => one.access === access)) {
        const key = view.rows.map(rowText).join("\n") + view.count;
        const alike = found.get(key);
        if (alike) alike.agents.push(view.agent);
        else found.set(key, { agents: [view.agent], view });
    }
    return [...found.values()];
}

/**
 * A row as the program prints it.
 * @param {Row} row
 */
function rowText(row) {
    const names = row.names.map((name) => `${name.node}@${hexadecimal(name.at)}`).join(", ");
    return `${hexadecimal(row.lo)}-${hexadecimal(row.hi)} ${names}`;
}

/**
 * The agents of other maps that have some of a row's addresses.
 * @param {Row} row
 * @param {Alike} own
 * @param {Alike[]} all
 */
function sharersOf(row, own, all) {
    const meets = (/** @type {Row} */ other) => row.names.some((name) => other.names.some((another) =>
        another.node === name.node && another.at <= name.at + row.hi - row.lo
        && name.at <= another.at + other.hi - other.lo));
    return all.filter((alike) => alike !== own && alike.view.rows.some(meets)).flatMap((alike) => alike.agents);
}

/**
 * The box of a row, with its addresses before it and its size behind it.
 * @param {Row} row
 * @param {string[]} sharers
 * @param {Map<string, NetNode>} nodes
 * @param {number} left
 * @param {number} top
 * @param {number} height
 */
function rowPicture(row, sharers, nodes, left, top, height) {
    const group = drawn("g", { class: "row" });
    const size = sizeText(row.hi - row.lo + 1n);
    const shared = sharers.length ? `; also seen by ${shortened(sharers.join(", "), 200)}` : "";
    group.append(drawn("title", {}, `${shortened(rowText(row), 400)} (${size})${shared}`));
    const stripe = BOX / row.names.length;
    row.names.forEach((name, number) => {
        const node = nodes.get(name.node);
        const sort = `kind-${node ? kindOf(node) : "none"}`;
        group.append(drawn("rect", { x: left + number * stripe, y: top, width: stripe, height, class: sort }));
    });
    const box = { x: left, y: top, width: BOX, height };
    if (sharers.length) group.append(drawn("rect", { ...box, fill: "url(#hatch)", class: "shared" }));
    group.append(drawn("rect", { ...box, class: "frame" }));
    const names = row.names.slice(0, MOST_NAMES).map((name) => `${name.node}@${hexadecimal(name.at)}`);
    if (row.names.length > MOST_NAMES) names.push(`and ${row.names.length - MOST_NAMES} more`);
    const base = top + height / 2 - (LINE * names.length) / 2 + 11;
    names.forEach((name, number) => {
        const words = shortened(name, Math.floor(BOX / LETTER) - 1);
        group.append(drawn("text", { x: left + BOX / 2, y: base + LINE * number, class: "name" }, words));
    });
    const middle = top + height / 2 + 4;
    const addresses = `${hexadecimal(row.lo)}-${hexadecimal(row.hi)}`;
    group.append(drawn("text", { x: left - 6, y: middle, class: "address" }, addresses));
    group.append(drawn("text", { x: left + BOX + 6, y: middle, class: "size" }, size));
    return group;
}

/**
 * A break, where addresses come to nothing.
 * @param {number} left
 * @param {number} top
 */
function breakPicture(left, top) {
    const teeth = (/** @type {number} */ y) => Array.from({ length: 31 }, (_, tooth) =>
        `${left + (tooth * BOX) / 30},${y + (tooth % 2 ? 2.5 : -2.5)}`).join(" ");
    const group = drawn("g", { class: "break" });
    group.append(drawn("title", {}, "These addresses come to nothing."));
    group.append(drawn("polyline", { points: teeth(top + 4), class: "teeth" }));
    group.append(drawn("polyline", { points: teeth(top + BREAK - 4), class: "teeth" }));
    return group;
}

/**
 * The memory map of agents that see the same.
 * @param {Alike} alike
 * @param {Alike[]} all the maps of the page, for what is shared
 * @param {Map<string, NetNode>} nodes
 */
function mapPicture(alike, all, nodes) {
    const { rows, count, access } = alike.view;
    const longest = Math.max(6, ...rows.map((row) => `${hexadecimal(row.lo)}-${hexadecimal(row.hi)}`.length));
    const left = longest * LETTER + 10;
    const figure = made("figure", undefined, "map");
    const caption = made("figcaption");
    caption.append(made("strong", shortened(alike.agents.join(", "), 120)));
    const words = count === 0 ? "sees nothing" : count === 1 ? "1 row" : `${count} rows`;
    caption.append(made("span", `${words}${access === "write" ? " for writing" : ""}`, "note"));
    figure.append(caption);
    const picture = drawn("svg", { role: "img", "aria-label": `What ${alike.agents.join(", ")} sees` });
    let top = 6;
    let free = 0n;
    for (const row of rows) {
        if (row.lo > free) {
            picture.append(breakPicture(left, top));
            top += BREAK;
        }
        const lines = Math.min(row.names.length, MOST_NAMES + 1) * LINE + 4;
        const grown = 16 + 2.4 * Math.max(0, logarithm(row.hi - row.lo + 1n) - 5);
        const height = Math.max(LEAST_ROW, lines, grown);
        picture.append(rowPicture(row, sharersOf(row, alike, all), nodes, left, top, height));
        top += height;
        free = row.hi + 1n;
    }
    if (free <= TOP_ADDRESS) {
        picture.append(breakPicture(left, top));
        top += BREAK;
    }
    const width = left + BOX + BEHIND;
    picture.setAttribute("width", String(width));
    picture.setAttribute("height", String(top + 6));
    picture.setAttribute("viewBox", `0 0 ${width} ${top + 6}`);
    figure.append(picture);
    figure.style.width = `${width}px`;
    if (rows.length < count) figure.append(made("p", `The first ${rows.length} rows are drawn.`, "note"));
    return figure;
}

/**
 * What all agents see for an access, side by side.
 * @param {Picture} picture
 * @param {string} access
 */
function mapsOf(picture, access) {
    const nodes = new Map(picture.nodes.map((node) => [node.name, node]));
    const all = alikeOf(picture.views, access);
    const whole = made("div");
    const kinds = new Set(all.flatMap((alike) => alike.view.rows.flatMap((row) => row.names.map((name) => {
        const node = nodes.get(name.node);
        return node ? kindOf(node) : "none";
    }))));
    whole.append(legendOf(kinds, ["hatched: another map has some of it", "between teeth: nothing is there"]));
    const maps = made("div", undefined, "maps");
    for (const alike of all) maps.append(mapPicture(alike, all, nodes));
    if (!all.length) maps.append(made("p", picture.missing || "The description has no agent.", "note"));
    whole.append(maps);
    return whole;
}
