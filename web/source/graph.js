// SPDX-License-Identifier: Apache-2.0
"use strict";

/** Measures of the graph in pixels: the height of a box, and the room between boxes. */
const NODE_HEIGHT = 38;
const NODE_GAP = 14;
const LEVEL_GAP = 64;

/** How far below the top of the graph a level begins at most. */
const MOST_BEFORE = 160;

/** How many nodes are drawn. */
const MOST_NODES = 120;

/**
 * An edge of the graph: from one node to another, with its windows as texts.
 * @typedef {{from: string, to: string, sort: string, windows: string[]}} Edge
 */

/**
 * The edges of a net. The windows from one node to another share an edge.
 * @param {NetNode[]} nodes
 * @returns {Edge[]}
 */
function edgesOf(nodes) {
    /** @type {Map<string, Edge>} */
    const found = new Map();
    const add = (/** @type {NetNode} */ node, /** @type {string} */ to, /** @type {string} */ sort,
        /** @type {string} */ window) => {
        const key = `${node.name} ${to} ${sort}`;
        const edge = found.get(key);
        if (edge) edge.windows.push(window);
        else found.set(key, { from: node.name, to, sort, windows: [window] });
    };
    for (const node of nodes) {
        for (const { lo, hi, to } of node.entries) {
            for (const { node: name, at } of to) {
                add(node, name, "map", `${hexadecimal(lo)}-${hexadecimal(hi)} to ${hexadecimal(at)}`);
            }
        }
        if (node.over) add(node, node.over, "over", "all other addresses, as they are");
        for (const port of node.ports) add(node, port, "port", "by the records of its table");
    }
    return [...found.values()];
}

/**
 * The level of each node: one more than those that lead to it, where that ends.
 * @param {NetNode[]} nodes
 * @param {Edge[]} edges
 */
function levelsOf(nodes, edges) {
    /** @type {Map<string, number>} */
    const levels = new Map(nodes.map((node) => [node.name, 0]));
    const level = (/** @type {string} */ name) => levels.get(name) || 0;
    const most = Math.min(nodes.length, 24);
    for (let round = 0; round < most; round++) {
        let changed = false;
        for (const { from, to } of edges) {
            if (from !== to && level(to) < level(from) + 1 && level(from) + 1 < most) {
                levels.set(to, level(from) + 1);
                changed = true;
            }
        }
        if (!changed) break;
    }
    return levels;
}

/**
 * What stands in the box of a node besides its name.
 * @param {NetNode} node
 */
function shapeOf(node) {
    if (node.role === "unit") return `${node.kind}, ${node.slots} × ${sizeText(1n << BigInt(node.page))}`;
    if (node.accepts.length) {
        const size = node.accepts.reduce((sum, block) => sum + block.hi - block.lo + 1n, 0n);
        return node.role === "vectors" ? `${size} vectors` : `accepts ${sizeText(size)}`;
    }
    return node.role === "agent" ? "agent" : node.entries.length ? "maps" : node.over ? "over" : "";
}

/**
 * The nodes of each level in the order in which they are drawn: each near those that lead to it.
 * @param {NetNode[]} nodes
 * @param {Edge[]} edges
 */
function columnsOf(nodes, edges) {
    const levels = levelsOf(nodes, edges);
    /** @type {NetNode[][]} */
    const columns = [];
    for (const node of nodes) {
        const level = levels.get(node.name) || 0;
        while (columns.length <= level) columns.push([]);
        columns[level].push(node);
    }
    const filled = columns.filter((column) => column.length);
    /** @type {Map<string, number>} */
    const places = new Map();
    for (const column of filled) {
        const wanted = new Map(column.map((node, number) => {
            const before = edges.filter((edge) => edge.to === node.name && places.has(edge.from))
                .map((edge) => places.get(edge.from) || 0);
            return [node.name, before.length ? before.reduce((sum, at) => sum + at, 0) / before.length : number];
        }));
        column.sort((one, other) => (wanted.get(one.name) || 0) - (wanted.get(other.name) || 0));
        column.forEach((node, number) => places.set(node.name, number - column.length / 2));
    }
    return filled;
}

/**
 * The net as a graph.
 * @param {Picture} picture
 */
function graphOf(picture) {
    const whole = made("div");
    const nodes = picture.nodes.slice(0, MOST_NODES);
    const edges = edgesOf(nodes);
    whole.append(legendOf(new Set(nodes.map(kindOf)), ["dashed: over", "bold: from a unit to a port"]));
    if (!nodes.length) {
        whole.append(made("p", picture.missing || "The description has no node.", "note"));
        return whole;
    }
    const columns = columnsOf(nodes, edges);
    /** @type {Map<string, {x: number, y: number, width: number}>} */
    const places = new Map();
    const tallest = Math.max(...columns.map((column) => column.length)) * (NODE_HEIGHT + NODE_GAP);
    let x = 10;
    for (const column of columns) {
        const letters = Math.max(...column.map((node) => Math.max(node.name.length, shapeOf(node).length)));
        const width = Math.min(letters, 34) * LETTER + 20;
        const room = column.length * (NODE_HEIGHT + NODE_GAP);
        const before = Math.min((tallest - room) / 2, MOST_BEFORE);
        column.forEach((node, number) => places.set(node.name, {
            x, y: 30 + before + number * (NODE_HEIGHT + NODE_GAP), width,
        }));
        x += width + LEVEL_GAP;
    }
    const width = x - LEVEL_GAP + 50;
    const height = tallest + 60;
    const svg = drawn("svg", {
        width, height, viewBox: `0 0 ${width} ${height}`, role: "img", "aria-label": "The net",
    });
    const marker = drawn("marker", { id: "arrow", viewBox: "0 0 8 8", refX: 7, refY: 4, markerWidth: 9, markerHeight: 9,
        markerUnits: "userSpaceOnUse", orient: "auto-start-reverse" });
    marker.append(drawn("path", { d: "M0,0 L8,4 L0,8 z", class: "arrow" }));
    svg.append(marker);
    for (const edge of edges) if (places.has(edge.to)) svg.append(edgePicture(edge, places));
    for (const node of nodes) svg.append(nodePicture(node, places));
    const scroll = made("div", undefined, "scroll");
    scroll.tabIndex = 0;
    scroll.append(svg);
    whole.append(scroll);
    if (nodes.length < picture.nodes.length) {
        whole.append(made("p", `The first ${nodes.length} of ${picture.nodes.length} nodes are drawn.`, "note"));
    }
    return whole;
}

/**
 * An edge as a line with an arrow.
 * @param {Edge} edge
 * @param {Map<string, {x: number, y: number, width: number}>} places
 */
function edgePicture(edge, places) {
    const from = places.get(edge.from);
    const to = places.get(edge.to);
    const group = drawn("g", { class: `edge ${edge.sort}` });
    if (!from || !to) return group;
    group.append(drawn("title", {}, `${edge.from} to ${edge.to}: ${shortened(edge.windows.join(", "), 400)}`));
    const y = [from.y + NODE_HEIGHT / 2, to.y + NODE_HEIGHT / 2];
    const right = from.x + from.width;
    let path = `M${right},${y[0]} C${right + 45},${y[0]} ${to.x - 45},${y[1]} ${to.x},${y[1]}`;
    if (to.x <= from.x) {
        const [under, end] = [Math.max(from.y, to.y) + NODE_HEIGHT + 20, to.x + to.width];
        path = `M${right},${y[0]} C${right + 50},${under} ${end + 50},${under} ${end},${y[1] + 6}`;
    }
    group.append(drawn("path", { d: path, "marker-end": "url(#arrow)" }));
    return group;
}

/**
 * The box of a node.
 * @param {NetNode} node
 * @param {Map<string, {x: number, y: number, width: number}>} places
 */
function nodePicture(node, places) {
    const place = places.get(node.name);
    const group = drawn("g", { class: "node" });
    if (!place) return group;
    const accepts = node.accepts.map((block) => `${hexadecimal(block.lo)}-${hexadecimal(block.hi)}`).join(", ");
    const shape = node.role === "unit" ? `, outputs below ${hexadecimal(1n << BigInt(node.reach))}` : "";
    const more = accepts ? `, accepts ${shortened(accepts, 300)}` : shape;
    const kind = /** @type {keyof typeof KIND_WORDS} */ (kindOf(node));
    group.append(drawn("title", {}, `${node.name}: ${KIND_WORDS[kind]}${more}`));
    group.append(drawn("rect", { x: place.x, y: place.y, width: place.width, height: NODE_HEIGHT, rx: 3,
        class: `kind-${kind} frame` }));
    const middle = place.x + place.width / 2;
    group.append(drawn("text", { x: middle, y: place.y + 16, class: "name strong" }, shortened(node.name, 34)));
    group.append(drawn("text", { x: middle, y: place.y + 31, class: "name" }, shortened(shapeOf(node), 34)));
    return group;
}
