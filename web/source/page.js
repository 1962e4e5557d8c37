// SPDX-License-Identifier: Apache-2.0
"use strict";

/**
 * The page's state: the text that is asked, the number of the question, and what is known of its answer.
 * @type {{number: number, text: string, busy: boolean, answer: Answer | null, picture: Picture | null, asked: string,
 *     module: WebAssembly.Module | null, worker: Worker | null, waits: number, ends: number, filled: string}}
 */
const state = { number: 0, text: "", busy: false, answer: null, picture: null, asked: "", module: null, worker: null,
    waits: 0, ends: 0, filled: "" };

/** How long the page waits after a key before it asks, and when it stops a text by itself, in milliseconds. */
const PAUSE = 350;
const MOST_TIME = 60000;

/** How many letters of a reply are shown. */
const MOST_LETTERS = 20000;

/**
 * The element of an id, of which the page is sure.
 * @param {string} id
 */
function element(id) {
    return /** @type {HTMLElement} */ (document.getElementById(id));
}

/**
 * A field of the form.
 * @param {string} id
 */
function field(id) {
    return /** @type {HTMLInputElement} */ (document.getElementById(id));
}

/** @type {any} */
const editor = CodeMirror.fromTextArea(field("text"), {
    mode: "netconf",
    theme: "netconf",
    lineNumbers: true,
    lineWrapping: true,
    gutters: ["marks", "CodeMirror-linenumbers"],
    extraKeys: { Tab: false, "Shift-Tab": false, "Ctrl-Enter": () => ask(), "Cmd-Enter": () => ask() },
});
editor.getInputField().setAttribute("aria-label", "Description");

/**
 * Says how far things are, in one line.
 * @param {string} words
 * @param {boolean} [wrong]
 */
function say(words, wrong = false) {
    const status = element("status");
    status.textContent = words;
    status.title = words;
    status.className = wrong ? "wrong" : "";
}

/** Makes a worker that has the program. */
function beginWorker() {
    const url = URL.createObjectURL(new Blob([WORKER], { type: "text/javascript" }));
    const worker = new Worker(url);
    URL.revokeObjectURL(url);
    worker.postMessage({ module: state.module });
    worker.onmessage = (event) => take(event.data);
    worker.onerror = (event) => {
        event.preventDefault();
        take({ number: state.number, trouble: event.message });
    };
    state.worker = worker;
}

/** Ends what is computed now. */
function endWorker() {
    if (state.worker) state.worker.terminate();
    beginWorker();
    rest();
}

/** Nothing is computed any more. */
function rest() {
    state.busy = false;
    window.clearTimeout(state.ends);
    field("stop").disabled = true;
}

/** Stops the text that is computed. */
function stopText() {
    if (!state.busy) return;
    endWorker();
    state.number += 1;
    say("Stopped.", true);
}

/** Asks the program about the text as it stands. */
function ask() {
    state.text = editor.getValue();
    send({ text: state.text });
}

/** Asks what agents see under the tables of the field, over the text as it stands. */
function audit() {
    const image = imageIn(field("image").value);
    if (image === null) {
        const words = "These are no tables: digits in hexadecimal are, two for each byte.";
        element("report").replaceChildren(made("p", words, "wrong"));
        return;
    }
    send({ text: editor.getValue(), image });
}

/**
 * Sends the worker a question.
 * @param {{text: string, image?: Uint8Array}} question
 */
function send(question) {
    window.clearTimeout(state.waits);
    if (!state.module) return;
    if (state.busy) endWorker();
    state.number += 1;
    state.busy = true;
    field("stop").disabled = false;
    say("Computing …");
    state.ends = window.setTimeout(() => {
        stopText();
        say("Stopped after a minute. Run it with netconf-run on your machine.", true);
    }, MOST_TIME);
    if (state.worker) state.worker.postMessage({ number: state.number, ...question });
}

/**
 * Takes what the worker tells.
 * @param {Told} told
 */
function take(told) {
    if (told.number !== state.number) return;
    if (told.trouble) {
        rest();
        say(`The program broke off: ${told.trouble}`, true);
        return;
    }
    if (told.answer) {
        state.answer = told.answer;
        if (told.answer.status !== 0) {
            rest();
            state.picture = null;
        }
        showAnswer(told.answer);
    }
    if (told.audit) {
        rest();
        say("The tables are audited.");
        element("report").replaceChildren(auditPicture(told.audit, state.picture ? state.picture.nodes : []));
    }
    if (told.picture) {
        rest();
        state.picture = told.picture;
        showPicture(told.picture);
    }
}

/**
 * Shows a page's text with its marks of code taken off.
 * @param {string} text
 */
function plainWords(text) {
    return text.replace(/`/g, "");
}

/**
 * Why a rule refuses, and what to do.
 * @param {string} rule
 * @param {string} [mend] what to do, where more is known than the page says
 */
function explanation(rule, mend) {
    const known = RULES[rule];
    const why = made("div", undefined, "why");
    why.append(made("strong", rule));
    if (known) why.append(`: ${plainWords(known.why)}. `);
    const words = mend || (known && known.mend) || MENDS[rule];
    if (words) why.append(made("em", plainWords(words)));
    return why;
}

/**
 * What takes each mark and reply out of the editor again.
 * @type {(() => void)[]}
 */
const marks = [];

/** Takes the marks and replies out of the editor. */
function clearMarks() {
    editor.clearGutter("marks");
    for (const clear of marks.splice(0)) clear();
}

/**
 * Marks a line that is refused, with what is behind it.
 * @param {number} at the line, counted from 1
 * @param {HTMLElement} why
 */
function markLine(at, why) {
    const number = Math.min(at, editor.lineCount()) - 1;
    editor.setGutterMarker(number, "marks", made("div", "!", "mark"));
    const line = editor.addLineClass(number, "background", "line-wrong");
    const widget = editor.addLineWidget(number, why);
    marks.push(() => {
        editor.removeLineClass(line, "background", "line-wrong");
        widget.clear();
    });
}

/**
 * Writes the replies to the commands of a line behind it.
 * @param {number} line counted from 1
 * @param {{words: string, wrong: boolean}[]} replies
 */
function writeReplies(line, replies) {
    const widget = made("span");
    for (const { words, wrong } of replies) widget.append(made("span", `→ ${words}`, wrong ? "reply wrong" : "reply"));
    widget.setAttribute("aria-hidden", "true");
    const at = { line: line - 1, ch: editor.getLine(line - 1).length };
    const mark = editor.setBookmark(at, { widget, insertLeft: true, handleMouseEvents: true });
    marks.push(() => mark.clear());
}

/**
 * What to do about a buffer that is no whole number of pages; empty where it is one.
 * @param {Statement} command
 */
function pageMend(command) {
    const found = /^grant\s+\w+\s+(\S+)\s+\S+\s+(0x[0-9a-fA-F]+|\d+)\s+(0x[0-9a-fA-F]+|\d+)/.exec(command.text);
    if (!found || !state.picture) return "";
    const units = unitsFrom(found[1], state.picture.nodes);
    if (!units.length) return `${found[1]} comes to no unit, so there is no table that could show it a buffer.`;
    const unit = units.reduce((least, other) => (other.page < least.page ? other : least));
    const page = 1n << BigInt(unit.page);
    const [base, size] = [BigInt(found[2]), BigInt(found[3])];
    if (base % page === 0n && size % page === 0n) return "";
    const first = base - (base % page);
    const whole = (base + size - first + page - 1n) / page * page;
    return `A slot of ${unit.name} shows a whole page of ${hexadecimal(page)} addresses. Grant whole pages: base `
        + `${hexadecimal(first)}, size ${hexadecimal(whole)}.`;
}

/**
 * The units to which the addresses of a node come, through others too.
 * @param {string} name
 * @param {NetNode[]} nodes
 */
function unitsFrom(name, nodes) {
    const edges = edgesOf(nodes);
    const met = new Set([name]);
    for (const from of met) for (const edge of edges) if (edge.from === from) met.add(edge.to);
    return nodes.filter((node) => node.role === "unit" && met.has(node.name));
}

/**
 * Shows the answer to the text: its replies, or the refusal at its line.
 * @param {Answer} answer
 */
function showAnswer(answer) {
    const refused = /^refused: (?:line (\d+) )?(\w+)(.*)$/m.exec(answer.output);
    editor.operation(() => {
        clearMarks();
        if (answer.status === 4 && refused) {
            const line = Number(refused[1]) || lineDeclaring(state.text, refused[3].trim().split(/[@ ]/)[0]);
            const why = explanation(refused[2]);
            if (!refused[1]) why.prepend(made("div", refused[0]));
            if (line) markLine(line, why);
        }
    });
    const list = made("ol", undefined, "replies");
    if (answer.status === 4) {
        list.append(made("li", answer.output.trim(), "wrong"));
        if (refused) list.append(explanation(refused[2]));
        say(answer.output.trim(), true);
        for (const id of ["maps", "net", "tables"]) element(id).classList.add("stale");
    } else if (answer.status !== 0) {
        const why = { 3: "the answer is longer than 64 MiB", 7: "memory does not suffice" };
        say(`The program ends with status ${answer.status}: ${why[/** @type {3 | 7} */ (answer.status)] || ""}`, true);
    }
    for (const reply of answer.replies) {
        const line = made("li");
        line.append(made("div", `${reply.command.text};`, "command"));
        const words = answer.output.slice(reply.start, reply.end).trimEnd();
        const shown = words.length > MOST_LETTERS ? `${words.slice(0, MOST_LETTERS)}\n…` : words;
        line.append(made("pre", shown, ruleIn(reply.line) ? "wrong" : ""));
        list.append(line);
    }
    const more = answer.count - answer.replies.length;
    if (more) list.append(made("li", `and ${more} replies more`, "note"));
    if (answer.status === 0 && !answer.count) list.append(made("li", "There is no command.", "note"));
    element("replies").replaceChildren(list);
}

/** Shows the replies beside their commands, and marks those that are refused. */
function showReplies() {
    const answer = state.answer;
    if (!answer) return;
    /** @type {Map<number, {words: string, wrong: boolean}[]>} */
    const lines = new Map();
    editor.operation(() => {
        clearMarks();
        for (const { command, line: words } of answer.replies) {
            const line = lineOf(state.text, command.end - 1);
            const rule = ruleIn(words);
            const here = lines.get(line) || [];
            lines.set(line, [...here, { words: shortened(words, 80), wrong: rule !== "" }]);
            if (rule) markLine(line, explanation(rule, rule === "NoPlacement" ? pageMend(command) : ""));
        }
        for (const [line, replies] of lines) writeReplies(line, replies);
    });
    const count = answer.count === 1 ? "1 command" : `${answer.count} commands`;
    say(answer.refused ? `${count} answered, ${answer.refused} refused.` : `${count} answered.`, answer.refused > 0);
}

/**
 * Shows the net with its views and tables.
 * @param {Picture} picture
 */
function showPicture(picture) {
    showReplies();
    for (const id of ["maps", "net", "tables"]) element(id).classList.remove("stale");
    showMaps();
    element("net").replaceChildren(graphOf(picture));
    element("tables").replaceChildren(tablesOf(picture));
    const memories = picture.nodes.filter((node) => node.accepts.length && node.role !== "vectors");
    memories.sort((one, other) => Number(kindOf(other) === "memory") - Number(kindOf(one) === "memory"));
    const agents = picture.nodes.filter((node) => node.role === "agent");
    agents.sort((one, other) => Number(behindUnit(other, picture)) - Number(behindUnit(one, picture)));
    fill(field("agent"), agents.map((node) => node.name));
    fill(field("memory"), memories.map((node) => node.name));
    nameNext();
    fillImage();
    showGranted();
}

/** Fills the field of the audit: with the tables of the example, or those that the text leads to. */
function fillImage() {
    const name = field("examples").value;
    const own = state.text === EXAMPLES[name] ? IMAGES[name] : "";
    const text = own || (state.picture ? state.picture.dump : "");
    if (field("image").value === state.filled) field("image").value = text;
    state.filled = text;
}

/**
 * Whether the addresses of an agent come to a unit.
 * @param {NetNode} agent
 * @param {Picture} picture
 */
function behindUnit(agent, picture) {
    return unitsFrom(agent.name, picture.nodes).length > 0;
}

/** Shows the maps for the access that is chosen. */
function showMaps() {
    if (state.picture) element("maps").replaceChildren(mapsOf(state.picture, field("access").value));
}

/**
 * Fills a list of choices, and keeps the one that is made.
 * @param {HTMLElement} list
 * @param {string[]} words
 */
function fill(list, words) {
    const select = /** @type {HTMLSelectElement} */ (list);
    const chosen = select.value;
    select.replaceChildren(...words.map((word) => new Option(word, word)));
    if (words.includes(chosen)) select.value = chosen;
}

/** Proposes a name for the next grant that no command uses. */
function nameNext() {
    const isUsed = (/** @type {string} */ name) => new RegExp(`\\b${name}\\b`).test(state.text);
    let number = 1;
    while (isUsed(`buffer${number}`)) number += 1;
    const name = field("name");
    if (!/^\w+$/.test(name.value) || isUsed(name.value)) name.value = `buffer${number}`;
}

/** Writes the command that the form asks for behind the text, and asks the program. */
function grant() {
    const [base, size] = [numberOf(field("base").value), numberOf(field("size").value)];
    if (base === null || size === null) {
        showAsked("wrong", `${base === null ? "The base" : "The size"} is no number: 4096, 0x1000 and 4K are.`);
        return;
    }
    const rights = field("rights").value ? ` for ${field("rights").value}` : "";
    const command = `grant ${field("name").value} ${field("agent").value} ${field("memory").value} `
        + `${hexadecimal(base)} ${hexadecimal(size)}${rights};`;
    const text = editor.getValue();
    const begin = partsOf(text).begins ? "" : "begin;\n";
    const last = editor.lineCount() - 1;
    const newline = text === "" || text.endsWith("\n") ? "" : "\n";
    editor.replaceRange(`${newline}${begin}${command}\n`, { line: last, ch: editor.getLine(last).length });
    editor.scrollTo(null, editor.getScrollInfo().height);
    state.asked = command;
    ask();
}

/**
 * Shows what the form's command came to.
 * @param {string} sort
 * @param {string} words
 * @param {HTMLElement} [why]
 */
function showAsked(sort, words, why) {
    const place = element("granted");
    place.className = sort;
    place.replaceChildren(made("p", words));
    if (why) place.append(why);
}

/** Shows the reply to the command that the form wrote. */
function showGranted() {
    const reply = state.answer ? state.answer.last : undefined;
    if (!reply || !state.asked || `${reply.command.text};` !== state.asked) return;
    state.asked = "";
    const { command } = reply;
    const [, id, agent] = command.text.split(/\s+/);
    const found = /^\S+ at (0x[0-9a-f]+)$/.exec(reply.line);
    if (found) {
        if (/\bfor write$/.test(command.text)) {
            field("access").value = "write";
            showMaps();
        }
        showAsked("", `${id} is granted: ${agent} sees it at ${found[1]}, and nothing else that is new.`);
    } else {
        const rule = ruleIn(reply.line);
        showAsked("wrong", reply.line, explanation(rule, rule === "NoPlacement" ? pageMend(command) : ""));
    }
    nameNext();
}

/**
 * The tables as rows of words with their fields.
 * @param {Picture} picture
 */
function tablesOf(picture) {
    const whole = made("div");
    if (!picture.tables.length) whole.append(made("p", picture.missing || "The description has no unit.", "note"));
    for (const { node, from, records, used } of picture.tables) {
        const table = made("table");
        const shape = `${node.kind}, ${node.slots} slots of ${hexadecimal(1n << BigInt(node.page))}`;
        table.append(made("caption", `${node.name} (${shape}): ${used ? `${used} in use` : "all empty"}`));
        const row = (/** @type {string} */ tag, /** @type {string[]} */ cells) => {
            const line = made("tr");
            for (const cell of cells) line.append(made(tag, cell));
            table.append(line);
        };
        if (records.length) row("th", ["slot", "input", "words", "byte", "rights", "leads to"]);
        for (const record of records) {
            const rights = [record.reads ? "read" : "", record.writes ? "write" : ""].filter(Boolean).join(", ");
            row("td", [
                String(record.slot),
                hexadecimal(BigInt(record.slot) << BigInt(node.page)),
                record.words.map(hexadecimal).join(" "),
                String(from + 8 * record.words.length * record.slot),
                record.open ? rights : "closed",
                record.open ? `${record.port}@${hexadecimal(record.output)}` : "",
            ]);
        }
        const scroll = made("div", undefined, "scroll");
        scroll.append(table);
        whole.append(scroll);
        if (records.length < used) whole.append(made("p", `The first ${records.length} are shown.`, "note"));
    }
    return whole;
}

/**
 * Shows a panel.
 * @param {HTMLElement} tab
 */
function showTab(tab) {
    for (const other of tabs) {
        const chosen = other === tab;
        other.setAttribute("aria-selected", String(chosen));
        other.tabIndex = chosen ? 0 : -1;
        element(String(other.getAttribute("aria-controls"))).hidden = !chosen;
    }
}

/** @type {HTMLElement[]} */
const tabs = [...document.querySelectorAll("[role=tab]")].map((tab) => /** @type {HTMLElement} */ (tab));

/**
 * Bytes as letters that a link may have.
 * @param {Uint8Array} bytes
 */
function linkLetters(bytes) {
    let letters = "";
    for (const byte of bytes) letters += String.fromCharCode(byte);
    return btoa(letters).replace(/\+/g, "-").replace(/\//g, "_").replace(/=+$/, "");
}

/**
 * The bytes of letters in base 64, of a link or of a script.
 * @param {string} letters
 */
function bytesIn(letters) {
    return Uint8Array.from(atob(letters.replace(/-/g, "+").replace(/_/g, "/")), (letter) => letter.charCodeAt(0));
}

/**
 * Bytes through a stream that makes them shorter, or as they were.
 * @param {Uint8Array} bytes
 * @param {CompressionStream | DecompressionStream} stream
 */
async function through(bytes, stream) {
    return new Uint8Array(await new Response(new Blob([bytes]).stream().pipeThrough(stream)).arrayBuffer());
}

/** Makes a link that holds the text, and copies it where the browser lets a page do so. */
async function share() {
    const text = new TextEncoder().encode(editor.getValue());
    const letters = linkLetters(await through(text, new CompressionStream("deflate-raw")));
    const link = field("link");
    window.history.replaceState(null, "", `#text=${letters}`);
    link.value = window.location.href;
    link.hidden = false;
    link.focus();
    link.select();
    try {
        await navigator.clipboard.writeText(link.value);
        say("The link is copied. It holds the text itself.");
    } catch {
        say("Copy the link: it holds the text itself.");
    }
}

/** The text that the address of the page asks for, or that of the first example. */
async function wantedText() {
    const wanted = new URLSearchParams(window.location.hash.slice(1));
    const letters = wanted.get("text");
    if (letters !== null) {
        try {
            return new TextDecoder().decode(await through(bytesIn(letters), new DecompressionStream("deflate-raw")));
        } catch {
            say("The link holds no text: a part of it is missing.", true);
        }
    }
    const name = wanted.get("example") || "";
    const chosen = EXAMPLES[name] === undefined ? "first_grant" : name;
    field("examples").value = chosen;
    return EXAMPLES[chosen];
}

/** Puts the text of the address into the editor, and asks the program. */
async function openText() {
    editor.setValue(await wantedText());
    ask();
}

/** Joins the page's controls to what they do. */
function join() {
    fill(field("examples"), Object.keys(EXAMPLES));
    editor.on("change", () => {
        window.clearTimeout(state.waits);
        state.waits = window.setTimeout(ask, PAUSE);
    });
    field("examples").onchange = () => {
        window.history.replaceState(null, "", `#example=${field("examples").value}`);
        editor.setValue(EXAMPLES[field("examples").value]);
        ask();
    };
    element("run").onclick = () => ask();
    element("stop").onclick = () => stopText();
    element("judge").onclick = () => audit();
    element("share").onclick = () => share();
    field("access").onchange = () => showMaps();
    element("grant").onsubmit = (event) => {
        event.preventDefault();
        grant();
    };
    window.onhashchange = () => openText();
    tabs.forEach((tab, number) => {
        tab.onclick = () => showTab(tab);
        tab.onkeydown = (event) => {
            const step = { ArrowRight: 1, ArrowLeft: -1 }[event.key];
            if (step === undefined) return;
            const next = tabs[(number + step + tabs.length) % tabs.length];
            showTab(next);
            next.focus();
        };
    });
}

/** Makes the program of the bytes that the page holds, and answers the first text. */
async function begin() {
    join();
    try {
        const bytes = await through(bytesIn(PROGRAM), new DecompressionStream("gzip"));
        state.module = await WebAssembly.compile(bytes);
        beginWorker();
    } catch (error) {
        editor.setValue(await wantedText());
        say(`This browser cannot run the program. It needs WebAssembly with a memory of 64 bits, as Chrome 133 and `
            + `Firefox 134 have it. (${error})`, true);
        return;
    }
    await openText();
}

begin();
