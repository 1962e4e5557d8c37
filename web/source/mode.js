// SPDX-License-Identifier: Apache-2.0
"use strict";

/** The words of the language that are reserved, and those that begin a command besides. */
const KEYWORDS = new Set(
    ("agent vectors unit module use for in end begin is accept map to and at over kind page slots reach as num node " +
        "resolve lookup view grant route revoke dump split absorb gather radix").split(" "),
);

/** The words that say what a grant or a question is for, and the kinds of units. */
const OPTIONS = new Set("read write pages remap radix".split(" "));

CodeMirror.defineMode("netconf", () => ({
    token(stream) {
        if (stream.match(/^\/\/[@!-].*/)) return "meta";
        if (stream.match(/^\/\/.*/)) return "comment";
        if (stream.match(/^(0x[0-9a-fA-F]+|[0-9]+)\b/)) return "number";
        const word = stream.match(/^[A-Za-z_]\w*/);
        if (word) return KEYWORDS.has(word[0]) ? "keyword" : OPTIONS.has(word[0]) ? "atom" : "variable";
        stream.next();
        return null;
    },
}));
