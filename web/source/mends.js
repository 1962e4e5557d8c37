// SPDX-License-Identifier: Apache-2.0
"use strict";

/**
 * What to do about a text that breaks a rule, by the rule's name. What the rules say, and the refusals of commands with
 * their mends, comes from the pages (RULES).
 * @type {Record<string, string>}
 */
const MENDS = {
    Length: "Shorten the text, or leave out commands.",
    Token: "Look for a sign that the language does not have, or a number that goes on with letters.",
    Statement: "Look at this statement and the one before it: a word or a semicolon is missing or too many.",
    Block: "Give each `module` and `for` its own `end`, and put commands after `begin`.",
    Nesting: "Open fewer blocks or parentheses inside one another.",
    Duplicate: "Give one of the two another name.",
    Unknown: "Declare what is named here, or mend the spelling.",
    Arguments: "Pass an argument for each parameter of the module: `node NAME` for a node, or an expression.",
    Value: "Let each sum, product and difference lie from 0 to 2^64 - 1.",
    TooMany: "Use fewer of what the number limits.",
    Range: "Let the block run upwards, and let it and its destination end at or below 2^56 - 1.",
    Overlap: "Shorten one of the two blocks, so that each address lies in one.",
    Repeat: "Leave one of the two equal destinations out.",
    VectorSpace: "Take map and over away, and accept at most 4,096 vectors.",
    UnitShape: "Mend the page, the slots, the reach or the ports of the unit, or take another kind.",
    Wide: "Send copies to one node, or leave out levels that only pass addresses on.",
    Loop: "Find the step that should have led elsewhere, and let it lead there.",
    Deep: "Look for a node that maps into itself, shifted.",
    Fork: "Send the copies on after the unit, or split the window, so that what goes to the unit goes only there.",
    Chain: "Lower the reach of a unit, or give the units fewer and larger slots.",
    NoPlacement: "Look for free slots side by side (Tables), at the unit's reach, and for other agents that come "
        + "to the same slots (Net).",
    NoGrant: "Name a grant or a route that lives.",
};
