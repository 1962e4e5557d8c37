// SPDX-License-Identifier: Apache-2.0
"use strict";

/** How many bytes of an answer are kept. */
const MOST_ANSWER = 1 << 26;

/** The errors that the program is told, by their numbers in Linux. */
const NO_SPACE = 28;
const NO_SEEK = 29;

/**
 * The system that the program meets in a page: its words, its text on standard input, and its standard output.
 */
class System {
    /**
     * @param {string[]} words the words of the command line, the program's name first
     * @param {Uint8Array} text what standard input holds
     */
    constructor(words, text) {
        this.words = words.map((word) => new TextEncoder().encode(word));
        this.text = text;
        this.taken = 0;
        /** @type {Uint8Array[]} */
        this.pieces = [];
        this.written = 0;
        this.error = 0;
        /** @type {WebAssembly.Memory | null} */
        this.memory = null;
    }

    /**
     * The bytes of the module's memory at a place.
     * @param {bigint} address
     * @param {number} size
     */
    bytes(address, size) {
        if (this.memory === null) throw new Error("the module has not begun");
        return new Uint8Array(this.memory.buffer, Number(address), size);
    }

    /** What the module imports. Addresses and sizes are numbers of 64 bits. */
    imports() {
        const system = this;
        return {
            env: {
                /** @type {(number: bigint, address: bigint, room: bigint) => bigint} */
                rattle_arg(number, address, room) {
                    const word = system.words[Number(number)];
                    if (word === undefined) return -1n;
                    if (word.length > room) return -2n;
                    system.bytes(address, word.length).set(word);
                    return BigInt(word.length);
                },
                /** @type {(number: bigint, address: bigint, room: bigint) => bigint} */
                rattle_env_at: () => -1n,
                /** @type {(name: bigint, address: bigint, room: bigint) => bigint} */
                rattle_env: () => -1n,
                rattle_errno: () => system.error,
                /** @type {(error: number) => void} */
                rattle_set_errno(error) {
                    system.error = error;
                },
                /** @type {(signal: number, handler: bigint) => bigint} */
                __sysv_signal: () => 0n,
                /** @type {(file: number, offset: bigint, from: number) => bigint} */
                lseek() {
                    system.error = NO_SEEK;
                    return -1n;
                },
                /** @type {(file: number, address: bigint, room: bigint) => bigint} */
                read(_file, address, room) {
                    const size = Math.min(Number(room), system.text.length - system.taken);
                    system.bytes(address, size).set(system.text.subarray(system.taken, system.taken + size));
                    system.taken += size;
                    return BigInt(size);
                },
                /** @type {(file: number, address: bigint, size: bigint) => bigint} */
                write(_file, address, size) {
                    if (system.written + Number(size) > MOST_ANSWER) {
                        system.error = NO_SPACE;
                        return -1n;
                    }
                    system.pieces.push(system.bytes(address, Number(size)).slice());
                    system.written += Number(size);
                    return size;
                },
            },
        };
    }

    /** What was written, as one text. It has letters of ASCII alone. */
    output() {
        const whole = new Uint8Array(this.written);
        let at = 0;
        for (const piece of this.pieces) {
            whole.set(piece, at);
            at += piece.length;
        }
        return new TextDecoder("latin1").decode(whole);
    }
}

/**
 * Runs the program.
 * @param {WebAssembly.Module} module the compiled program
 * @param {string} word the word of the command line: run, check or audit
 * @param {Uint8Array} text what standard input holds
 * @returns {{status: number, output: string}}
 */
function runProgram(module, word, text) {
    const system = new System(["netconf", word], text);
    const instance = new WebAssembly.Instance(module, system.imports());
    system.memory = /** @type {WebAssembly.Memory} */ (instance.exports.memory);
    const main = /** @type {() => number} */ (instance.exports.__original_main);
    const status = main();
    return { status, output: system.output() };
}
