// SPDX-License-Identifier: Apache-2.0
// What web/build puts into the page besides its sources, for the checks of types.

/** The editor of the package libjs-codemirror. */
declare const CodeMirror: {
    defineMode(name: string, make: () => { token(stream: Stream): string | null }): void;
    fromTextArea(area: HTMLElement, options: object): unknown;
};
interface Stream {
    match(pattern: RegExp): RegExpMatchArray | null;
    next(): string | void;
}
/** The module of the program: its bytes through gzip, in base 64. */
declare const PROGRAM: string;
/** The script of the worker. */
declare const WORKER: string;
/** The examples, each text by its name. */
declare const EXAMPLES: Record<string, string>;
/** Images of tables that somebody else made, as dump prints them, by the names of their examples. */
declare const IMAGES: Record<string, string>;
/** Why each rule refuses, and what to do, by its name. */
declare const RULES: Record<string, { why: string; mend: string }>;
/** Streams that make bytes shorter, and as they were; lib.dom of TypeScript 4.8 has only the first. */
interface CompressionStream extends GenericTransformStream {}
interface DecompressionStream extends GenericTransformStream {}
declare const CompressionStream: { new (format: string): CompressionStream };
declare const DecompressionStream: { new (format: string): DecompressionStream };
