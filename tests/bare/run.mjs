/**
 * Runs a test program that tests/bare/build made for wasm32, over the module itself: node run.mjs MODULE PROGRAM.
 * Both share the module's memory.
 */

import { readFileSync, writeSync } from 'node:fs';

const [module, program] = process.argv.slice(2).map((name) => new WebAssembly.Module(readFileSync(name)));
const MEGABYTES = 32;

const { memory, ...calls } = new WebAssembly.Instance(module).exports;
memory.grow(MEGABYTES * 16);
const bare = {
    write: (from, count) => writeSync(1, new Uint8Array(memory.buffer, from, count)),
    end: (status) => process.exit(status),
};
new WebAssembly.Instance(program, { env: { memory, ...calls }, bare }).exports.start();
