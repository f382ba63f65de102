#!/usr/bin/env node
/** Answers a job byte for byte as the program tsj does: tsj.mjs [FILE], else standard input. */

import { readFile } from 'node:fs/promises';
import { Readable } from 'node:stream';
import { buffer } from 'node:stream/consumers';
import { pipeline } from 'node:stream/promises';
import { jobText, load } from './index.js';

/** @param {string[]} files */
async function answer(files) {
    const yoktvarim = await load();
    const job = files.length > 0 ? await readFile(files[0]) : await buffer(process.stdin);
    await pipeline(Readable.from(jobText(yoktvarim, job)), process.stdout);
}

const words = process.argv.slice(2);
if (words.length > 1 || words[0]?.startsWith('-')) {
    process.stderr.write('usage: tsj.mjs [FILE]\n');
    process.exitCode = 2;
} else {
    await answer(words).catch((error) => {
        // A reader that stops early is not a failure.
        if (error.code === 'EPIPE') return;
        process.stderr.write(`tsj: ${error.message}\n`);
        process.exitCode = 1;
    });
}
