/** The file of client numbers of a program: one decimal number a line. */

import { createHash, randomInt } from 'node:crypto';
import { mkdir, open, readFile } from 'node:fs/promises';
import { homedir } from 'node:os';
import path from 'node:path';
import { NoNumber } from './errors.mjs';
import { MOST_CLIENT } from './limits.mjs';

const LEAST_DRAWN = 2 ** 31;
const DIGITS_OF_SUM = 12;

/** The folder for what a program keeps of its client numbers. */
export function stateFolder() {
    const { LINDA_STATE, XDG_STATE_HOME } = process.env;
    return LINDA_STATE || path.join(XDG_STATE_HOME || path.join(homedir(), '.local', 'state'), 'linda');
}

/**
 * The file of the program that runs: it is named after the program's file, and after its absolute path. A program
 * without a file, as of `node -e`, shares that of node.
 */
export function defaultFile() {
    const program = path.resolve(process.argv[1] ?? process.execPath);
    const sum = createHash('sha256').update(program).digest('hex').slice(0, DIGITS_OF_SUM);
    return path.join(stateFolder(), `${path.parse(program).name}-${sum}.numbers`);
}

/**
 * The numbers of a file, in order; none if there is no file. A line that is no number is passed over, and so is a last
 * one without an end: it was cut off, and its program did not use that number.
 *
 * Throws NoNumber if the file cannot be read.
 * @param {string} file @returns {Promise<number[]>}
 */
export async function numbersOf(file) {
    let text = '';
    try {
        text = await readFile(file, 'utf8');
    } catch (fault) {
        if (/** @type {NodeJS.ErrnoException} */ (fault).code !== 'ENOENT') throw unusable(file, fault);
    }
    const lines = text.split('\n').map((line) => line.trim()), cut = lines.pop();
    if (cut) process.emitWarning(`the last line of ${file} has no end, and is passed over: ${cut}`, 'linda-space');
    const numbers = lines.filter((line) => /^\d{1,10}$/.test(line)).map(Number);
    return [...new Set(numbers)].filter((number) => number <= MOST_CLIENT);
}

/**
 * Adds a number to a file, by one write that is on disk then, and makes the file and its folder if they are not there.
 *
 * Throws NoNumber if that cannot be done.
 * @param {string} file @param {number} number
 */
export async function addNumber(file, number) {
    try {
        await makeFolder(path.dirname(path.resolve(file)));
        const handle = await open(file, 'a+', 0o600);
        try {
            const { size } = await handle.stat();
            const last = size === 0 ? '\n' : (await handle.read(Buffer.alloc(1), 0, 1, size - 1)).buffer.toString();
            const line = Buffer.from(last === '\n' ? `${number}\n` : `x\n${number}\n`);
            const { bytesWritten } = await handle.write(line);
            if (bytesWritten !== line.length) throw new Error('no space left on the device');
            await handle.sync();
        } finally {
            await handle.close();
        }
    } catch (fault) {
        throw unusable(file, fault);
    }
}

/**
 * Makes a folder, and those above it, unless they are there. (`recursive` of mkdir does not return if a parent can
 * never be made, as below /proc.)
 * @param {string} folder
 */
export async function makeFolder(folder) {
    for (let isLast = false; ; isLast = true) {
        try {
            await mkdir(folder, 0o700);
            return;
        } catch (fault) {
            const { code } = /** @type {NodeJS.ErrnoException} */ (fault);
            if (code === 'EEXIST') return;
            if (code !== 'ENOENT' || isLast || path.dirname(folder) === folder) throw fault;
        }
        await makeFolder(path.dirname(folder));
    }
}

/** A number that no program has, as good as certainly. */
export function drawnNumber() {
    return randomInt(LEAST_DRAWN, MOST_CLIENT + 1);
}

/** @param {string} file @param {unknown} fault */
function unusable(file, fault) {
    const { message } = /** @type {Error} */ (fault);
    return new NoNumber(`the file of client numbers ${file}: ${message}; give another one, or a number`, { cause: fault });
}
