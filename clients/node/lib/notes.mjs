/**
 * Notes of the jobs that a worker has in hand, in a file of its client number: a life that ends in a job leaves its note
 * there, and the next life under the number counts that as a failure of the job.
 *
 * A line for each job, `ID SHA SERVER`: the tuple's id at its server, the first 32 hex digits of the SHA-256 of its
 * bytes as in a frame, and the port or path of the server. What else is in the file are ends of lines.
 */

import { createHash } from 'node:crypto';
import { closeSync, constants, ftruncateSync, openSync, readFileSync, writeSync } from 'node:fs';
import { spellItems } from './frames.mjs';

const { O_CREAT, O_RDWR } = constants;
const DIGITS_OF_SUM = 32, DIGITS_OF_ID = 20;
const LINE = /^[\0 ]*(\d{1,20}) ([\da-f]{32}) (.+?)[\0 ]*$/;

/**
 * @typedef {import('./results.mjs').Offer<any>} Offer
 *
 * A job that an earlier life had in hand: its server, its id there and its sum, and the place of its note, if it is still
 * in the file.
 * @typedef {{ server: number, id: bigint, sum: string, place: number | null }} Noted
 */

/** @param {Offer} offer */
function sumOf({ tuple }) {
    return createHash('sha256').update(spellItems(tuple)).digest('hex').slice(0, DIGITS_OF_SUM);
}

let hasWarned = false;

/** @param {string} file @param {unknown} fault */
function warn(file, fault) {
    if (hasWarned) return;
    hasWarned = true;
    process.emitWarning(`a job that ends its worker is not counted: ${file}: ${/** @type {Error} */ (fault).message}`, 'linda-space');
}

/** The notes in the file of a number. */
export class Notes {
    /**
     * What an earlier life had in hand, and this one was not offered yet.
     * @type {Noted[]}
     */
    noted = [];
    /**
     * What is at the place of each line: a note, or nothing.
     * @type {string[]}
     */
    #lines = [];
    /** @type {number | null} */
    #file = null;

    /**
     * The notes of this file; if it cannot be had, notes that are not kept, after a warning.
     * @param {string} name @param {readonly (number | string)[]} ports
     */
    constructor(name, ports) {
        this.name = name;
        this.ports = ports;
        this.size = Math.max(...ports.map((port) => Buffer.byteLength(String(port)))) + DIGITS_OF_ID + DIGITS_OF_SUM + 3;
        try {
            this.#file = openSync(name, O_RDWR | O_CREAT, 0o600);
            const lines = readFileSync(this.#file, 'utf8').split('\n').map((line) => LINE.exec(line));
            ftruncateSync(this.#file);
            for (const line of lines) {
                const server = ports.findIndex((port) => String(port) === line?.[3]);
                if (line === null || server < 0) continue;
                this.noted.push({ server, id: BigInt(line[1]), sum: line[2], place: this.#write(line.slice(1).join(' ')) });
            }
        } catch (fault) {
            warn(name, fault);
        }
    }

    /**
     * Notes that this job is in hand. Returns the place of its note, which is to be cleared.
     * @param {Offer} offer
     */
    write(offer) {
        return this.#write(`${offer.id} ${sumOf(offer)} ${this.ports[offer.server]}`);
    }

    /**
     * The place of the note of this job, if an earlier life had it in hand; null if none had.
     * @param {Offer} offer
     */
    placeOf(offer) {
        const isIt = (/** @type {Noted} */ one) => one.server === offer.server && one.id === BigInt(offer.id) && one.sum === sumOf(offer);
        const noted = this.noted.find(isIt);
        if (noted === undefined) return null;
        this.noted = this.noted.filter((one) => one !== noted);
        return noted.place ?? this.write(offer);
    }

    /** @param {number} place */
    clear(place) {
        this.#put(place, '');
        for (const noted of this.noted) if (noted.place === place) noted.place = null;
    }

    /** @param {string} line */
    #write(line) {
        const free = this.#lines.indexOf(''), place = free >= 0 ? free : this.#lines.length;
        this.#put(place, line);
        return place;
    }

    /** @param {number} place @param {string} line */
    #put(place, line) {
        this.#lines[place] = line;
        if (this.#file === null) return;
        const data = Buffer.alloc(this.size, '\n');
        data.write(line);
        try {
            writeSync(this.#file, data, 0, this.size, place * this.size);
        } catch (fault) {
            warn(this.name, fault);
        }
    }

    /** What was in hand is not noted any more. */
    close() {
        if (this.#file === null) return;
        ftruncateSync(this.#file);
        closeSync(this.#file);
        this.#file = null;
    }
}
