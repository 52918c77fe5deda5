/** The frames of docs/PROTOCOL.md: how those of a client are spelled, and those of a server are read. */

import { isUtf8 } from 'node:buffer';
import { MOST_FIELDS, MOST_TEXT, plain, VERSION } from './limits.mjs';
import { Formal } from './values.mjs';

/**
 * @typedef {import('./values.mjs').Value} Value
 * @typedef {import('./values.mjs').Pattern} Pattern
 * @typedef {import('./values.mjs').Tuple} Tuple
 * @typedef {import('./values.mjs').Template} Template
 */

export class BadFrame extends Error {}

/** @param {number | bigint} number @param {number} [size] */
function spellNumber(number, size = 8) {
    const spelled = Buffer.alloc(8);
    spelled.writeBigUInt64BE(BigInt(number));
    return spelled.subarray(8 - size);
}

/** @param {Pattern} item */
function spellItem(item) {
    if (item instanceof Formal) return Buffer.of(item.byte);
    if (typeof item === 'boolean') return Buffer.of(3, item ? 1 : 0);
    if (typeof item === 'string') {
        const content = Buffer.from(item);
        return Buffer.concat([Buffer.of(2), spellNumber(content.length, 2), content]);
    }
    return Buffer.concat([Buffer.of(1), spellNumber(BigInt.asUintN(64, BigInt(item)))]);
}

/**
 * A tuple, or a template, as bytes.
 * @param {Template} items
 */
export function spellItems(items) {
    return Buffer.concat([spellItem(items[0]), Buffer.of(items.length - 1), ...items.slice(1).map(spellItem)]);
}

/** @param {number} kind @param {...Uint8Array} body */
function frame(kind, ...body) {
    const payload = Buffer.concat([Buffer.of(kind), ...body]);
    return Buffer.concat([spellNumber(payload.length, 4), payload]);
}

const REPLIES = /** @type {const} */ (['welcome', 'stored', 'offer', 'read', 'taken', 'gone', 'refused', 'left']);
const FIRST_REPLY = 0x11;

/**
 * A frame of a server. `number` is the last number of a Welcome, the ticket of an Offer and a Read, the code of a
 * Refused; `id` is the detail of a Refused.
 * @typedef {{ kind: 'welcome' | 'stored' | 'offer' | 'read' | 'taken' | 'gone' | 'refused' | 'left', number: bigint,
 *     id: bigint, tuple: Tuple }} Reply
 */

/** Reads what is in a frame after its length, from left to right. */
class FrameReader {
    /** @param {Uint8Array} data */
    constructor(data) {
        this.data = data;
        this.at = 0;
    }

    /** @param {number} size */
    take(size) {
        this.at += size;
        if (this.at > this.data.length) throw new BadFrame('a frame ends too early');
        return this.data.subarray(this.at - size, this.at);
    }

    byte() {
        return this.take(1)[0];
    }

    number() {
        return this.take(8).readBigUInt64BE();
    }

    /** @returns {Value} */
    value() {
        const kind = this.byte();
        if (kind === 1) return plain(this.take(8).readBigInt64BE());
        if (kind === 2) {
            const size = this.take(2).readUInt16BE();
            if (size > MOST_TEXT) throw new BadFrame('a frame has a text that is too long');
            const content = this.take(size);
            if (!isUtf8(content)) throw new BadFrame('a frame has a text that is not UTF-8');
            return content.toString();
        }
        if (kind === 3) {
            const truth = this.byte();
            if (truth <= 1) return truth === 1;
        }
        throw new BadFrame('a frame has something else in place of a value');
    }

    /** @returns {Tuple} */
    tuple() {
        const tag = this.value(), count = this.byte();
        if (count > MOST_FIELDS) throw new BadFrame('a frame has too many fields');
        const fields = [];
        while (fields.length < count) fields.push(this.value());
        return Object.freeze([tag, ...fields]);
    }

    /** @returns {Reply} */
    reply() {
        const byte = this.byte(), kind = REPLIES[byte - FIRST_REPLY];
        if (kind === undefined) throw new BadFrame(`a frame of kind ${byte}`);
        const number = kind === 'refused' ? BigInt(this.byte()) : this.number();
        const id = ['stored', 'offer', 'read', 'taken', 'refused'].includes(kind) ? this.number() : 0n;
        const tuple = ['offer', 'read', 'taken'].includes(kind) ? this.tuple() : [];
        if (this.at !== this.data.length) throw new BadFrame('a frame has more after its body');
        return { kind, number, id, tuple };
    }
}

/**
 * The number of a frame of a client: of an Out, an Accept or a Leave; 0 of any other.
 * @param {Uint8Array} data
 */
export function numberOf(data) {
    const isNumbered = data[4] === 2 || data[4] === 4 || data[4] === 6;
    return isNumbered ? Buffer.from(data.buffer, data.byteOffset, data.length).readBigUInt64BE(5) : 0n;
}

/** The frames of a client, each with its length, and the reader of a server's: what is below a `Space`. */
export const frames = Object.freeze({
    /** @param {number} client @param {boolean} fresh */
    hello: (client, fresh) => frame(1, Buffer.of(VERSION), spellNumber(client, 4), Buffer.of(fresh ? 1 : 0)),
    /** @param {number | bigint} number @param {Tuple} tuple */
    out: (number, tuple) => frame(2, spellNumber(number), spellItems(tuple)),
    /** @param {number | bigint} ticket @param {boolean} remove @param {Template} template */
    ask: (ticket, remove, template) => frame(3, spellNumber(ticket), Buffer.of(remove ? 1 : 0), spellItems(template)),
    /** @param {number | bigint} number @param {number | bigint} ticket @param {number | bigint} id */
    accept: (number, ticket, id) => frame(4, spellNumber(number), spellNumber(ticket), spellNumber(id)),
    /** @param {number | bigint} ticket */
    cancel: (ticket) => frame(5, spellNumber(ticket)),
    /** @param {number | bigint} number */
    leave: (number) => frame(6, spellNumber(number)),
    /**
     * What is after the length of a frame of a server.
     * @param {Uint8Array} data
     */
    reply: (data) => new FrameReader(data).reply(),
});

