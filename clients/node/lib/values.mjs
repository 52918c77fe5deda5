/** Values, patterns, tuples and templates, and what the arguments of calls are checked by. */

import { setMaxListeners } from 'node:events';
import { OutOfRange } from './errors.mjs';
import { LEAST_INTEGER, MOST_FIELDS, MOST_INTEGER, MOST_TEXT, plain, shown } from './limits.mjs';

/**
 * @typedef {number | bigint | string | boolean} Value
 * @typedef {Value | Formal<any>} Pattern
 * @typedef {readonly Value[]} Tuple
 * @typedef {readonly Pattern[]} Template
 *
 * `timeout`: milliseconds from the beginning of the call, which is when the calls before it have ended; without it a
 * call waits for as long as its servers are there. `signal`: ends the call, also while it waits for those before it.
 * @typedef {{ timeout?: number | null, signal?: AbortSignal | null }} Limits
 */

/**
 * The same for types that are seen item by item.
 * @typedef {readonly [Value, ...Value[]] | readonly Value[]} Values
 * @typedef {readonly [Pattern, ...Pattern[]] | readonly Pattern[]} Patterns
 */

/**
 * What a tuple is that a template matches; whether a call with these limits can return null; what has whole numbers in
 * it, as far as they are literals; options without other names.
 * @template T @typedef {T extends Formal<infer V> ? V : T} ValueOf
 */
/** @template T @typedef {{ readonly [K in keyof T]: ValueOf<T[K]> }} Matched */
/**
 * @template T, L
 * @typedef {L extends { timeout: number } ? T | null
 *     : 'timeout' extends keyof L ? L extends { timeout?: null } ? T : T | null : T} Timed
 */
/**
 * @template T
 * @typedef {{ readonly [K in keyof T]: T[K] extends number
 *     ? number extends T[K] ? T[K] : `${T[K]}` extends `${bigint}` ? T[K] : never : T[K] }} Whole
 */
/** @template T, O @typedef {T & { [K in Exclude<keyof T, keyof O>]: never }} Only */
/**
 * A pattern that fits each value of a kind, or each value.
 * @template {Value} [V=Value]
 */
export class Formal {
    /** @param {string} name @param {number} byte @param {string[]} types */
    constructor(name, byte, types) {
        this.name = name;
        this.byte = byte;
        this.types = types;
        Object.freeze(this);
    }

    /** @param {Value} value @returns {value is V} */
    fits(value) {
        return this.types.includes(typeof value);
    }

    toString() {
        return this.name;
    }
}

/**
 * Fits each integer.
 * @type {Formal<number | bigint>}
 */
export const INT = new Formal('INT', 4, ['number', 'bigint']);
/**
 * Fits each text.
 * @type {Formal<string>}
 */
export const TEXT = new Formal('TEXT', 5, ['string']);
/**
 * Fits true and false.
 * @type {Formal<boolean>}
 */
export const BOOL = new Formal('BOOL', 6, ['boolean']);
/**
 * Fits each value.
 * @type {Formal<Value>}
 */
export const ANY = new Formal('ANY', 7, ['number', 'bigint', 'string', 'boolean']);

/**
 * Fits each integer: how often a job failed, 0 at first. Only a job of `Space.work` with `tries` has it.
 * @type {Formal<number | bigint>}
 */
export const TRIES = new Formal('TRIES', 4, ['number', 'bigint']);

export const PACKED_FIELDS = 30;               // texts that `pack` makes, if nothing else is said

/**
 * A template for what `pack` makes: `['doc', ...PACKED]`.
 * @type {readonly Formal<string>[]}
 */
export const PACKED = Object.freeze(new Array(PACKED_FIELDS).fill(TEXT));

/** @param {string} what @param {unknown} number @param {number} least @param {number | bigint} most */
export function within(what, number, least, most) {
    const isWhole = typeof number === 'bigint' || Number.isSafeInteger(number);
    if (!isWhole || /** @type {number} */ (number) < least || /** @type {number} */ (number) > most) {
        throw new OutOfRange(`${what} is an integer from ${least} to ${most}: ${shown(number)}`);
    }
    return plain(BigInt(/** @type {number} */ (number)));
}

/** @param {unknown} value @returns {Value} */
export function checkedValue(value) {
    if (typeof value === 'boolean') return value;
    if (typeof value === 'number') {
        if (!Number.isSafeInteger(value)) {
            throw new OutOfRange(`a number is a safe integer, and other integers are of type bigint: ${value}`);
        }
        return value + 0;               // (there is no -0)
    }
    if (typeof value === 'bigint') {
        if (value < LEAST_INTEGER || value > MOST_INTEGER) {
            throw new OutOfRange(`an integer is from ${LEAST_INTEGER} to ${MOST_INTEGER}: ${value}`);
        }
        return plain(value);
    }
    if (typeof value === 'string') {
        const size = Buffer.byteLength(value);
        if (size > MOST_TEXT) {
            throw new OutOfRange(`a text has ${size} bytes, and ${MOST_TEXT} at most are allowed`);
        }
        if (/\p{Surrogate}/u.test(value)) throw new OutOfRange('a text has half of a character');
        return value;
    }
    throw new OutOfRange(`a value is an integer, a string or a boolean: ${shown(value)}`);
}

/** @param {unknown} items @returns {unknown[]} */
function checkedItems(items) {
    if (!Array.isArray(items) || items.length === 0) {
        throw new OutOfRange(`a tuple or a template is an array with a tag: ${shown(items)}`);
    }
    if (items.length > MOST_FIELDS + 1) {
        throw new OutOfRange(`there are ${items.length - 1} fields, and ${MOST_FIELDS} at most are allowed`);
    }
    return Array.from(items);
}

/** @param {unknown} items @returns {Tuple} */
export function checkedTuple(items) {
    return Object.freeze(checkedItems(items).map(checkedValue));
}

/**
 * @param {unknown} items @param {boolean} [isJob] whether TRIES may be in it
 * @returns {Template}
 */
export function checkedTemplate(items, isJob = false) {
    const isFormal = (/** @type {unknown} */ item) => item instanceof Formal;
    const template = Object.freeze(checkedItems(items).map((item, place) => (
        place > 0 && isFormal(item) ? /** @type {Formal} */ (item) : checkedValue(item))));
    if (!isJob && template.includes(TRIES)) throw new OutOfRange('TRIES is only in a job of work with tries');
    return template;
}

/**
 * Whether a template matches a tuple.
 * @param {Template} template @param {Tuple} values
 */
export function matches(template, values) {
    return template.length === values.length && template.every((item, place) => (
        item instanceof Formal ? item.fits(values[place]) : item === values[place]));
}

/**
 * What is at the places of INT, TEXT and BOOL.
 * @param {Template} template @param {Tuple} values
 */
export function bindsOf(template, values) {
    return values.filter((_, place) => template[place] instanceof Formal && template[place] !== ANY);
}

/** @param {string} what @param {unknown} time @param {number} [least] @returns {number} */
export function milliseconds(what, time, least = 0) {
    if (typeof time !== 'number' || !(time >= least && time <= Number.MAX_SAFE_INTEGER)) {
        throw new OutOfRange(`${what} is a number of milliseconds, ${least} or more: ${shown(time)}`);
    }
    return time;
}

/**
 * The options of a call, none of which has another name.
 * @param {unknown} options @param {string[]} names @returns {Record<string, any>}
 */
export function checkedOptions(options, names) {
    if (typeof options !== 'object' || options === null || Array.isArray(options)) {
        throw new OutOfRange(`the options are an object: ${shown(options)}`);
    }
    const wrong = Object.keys(options).find((name) => !names.includes(name));
    if (wrong !== undefined) throw new OutOfRange(`there is no option ${wrong}; there are ${names.join(', ')}`);
    return options;
}

/** @param {unknown} signal @returns {AbortSignal | null} */
export function checkedSignal(signal) {
    if (signal != null && !(signal instanceof AbortSignal)) throw new OutOfRange('the signal is an AbortSignal');
    if (signal != null) setMaxListeners(0, signal);     // one signal may end any number of calls, without a warning at the eleventh
    return signal ?? null;
}

/**
 * The limits of a call, which may have more options of these names.
 * @param {unknown} options @param {string[]} [more]
 * @returns {{ timeout: number | null, signal: AbortSignal | null }}
 */
export function checkedLimits(options, more = []) {
    const { timeout, signal } = checkedOptions(options, ['timeout', 'signal', ...more]);
    return { timeout: timeout == null ? null : milliseconds('a timeout', timeout), signal: checkedSignal(signal) };
}

/**
 * The whole numbers from `first` up to `end`, without it: some client numbers.
 * @param {number} first @param {number} end
 */
export function range(first, end) {
    return Array.from({ length: Math.max(0, end - first) }, (_, place) => first + place);
}

