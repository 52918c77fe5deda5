/** The limits of frames, of events and of clients (docs/PROTOCOL.md). */

export const VERSION = 2;
export const MOST_TEXT = 4_095;                // bytes of UTF-8 in a text
export const MOST_FIELDS = 32;                 // fields of a tuple, and patterns of a template, beside the tag
export const LEAST_INTEGER = -(1n << 63n), MOST_INTEGER = (1n << 63n) - 1n;
export const MOST_FRAME = 262_144;             // bytes of a frame after its length
export const NUMBER_LIMIT = 1n << 63n;         // numbers of messages and tickets stay below it
export const MOST_CLIENT = 2 ** 32 - 1;
export const MOST_SERVERS = 16;
export const MOST_DEPTH = 64;                  // choices, labels and nacks above a leaf of an event
export const MOST_BASES = 256;                 // leaves of an event
export const MOST_ASKS = 64;                   // leaves of an event that are inputs or reads; open asks of a client
export const MOST_LABEL = (1n << 64n) - 1n;    // labels, nack numbers, and the times of alarms
export const MOST_UNDER_WAY = 64;              // numbered messages that are not answered yet
export const LONGEST_TIMER = 2 ** 31 - 1;      // milliseconds
const MOST_SHOWN = 200;                        // characters of a value in the text of an error

/** The names of the codes of a Refused. */
export const REFUSALS = ['', 'Version', 'Known', 'Busy', 'Old', 'Gap', 'Full', 'TooManyClients', 'Down', 'Malformed',
    'TooManyAsks', 'Left', 'NoHello'];
/** How a server refuses a numbered message: it is not done then. */
export const JUDGED = ['Old', 'Gap', 'Full', 'TooManyClients', 'Left'];

/**
 * An integer of 64 bits as a number, if that is exact.
 * @param {bigint} integer @returns {number | bigint}
 */
export function plain(integer) {
    return integer >= Number.MIN_SAFE_INTEGER && integer <= Number.MAX_SAFE_INTEGER ? Number(integer) : integer;
}

/**
 * Any value as a text of `most` characters at most.
 * @param {unknown} value @param {number} [most] @returns {string}
 */
export function shown(value, most = MOST_SHOWN) {
    let text;
    try {
        text = spelled(value, most);
    } catch {
        text = `a value of type ${typeof value} that has no text`;
    }
    return text.length <= most ? text : `${text.slice(0, most - 2).replace(/[\ud800-\udbff]$/, '')}..`;
}

/**
 * The same, longer perhaps; of an array no more than is needed.
 * @param {unknown} value @param {number} most @returns {string}
 */
function spelled(value, most) {
    if (most < 0) return '..';
    if (Array.isArray(value)) {
        let text = '[';
        for (let place = 0; place < value.length && text.length <= most; place += 1) {
            text += (place > 0 ? ', ' : '') + spelled(value[place], most - text.length);
        }
        return `${text}]`;
    }
    if (typeof value === 'string') return JSON.stringify(value.slice(0, most + 1));
    if (typeof value === 'bigint') return BigInt.asIntN(1_024, value) === value ? `${value}n` : 'a bigint of more than 1,024 bits';
    return String(value);
}

/** The names of what ends with a block, if the language has them. */
export const DISPOSE = /** @type {any} */ (Symbol).dispose ?? Symbol('dispose');
export const ASYNC_DISPOSE = /** @type {any} */ (Symbol).asyncDispose ?? Symbol('asyncDispose');
