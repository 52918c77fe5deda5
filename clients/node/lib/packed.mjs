/** JSON values as fields of a tuple. */

import { OutOfRange } from './errors.mjs';
import { MOST_FIELDS, MOST_TEXT, shown } from './limits.mjs';
import { PACKED_FIELDS, within } from './values.mjs';

/**
 * A JSON value as `fields` texts, 30 if nothing else is said; those that are not needed are empty. So a template has as
 * many places:
 *
 *     await space.out(['doc', 7, ...pack(value)]);
 *     unpack((await space.take(['doc', 7, ...PACKED])).slice(2));
 *     await space.out(['note', ...pack(value, 2)]);
 *     unpack((await space.take(['note', TEXT, TEXT])).slice(1));
 *
 * The value is what `JSON.stringify` takes, but no NaN and no infinite number. Its text is cut at the borders of
 * characters into texts of at most 4,095 bytes. If all is ASCII, 4,095 bytes for each field fit: 122,850 for 30. If
 * not, up to 3 bytes a cut are lost: 122,763 for 30 always fit.
 *
 * Throws OutOfRange if it is longer, if it is no JSON value, or if `fields` is not 1 to 32.
 * @param {unknown} value @param {number} [fields] @returns {string[]}
 */
export function pack(value, fields = PACKED_FIELDS) {
    const count = Number(within('a count of fields', fields, 1, MOST_FIELDS));
    let text;
    try {
        text = JSON.stringify(value, (_, part) => {
            if (typeof part === 'number' && !Number.isFinite(part)) throw new TypeError(`${part} is no number of JSON`);
            return part;
        });
    } catch (fault) {
        throw new OutOfRange(`no JSON value: ${/** @type {Error} */ (fault).message}`);
    }
    if (text === undefined) throw new OutOfRange(`no JSON value: ${shown(value)}`);
    const data = Buffer.from(text), texts = [];
    for (let at = 0; at < data.length;) {
        let end = Math.min(at + MOST_TEXT, data.length);
        while (end < data.length && (data[end] & 0xc0) === 0x80) end -= 1;
        texts.push(data.toString('utf8', at, end));
        at = end;
    }
    if (texts.length > count) {
        throw new OutOfRange(`a JSON value has ${data.length} bytes, and ${count} fields of ${MOST_TEXT} are too few`);
    }
    return [...texts, ...new Array(count - texts.length).fill('')];
}

/**
 * The JSON value that `pack` made these fields of. Throws OutOfRange if they are no texts, or make no JSON value.
 * @param {Iterable<import('./values.mjs').Value>} fields @returns {any}
 */
export function unpack(fields) {
    const texts = [...fields];
    if (!texts.every((text) => typeof text === 'string')) throw new OutOfRange('no packed value: not all are texts');
    try {
        return JSON.parse(texts.join(''));
    } catch (fault) {
        throw new OutOfRange(`no packed value: ${/** @type {Error} */ (fault).message}`);
    }
}

