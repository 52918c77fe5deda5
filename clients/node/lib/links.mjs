/** The connections of a space to its servers. */

import net from 'node:net';
import { NoConnection, OutOfRange } from './errors.mjs';
import { BadFrame, frames } from './frames.mjs';
import { MOST_FRAME, shown } from './limits.mjs';
import { within } from './values.mjs';

/** Milliseconds between two greetings: the first pause, doubled up to the longest. */
export const SHORTEST_PAUSE = 1, LONGEST_PAUSE = 50;

/**
 * A connection to this port of this machine, or to the unix socket at this path, perhaps not made yet.
 * @param {number | string} port
 */
export function connectTo(port) {
    if (typeof port === 'string') return net.connect({ path: port });
    return net.connect({ port, host: '127.0.0.1', noDelay: true });
}

/**
 * A port from 1 to 65,535, as a number or as in 'localhost:7000' or '127.0.0.1:7000', or the path of a unix socket: a
 * text with a slash in it. Throws OutOfRange for anything else.
 * @param {unknown} port @returns {number | string}
 */
export function checkedPort(port) {
    if (typeof port === 'string' && port.includes('/') && !port.includes('\0')) return port;
    const digits = typeof port === 'string' ? /^(?:localhost|127\.0\.0\.1):(\d{1,5})$/.exec(port)?.[1] : undefined;
    if (typeof port === 'string' && digits === undefined) {
        throw new OutOfRange(`a port is a number, 'localhost:7000', or the path of a unix socket, with a slash: ${shown(port)}`);
    }
    return Number(within('a port', digits === undefined ? port : Number(digits), 1, 65_535));
}

/**
 * The connection to a server: there is none, or it is being made, or the Hello is not answered, or it is up.
 *
 * - `isOver`: the stream has ended or failed. It is heard to its end before it counts as lost.
 * - `fresh`: how it is greeted next; `isNew`: whether the number was said to be one that was never used.
 * - `due`: when it will be made, if there is none; `pause`: how long after that it is tried again.
 * - `until`: when it has been away for too long; `busyUntil`: when Busy has been answered for too long, once it was.
 * - `lastSent`: the highest number that was handed to a stream that was up. No higher one can have been done.
 */
export class Link {
    /** @type {import('node:stream').Duplex | null} */
    stream = null;
    came = Buffer.alloc(0);             // what was read and not heard yet
    isOver = false;
    isMade = false;
    isUp = false;
    wasUp = false;
    wasTried = false;
    due = 0;
    pause = SHORTEST_PAUSE;
    /** @type {number | null} */
    busyUntil = null;
    lastSent = 0n;
    /**
     * Why the last stream could not be had, or ended.
     * @type {unknown}
     */
    fault = undefined;

    /** @param {number} server @param {number | string} port @param {boolean} fresh @param {number} until */
    constructor(server, port, fresh, until) {
        this.server = server;
        this.port = port;
        this.fresh = fresh;
        this.isNew = fresh;
        this.until = until;
    }

    /** That there is no connection, and why, if that is known. */
    noConnection() {
        return new NoConnection(this.server, this.port, this.fault === undefined ? undefined : { cause: this.fault });
    }

    /** The next reply that came whole. Throws BadFrame if there can be none. */
    reply() {
        if (this.came.length < 4) return null;
        const size = this.came.readUInt32BE();
        if (size < 1 || size > MOST_FRAME) throw new BadFrame(`a frame of ${size} bytes`);
        if (this.came.length < 4 + size) return null;
        const data = this.came.subarray(4, 4 + size);
        this.came = this.came.subarray(4 + size);
        const reply = frames.reply(data);
        if (!this.isUp && reply.kind !== 'welcome' && reply.kind !== 'refused') {
            throw new BadFrame('something else before the Welcome');
        }
        return reply;
    }
}

