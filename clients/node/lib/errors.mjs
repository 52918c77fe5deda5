/**
 * The errors of a space. Each is a SpaceError, and has a `code`: the name of its class, as a text that stays the same;
 * but the `code` of a Refused is the number of docs/PROTOCOL.md, and its `reason` the text.
 */

import { plain, REFUSALS, shown } from './limits.mjs';

/** What a `Space` throws. `pending` is what `Space.pending` is after it. */
export class SpaceError extends Error {
    /** @type {string} */
    static code = 'SpaceError';

    /** @param {string} text @param {{ cause?: unknown }} [more] */
    constructor(text, more) {
        super(text, more);
        this.name = new.target.name;
        /** @type {string | number} */
        this.code = new.target.code;
        /** @type {string | null} */
        this.pending = null;
    }
}

/** An argument is not within the limits, or is of another type. Nothing was sent, and the space is as before. */
export class OutOfRange extends SpaceError {
    static code = 'OutOfRange';
}

/**
 * A server refused: `server` is its number, `code` and `reason` say why, `detail` is what docs/PROTOCOL.md gives for that
 * code. `client` is the number of this client. Of `Space.outMany` it has `stored`: what was put, null in the place of
 * what was not.
 */
export class Refused extends SpaceError {
    static code = 'Refused';

    /** @param {number} server @param {number} code @param {bigint} detail @param {number} client */
    constructor(server, code, detail, client) {
        const reason = REFUSALS[code] || `code ${code}`;
        const why = reason === 'Busy' ? `, another connection has client number ${client}`
            : reason === 'Known' ? `, client number ${client} was used before`
            : reason === 'TooManyClients' ? ', it keeps as many client numbers as it can: use one again, of a range or of a file that stays' : '';
        super(`server ${server}: refused ${reason}, detail ${detail}${why}`);
        this.server = server;
        this.code = code;
        this.reason = reason;
        this.detail = plain(detail);
        this.client = client;
    }
}

/** What the errors of a stream mean. */
const REASONS = new Map([['ECONNREFUSED', 'refused'], ['ENOENT', 'no such file'], ['EACCES', 'not allowed'], ['EPERM', 'not allowed']]);

/**
 * The server `server`, at `port`, could not be reached at first, or could not be greeted for `patience` milliseconds.
 * `cause` is the error of its last stream, if that had one.
 */
export class NoConnection extends SpaceError {
    static code = 'NoConnection';

    /** @param {number} server @param {number | string} port @param {{ cause?: any }} [more] */
    constructor(server, port, more) {
        const why = more === undefined ? 'timed out' : REASONS.get(more.cause?.code) ?? String(more.cause?.message ?? more.cause);
        super(`server ${server}: no connection to ${typeof port === 'number' ? 'port ' : ''}${port}: ${why}`, more);
        this.server = server;
        this.port = port;
    }
}

/**
 * The time of a call is up, and something is not known: `servers` have not answered, or have no connection. Of a Pool,
 * with no `servers`: no member was free in time, and nothing was sent.
 */
export class TimedOut extends SpaceError {
    static code = 'TimedOut';

    /** @param {number[]} servers @param {string} [text] */
    constructor(servers, text = `the time is up, and there is no answer of server ${servers.join(', ')}`) {
        super(text);
        this.servers = servers;
    }
}

/** The signal of a call ended it; `cause` is the reason of the signal. */
export class Aborted extends SpaceError {
    static code = 'Aborted';

    /** @param {unknown} reason */
    constructor(reason) {
        super('the call was aborted', { cause: reason });
        this.name = 'AbortError';
    }
}

/**
 * The server `server` keeps `last` as the last number of this client, and has answered `answered` before: its folder is
 * an older one, as after a restored backup. What was answered in between is not there. All calls but `close` throw it
 * from now on.
 */
export class Restored extends SpaceError {
    static code = 'Restored';

    /** @param {number} server @param {bigint | number} last @param {bigint | number} answered */
    constructor(server, last, answered) {
        super(`server ${server}: restored, its last number is ${last}, and ${answered} was answered`);
        this.server = server;
        this.last = plain(BigInt(last));
        this.answered = plain(BigInt(answered));
    }
}

/** The server `server` sent what is no frame of a server. Its connection is ended; the next call greets it again. */
export class BadReply extends SpaceError {
    static code = 'BadReply';

    /** @param {number} server @param {string} fault */
    constructor(server, fault) {
        super(`server ${server}: ${fault}`);
        this.server = server;
    }
}

/**
 * Each of the client numbers is in use, or was given up, or, if `fresh` is set, was used before: give more of them. Or
 * the file of client numbers cannot be read or written.
 */
export class NoNumber extends SpaceError {
    static code = 'NoNumber';
}

/**
 * Another program uses the number of this client: the server `server` keeps `last` as its last number, and `answered`
 * was the last one that it has answered this program. Some of what this program sent may have got the reply to what
 * the other one sent, from then on. All calls but `close` throw it from now on.
 */
export class NumberInUse extends SpaceError {
    static code = 'NumberInUse';

    /** @param {number} server @param {bigint | number} last @param {bigint | number} answered @param {number} client */
    constructor(server, last, answered, client) {
        super(`server ${server}: number in use: another program uses client number ${client} `
            + `(its last number is ${last}, and ${answered} was expected)`);
        this.server = server;
        this.last = plain(BigInt(last));
        this.answered = plain(BigInt(answered));
        this.client = client;
    }
}

/**
 * What was held is not held any more, as after a lost connection, and was not taken: another client may have it.
 * `offers` are the holds that were lost, `offer` is the first of them, and `server` its server.
 */
export class Gone extends SpaceError {
    static code = 'Gone';

    /** @param {readonly import('./results.mjs').Offer[]} offers one at least */
    constructor(offers) {
        const [{ server, tuple }] = offers, more = offers.length > 1 ? ` (nor are ${offers.length - 1} more)` : '';
        super(`server ${server}: the tuple ${shown(tuple)} is not held any more, and was not taken${more}`);
        this.server = server;
        this.offers = offers;
    }

    get offer() {
        return this.offers[0];
    }
}

/** Something is pending after an error of an earlier call: see `Space.again`. Nothing was sent. */
export class Busy extends SpaceError {
    static code = 'Busy';
}

/** Nothing of that kind is pending. Nothing was sent, and the space is as before. */
export class Idle extends SpaceError {
    static code = 'Idle';
}

/** A number or a ticket would reach 2^63. Nothing was sent for it, and the space is as before. */
export class Spent extends SpaceError {
    static code = 'Spent';
}

/** This client has left, by `Space.leave`: there is nothing more that it can do. Nothing was sent. */
export class Left extends SpaceError {
    static code = 'Left';
}

/** The space was closed. */
export class Closed extends SpaceError {
    static code = 'Closed';
}

