/** A space: a client of servers, over its connections. */

import path from 'node:path';
import {
    Aborted, BadReply, Closed, Gone, Idle, NoNumber, NumberInUse, OutOfRange, Refused, Restored, SpaceError, TimedOut,
} from './errors.mjs';
import { Alarm, checkedEvent, Choose, In, Rd } from './events.mjs';
import { BadFrame, frames, numberOf } from './frames.mjs';
import { insides, turned } from './inside.mjs';
import {
    ASYNC_DISPOSE, DISPOSE, LONGEST_TIMER, MOST_CLIENT, MOST_SERVERS, REFUSALS, shown,
} from './limits.mjs';
import { checkedPort, connectTo, Link, LONGEST_PAUSE, SHORTEST_PAUSE } from './links.mjs';
import { keyOfFile, keyOfPorts, lockOf } from './locks.mjs';
import { Machine, Taken } from './machine.mjs';
import { Notes } from './notes.mjs';
import { addNumber, defaultFile, drawnNumber, makeFolder, numbersOf, stateFolder } from './numbers.mjs';
import { Queue } from './queue.mjs';
import { Kept, Offer, Outcome, Stored } from './results.mjs';
import { Many, OutTrain, TakeTrain } from './trains.mjs';
import {
    checkedLimits, checkedOptions, checkedTemplate, checkedTuple, milliseconds, within,
} from './values.mjs';
import { worked } from './work.mjs';

/**
 * @typedef {import('./values.mjs').Value} Value
 * @typedef {import('./values.mjs').Pattern} Pattern
 * @typedef {import('./values.mjs').Tuple} Tuple
 * @typedef {import('./values.mjs').Template} Template
 * @typedef {import('./values.mjs').Values} Values
 * @typedef {import('./values.mjs').Patterns} Patterns
 * @typedef {import('./values.mjs').Limits} Limits
 * @typedef {import('./events.mjs').SpaceEvent} SpaceEvent
 * @typedef {import('./machine.mjs').Ended} Ended
 * @typedef {import('./machine.mjs').Ways} Ways
 * @typedef {import('./machine.mjs').Sync} Sync
 * @typedef {import('./trains.mjs').Put} Put
 * @typedef {import('./work.mjs').WorkOptions} WorkOptions
 *
 * `client`: see `Space.connect`, and `numbers`, `fresh`, `patience`, `connect`, `clock`.
 * @typedef {{ client?: number | readonly number[], numbers?: string, fresh?: boolean, patience?: number,
 *     connect?: (port: any) => any, clock?: () => number }} ConnectOptions
 *
 * `keep`: the milliseconds after which the library says, again and again, that this client is at work.
 * @typedef {Limits & { keep?: number | null }} HoldOptions
 *
 * `count`: how many are taken at most.
 * @typedef {Limits & { count: number }} TakeManyOptions
 *
 * What is chosen, if its kind is known.
 * @typedef {{ tuple: Tuple, server: number, id: number | bigint }} Found
 * @typedef {{ tuple: null, server: null, id: null }} NotFound
 * @typedef {Outcome & ({ kind: 'took' } & Found | { kind: 'read' } & Found
 *     | { kind: 'alarm' } & NotFound | { kind: 'always' } & NotFound)} Chosen
 *
 * @typedef {{ timeout: number | null, signal: AbortSignal | null }} CallLimits
 *
 * Numbers that another program of this machine has, those that only a server says are in use, and why a new one is not to be had.
 * @typedef {{ claimed: number[], busy: number[], full: Refused | null }} Passed
 */

/** @template T @typedef {import('./values.mjs').Matched<T>} Matched */
/** @template T @typedef {import('./values.mjs').Whole<T>} Whole */
/** @template T, L @typedef {import('./values.mjs').Timed<T, L>} Timed */
/** @template T, O @typedef {import('./values.mjs').Only<T, O>} Only */

const MADE_BY_CONNECT = Symbol('made by Space.connect');
const PATIENCE = 10_000;                // milliseconds for which a server may be away or owe an answer
const BUSY_PATIENCE = 2_000;            // at most, for which a number may be in use by a connection that has ended
const MOST_DRAWS = 64;                  // new numbers that are tried
const BUSY_PASSES = 3;                  // how often several numbers are gone through if some are in use
const RENEWED_EVERY = 500;              // milliseconds, while a call waits
const OPTIONS = ['client', 'numbers', 'fresh', 'patience', 'connect', 'clock'];
/**
 * A space as `Space.connect` makes it, but under none of these numbers.
 * @type {(ports: readonly (number | string)[], options: ConnectOptions, others: ReadonlySet<number>) => Promise<Space>}
 */
export let connectedBut;

/**
 * Throws OutOfRange if these are no ports, or no options of `Space.connect`.
 * @param {any} ports @param {any} options
 */
export function checkedSpace(ports, options) {
    return new Space(MADE_BY_CONNECT, ports, options);
}

const NO_LIMITS = { signal: null };

/**
 * A client of servers, numbered 0, 1, .. in the order of their ports. `Space.connect` makes one; call `close` at the
 * end.
 *
 * **Time.** A call waits for as long as its `timeout` says, without end if there is none; then TimedOut says which
 * servers did not answer. A server that cannot be greeted for `patience` throws NoConnection earlier than that, if the
 * call needs it. `patience` also bounds what must come at once: the answer to a Hello, and what is still to be known
 * when the time of a `take`, `read`, `choose` or `hold` is up. So a call ends `patience` after its `timeout` at the
 * latest. A `signal` ends a call at any time with Aborted.
 *
 * **One call after another**: a call beside another waits until those before it have ended, first in, first out; its
 * `timeout` begins then, and its `signal` ends it earlier too. So a `take` that waits for long makes the others wait:
 * use a Pool, or a space for each. `close`, `abandon`, `Offer.renew` and `Offer.release` do not wait.
 *
 * **A hold that is lost** is said once: the next call of the space throws Gone, with `offers`, before anything is sent;
 * so does a call that waits for a tuple at that moment, and is over then. An `out`, `outMany`, `takeMany`, `purge`,
 * `accept`, `leave` or `lastReply` under way goes on, and the call after it throws. `accept` and `again` say nothing of
 * other holds. While a call waits, the library renews what is held every half second.
 *
 * **After an error**:
 *
 * - `take`, `read`, `look`, `choose`, `sync`, `hold` are over, and no server holds anything for them. Only if a tuple
 *   was just being taken `pending` is 'sync': the next call waits for the answer first, for `patience` at most. A tuple
 *   that was taken so is not lost: the next `take`, `choose` or `sync` with an input that it fits gets it, or `again`.
 *   So a loop may simply call again.
 * - `out`, `outMany`, `leave`, `lastReply` and `Offer.accept` are pending, unless their server refused them: they may
 *   be done or not, and that cannot be undone. `again` sends them again, under their number, and returns how they
 *   ended. Nothing is done twice by that. Other calls throw Busy until then.
 * - `takeMany` and `purge` are over, and the error has what was `taken`. Only if takes are unanswered they are pending,
 *   and `again` returns what was taken in all.
 *
 * After `leave` all but `close` throw Left.
 */
export class Space {
    #ports;
    #patience;
    #connect;
    #now;
    /** @type {Machine} */
    #machine;
    /** @type {Link[]} */
    #links = [];
    #isClosed = false;
    #isCalled = false;
    /**
     * What ended all.
     * @type {Restored | NumberInUse | null}
     */
    #broken = null;
    /**
     * What lets the calls begin that wait for those before them.
     * @type {Queue<() => void>}
     */
    #queue = new Queue();
    #renewed = 0;                       // when what is held was last renewed, or was asked for
    /** @type {WeakMap<Offer, NodeJS.Timeout>} */
    #keepers = new WeakMap();
    /**
     * What else hears that an offer is over.
     * @type {WeakMap<Offer, () => void>}
     */
    #hearers = new WeakMap();
    /** @type {number | null} */
    #late = null;
    /** @type {{ isDone: () => boolean, until: number, isWaiting: boolean, end: (fault: unknown) => void } | null} */
    #waiter = null;
    /** @type {NodeJS.Timeout | undefined} */
    #timer;
    #isSoon = false;
    #key = '';                          // for what is kept of its number on this machine
    /** @type {Notes | null} */
    #notes = null;
    /**
     * That of its number, if that was chosen among several.
     * @type {import('./locks.mjs').Lock | null}
     */
    #lock = null;

    /**
     * Greets each server.
     *
     * - `ports`: 1 to 16 ports of this machine, from 1 to 65,535, each a number or as in 'localhost:7000', or paths of
     *   unix sockets, each a text with a slash in it. An earlier life of this client gave the same servers in the same
     *   order.
     * - `client`: the number of this client, from 0 to 2^32 - 1. No two programs use one number at the same time.
     * - Or several numbers, as `range(100, 200)`, all of which are tried, by one greeting each. Those that another
     *   connection has, or that were given up by `leave`, are passed over. One whose last reply at some server is that
     *   it took a tuple is taken first: it may have a job in hand, see `lastReply`. Else the first that is free. With
     *   `fresh` it is the first that was never used.
     * - Or left out: the numbers are those of a file of this program, which are all tried so. If none is free a new one
     *   is drawn from 2^31 to 2^32 - 1, and added to the file. `numbers` is its path; if it is not given, it is a file
     *   for the path of the program, in the folder $LINDA_STATE, $XDG_STATE_HOME/linda or ~/.local/state/linda.
     * - On Linux no other program of this machine gets a number of the same file, or of several for the same ports,
     *   until this space is closed, also while a server is away (`lib/locks.mjs`). Else, and for one number that is
     *   given, only the servers know which numbers are in use: those that have a connection.
     * - `fresh`: this number was never used, and a server that knows it refuses it. If it is not set numbers go on
     *   after those of an earlier life of this client, if there was one: see `lastReply`.
     * - `patience`: milliseconds, 10,000 if nothing else is said.
     * - `connect`: makes a stream to a port or path, with TLS perhaps (a `tls.TLSSocket`), or throws. `clock`:
     *   milliseconds, which never fall; those since the beginning, if it is not given.
     *
     * A server keeps 65,536 client numbers at most, for good, those that left among them; `leave` does not free a
     * place. Programs that come and go share a range, or have a file.
     *
     * Throws NoConnection if nobody listens at a port or path, or this user may not connect, or no Hello is answered in
     * `patience`, Refused if a server refuses (Busy: another connection has this number; Known, TooManyClients,
     * Version), NoNumber if none of several numbers is free, or the file cannot be read or written. A server may
     * need some milliseconds to see that an earlier connection ended: Busy is tried again for two seconds, or
     * `patience` if that is less, but not with `fresh`; of several numbers only if no other one is free. After an error
     * nothing is connected.
     *
     * @param {readonly (number | string)[]} ports @param {ConnectOptions} [options]
     * @returns {Promise<Space>}
     */
    static async connect(ports, options = {}) {
        return connectedBut(ports, options, new Set());
    }

    static {
        connectedBut = async (ports, options, others) => {
            const checked = new Space(MADE_BY_CONNECT, ports, options), { numbers, fresh = false } = options, client = checkedNumbers(options);
            const file = client === undefined ? numbers ?? defaultFile() : null;
            const key = file === null ? keyOfPorts(checked.#ports) : keyOfFile(file);
            const make = () => {
                const space = new Space(MADE_BY_CONNECT, ports, options);
                space.#key = key;
                return space;
            };
            if (typeof client === 'number') {
                const space = make();
                await space.#greetOrClose(client, fresh, false);
                return space;
            }
            const all = client ?? await numbersOf(/** @type {string} */ (file));
            const found = await firstOf(make, all.filter((number) => !others.has(number)), fresh, checked.#patience);
            if (found !== null) return found;
            if (file !== null) return drawn(make, file);
            throw new NoNumber(`none of the client numbers from ${all[0]} to ${all.at(-1)} is to be had: each is in use, or was given up; give more of them`);
        };

        /**
         * A space under a new number, which is added to that file.
         * @param {() => Space} make @param {string} file
         */
        const drawn = async (make, file) => {
            for (let draws = 1; ; draws += 1) {
                const space = make(), number = drawnNumber();
                if (!await space.#locks(number)) continue;
                try {
                    await space.#greetOrClose(number, true, false);
                    await addNumber(file, number);
                    return space;
                } catch (fault) {
                    space.close();
                    if (!isTaken(fault)) throw fault;
                    if (draws === MOST_DRAWS) throw new NoNumber(`none of ${draws} new client numbers is to be had: is this the right server?`);
                }
            }
        };

        /**
         * A space under one of these numbers, or null. Those that another program of this machine has are tried some
         * times more, for it may only look for a number so too; those that only a server says are in use, for longer, for
         * it may not have seen that a connection ended.
         * @param {() => Space} make @param {readonly number[]} numbers @param {boolean} fresh @param {number} patience
         */
        const firstOf = async (make, numbers, fresh, patience) => {
            const until = performance.now() + (fresh ? 0 : Math.min(BUSY_PATIENCE, patience));
            /** @type {Refused | null} */
            let full = null;
            let left = numbers;
            for (let pass = 1; ; pass += 1) {
                /** @type {Passed} */
                const passed = { claimed: [], busy: [], full };
                const found = await firstNow(make, left, fresh, passed);
                if (found !== null) return found;
                const isSoon = pass < BUSY_PASSES;
                left = [...(isSoon ? passed.claimed : []), ...(isSoon || performance.now() < until ? passed.busy : [])];
                ({ full } = passed);
                if (left.length === 0 && full !== null) throw full;
                if (left.length === 0) return null;
                await new Promise((resolve) => { setTimeout(resolve, 20 + 60 * Math.random()); });
            }
        };

        /**
         * The same, once: the first whose last reply is Taken, else the first that is free. It has at most two connections
         * to a server at once.
         * @param {() => Space} make @param {readonly number[]} numbers @param {boolean} fresh @param {Passed} passed
         */
        const firstNow = async (make, numbers, fresh, passed) => {
            /** @type {Space | null} */
            let best = null;
            try {
                for (const number of numbers) {
                    const space = make();
                    if (!await space.#locks(number)) {
                        passed.claimed.push(number);
                        continue;
                    }
                    const state = await space.#stateOf(number, fresh);
                    if (state === 'busy') passed.busy.push(number);
                    if (state instanceof Refused) passed.full = state;
                    if (state === 'taken' || state === 'new' && fresh) {
                        best?.close();
                        return space;
                    }
                    if (best === null && (state === 'new' || state === 'used')) best = space;
                    else space.close();
                }
                return best;
            } catch (fault) {
                best?.close();
                throw fault;
            }
        };
    }

    /**
     * Whether no other space on this machine has this number, as far as is known; this one has it from now on.
     * @param {number} number
     */
    async #locks(number) {
        const lock = await lockOf(this.#key, number);
        if (lock === 'held') return false;
        this.#lock = lock;
        return true;
    }

    /**
     * Greets each server under this number, and asks how it was used. If it is in use, was given up, or with `fresh`
     * was used, there is no connection afterwards; nor if it is new and a server has no place for it, which is returned.
     * @param {number} number @param {boolean} fresh @returns {Promise<'busy' | 'over' | 'taken' | 'new' | 'used' | Refused>}
     */
    async #stateOf(number, fresh) {
        try {
            await this.#greetOrClose(number, fresh, true);
        } catch (fault) {
            if (fault instanceof Refused && fault.reason === 'TooManyClients') return fault;
            if (isTaken(fault)) return fault.reason === 'Busy' ? 'busy' : 'over';
            throw fault;
        }
        try {
            const kinds = [];
            for (const link of this.#links) kinds.push(await this.#kindAt(link));
            if (!kinds.includes('left')) {
                return kinds.includes('taken') ? 'taken' : kinds.every((kind) => kind === undefined) ? 'new' : 'used';
            }
        } catch (fault) {
            this.close();
            throw fault;
        }
        this.close();
        return 'over';
    }

    /**
     * The kind of the last reply of a server that answered the Hello, and may do no more.
     * @param {Link} link
     */
    async #kindAt(link) {
        try {
            return (await this.lastReply(link.server, { timeout: this.#patience }))?.kind;
        } catch (fault) {
            throw fault instanceof TimedOut ? link.noConnection() : fault;
        }
    }

    /** @param {number} number @param {boolean} fresh @param {boolean} isShared */
    async #greetOrClose(number, fresh, isShared) {
        try {
            await this.#greet(number, fresh, isShared);
        } catch (fault) {
            this.close();
            throw fault;
        }
    }

    /**
     * Not to be called: `Space.connect` makes a space.
     * @param {symbol} by @param {readonly (number | string)[]} ports @param {ConnectOptions} options
     */
    constructor(by, ports, options) {
        if (by !== MADE_BY_CONNECT) throw new TypeError('a space is made by Space.connect');
        if (!Array.isArray(ports) || ports.length < 1 || ports.length > MOST_SERVERS) {
            throw new OutOfRange(`the servers are 1 to ${MOST_SERVERS} ports, in an array: ${shown(ports)}`);
        }
        const given = checkedOptions(options, OPTIONS), begin = performance.now();
        checkedNumbers(given);
        this.#ports = Array.from(ports, checkedPort);
        if (new Set(this.#ports).size < ports.length) {
            throw new OutOfRange(`a server is there twice, and has one connection of a number: ${shown(ports)}`);
        }
        this.#patience = milliseconds('the patience', given.patience ?? PATIENCE, SHORTEST_PAUSE);
        this.#connect = given.connect ?? connectTo;
        this.#now = given.clock ?? (() => Math.floor(performance.now() - begin));
        this.#machine = this.#newMachine(0);
        insides.set(this, {
            call: (begin, limits, ways) => this.#call(begin, limits, ways),
            machine: () => this.#machine,
            finish: (timeout) => this.#finishPending(timeout),
            isOver: () => this.#isClosed || this.#broken !== null || this.#machine.hasLeft,
            onOver: (offer, hear) => this.#hearers.set(offer, hear),
            patience: this.#patience,
            keep: (offer, every) => this.#keepUp(offer, every),
            notes: async () => {
                const folder = stateFolder();
                await makeFolder(folder).catch(() => {});       // what is wrong is seen then
                this.#notes ??= new Notes(path.join(folder, `${this.#key}-${this.client}.job`), this.#ports);
                return this.#notes;
            },
        });
    }

    /** @param {number} client */
    #newMachine(client) {
        return new Machine(client, this.#ports.length, {
            accept: (offer, limits) => this.#accept(offer, limits),
            renew: (offer) => this.#renew(offer),
            release: (offer) => this.#release(offer),
            isHeld: (offer) => this.#isHeld(offer),
            end: (offer) => this.#end(offer),
            hear: turned,
            ended: (offer, isOver) => this.#ended(offer, isOver),
        });
    }

    /**
     * Greets each server; under a shared number the first one before the others, and that only once.
     * @param {number} client @param {boolean} fresh @param {boolean} isShared
     */
    async #greet(client, fresh, isShared) {
        const until = performance.now() + this.#patience;
        this.#machine = this.#newMachine(client);
        this.#links = this.#ports.map((port, server) => new Link(server, port, fresh, until));
        const [first, ...others] = this.#links;
        if (isShared) {
            for (const link of others) link.due = link.until = Infinity;
            first.busyUntil = 0;
            await this.#wait(() => first.wasUp, NO_LIMITS);
            for (const link of others) {
                link.due = 0;
                link.until = performance.now() + this.#patience;
            }
        }
        await this.#wait(() => this.#links.every((link) => link.wasUp), NO_LIMITS);
    }

    /**
     * Ends all connections, and waits for nothing. What was stored and taken stays so; what is pending at the servers
     * is over, and what they hold for this client is free again. Calls that have not ended throw Closed. It may be
     * called twice, and while the space is in a call.
     */
    close() {
        this.#isClosed = true;
        this.#finish(new Closed('the space was closed'));
        for (const link of this.#links) this.#letGo(link);
        this.#lock?.release();
        this.#lock = null;
        this.#notes?.close();
    }

    [DISPOSE]() {
        this.close();
    }

    async [ASYNC_DISPOSE]() {
        this.close();
    }

    // ---- what one asks for

    /** The number of this client. */
    get client() {
        return this.#machine.client;
    }

    /**
     * Puts a tuple, and returns its server and its id there, once it is stored for good. The j-th call of this space,
     * from 0, goes to server (c + j) mod S, in which c is the client's number and S the count of servers; the others need
     * not be there.
     *
     * Throws OutOfRange, Busy, Spent: nothing was sent. Refused with Full, TooManyClients, Gap, Old or Left: it was not
     * put, and nothing is pending (Gap and Old say that another program used this client's number; with Old it may have
     * been put before that; Left that an earlier life of this client left). Restored: it is not there. NoConnection,
     * TimedOut, and all others: it may have been put or not, and is pending.
     * @template {Values} T @template {Limits} [L={}]
     * @param {T & Whole<T>} tuple @param {Only<L, Limits>} [limits] @returns {Promise<Stored>}
     */
    async out(tuple, limits = /** @type {any} */ ({})) {
        const checked = checkedTuple(tuple), given = checkedLimits(limits);
        return /** @type {Stored} */ (await this.#call((machine) => machine.out(checked), given));
    }

    /**
     * Puts these tuples, in order, each as `out` does, up to 64 of them under way at once. It returns the place of each of
     * them, once all are stored for good: `id` is null if one was stored and the answer was lost with a connection.
     *
     * Throws as `out` does. If a server refuses one, the answers to those under way are waited for, nothing more is
     * sent, and the Refused has `stored`: the same list, null in the place of what was not put. NoConnection, TimedOut,
     * and all others: 'outMany' is pending, and `again` goes on and returns the list.
     * @template {Values} T @template {Limits} [L={}]
     * @param {readonly (T & Whole<T>)[]} tuples @param {Only<L, Limits>} [limits] @returns {Promise<Put[]>}
     */
    async outMany(tuples, limits = /** @type {any} */ ({})) {
        if (!Array.isArray(tuples)) throw new OutOfRange(`the tuples are an array of arrays: ${shown(tuples)}`);
        const checked = Array.from(tuples, checkedAt), given = checkedLimits(limits);
        const ended = await this.#call((machine) => machine.outMany(checked), given);
        return /** @type {Put[]} */ (listOf(ended));
    }

    /**
     * Takes a tuple that matches away, and returns it, tag first; waits until there is one. Null if in `timeout` all
     * servers were there and none had one; with 0 it is one that is there now, or null.
     *
     * Throws as `choose` does.
     * @template {Patterns} T @template {Limits} [L={}]
     * @param {T & Whole<T>} template @param {Only<L, Limits>} [limits] @returns {Promise<Timed<Matched<T>, L>>}
     */
    async take(template, limits = /** @type {any} */ ({})) {
        return /** @type {any} */ (await this.#found([In(...checkedTemplate(template))], limits));
    }

    /**
     * Takes one tuple after another that matches, as `take` does: for `for await (const tuple of space.takes(..))`. It
     * ends if none was there in `timeout`. A tuple is taken when the loop asks for it, not before.
     *
     * Throws as `take` does.
     * @template {Patterns} T @template {Limits} [L={}]
     * @param {T & Whole<T>} template @param {Only<L, Limits>} [limits]
     * @returns {AsyncGenerator<Matched<T>, void, undefined>}
     */
    async* takes(template, limits = /** @type {any} */ ({})) {
        const checked = checkedTemplate(template);
        for (;;) {
            const tuple = await this.#found([In(...checked)], limits);
            if (tuple === null) return;
            yield /** @type {any} */ (tuple);
        }
    }

    /**
     * Takes tuples that match and are there now, `count` at most, up to 64 under way at once, from one server after
     * another, and returns them, tag first. Those that a failed call took and that match are the first. It waits for
     * answers only.
     *
     * If the program is killed meanwhile, what it took is gone, but for the last one at each server (`lastReply`): not
     * for jobs.
     *
     * Throws as `out` does, with `taken`: the tuples that are known to be taken. Nothing is pending then, but if takes
     * are unanswered 'takeMany' is, and `again` returns all that was taken.
     * @template {Patterns} T @template {TakeManyOptions} [L=TakeManyOptions]
     * @param {T & Whole<T>} template @param {Only<L, TakeManyOptions>} options @returns {Promise<Matched<T>[]>}
     */
    async takeMany(template, options) {
        const given = checkedLimits(options, ['count']), checked = checkedTemplate(template);
        const count = Number(within('a count', options.count, 0, Number.MAX_SAFE_INTEGER));
        return /** @type {any} */ (await this.#takeMany('takeMany', checked, count, given));
    }

    /**
     * Takes all tuples that match and are there now, as `takeMany` does, keeps none, and returns how many there were.
     *
     * Throws as `takeMany`, with how many were taken as `taken`; 'purge' may be pending.
     * @template {Patterns} T @template {Limits} [L={}]
     * @param {T & Whole<T>} template @param {Only<L, Limits>} [limits] @returns {Promise<number>}
     */
    async purge(template, limits = /** @type {any} */ ({})) {
        const given = checkedLimits(limits), checked = checkedTemplate(template);
        return /** @type {any} */ (await this.#takeMany('purge', checked, Infinity, given));
    }

    /**
     * A copy of a tuple that matches, which stays; else as `take`.
     * @template {Patterns} T @template {Limits} [L={}]
     * @param {T & Whole<T>} template @param {Only<L, Limits>} [limits] @returns {Promise<Timed<Matched<T>, L>>}
     */
    async read(template, limits = /** @type {any} */ ({})) {
        return /** @type {any} */ (await this.#found([Rd(...checkedTemplate(template))], limits));
    }

    /**
     * A copy of a tuple that matches and that some server has now, held or not; null if all have answered that they
     * have none. It waits for nothing else: at most `timeout`, and at most `patience`, for a server that does not
     * answer.
     *
     * Throws as `choose` does.
     * @template {Patterns} T @template {Limits} [L={}]
     * @param {T & Whole<T>} template @param {Only<L, Limits>} [limits] @returns {Promise<Matched<T> | null>}
     */
    async look(template, limits = /** @type {any} */ ({})) {
        const base = Rd(...checkedTemplate(template)), given = checkedLimits(limits);
        const event = () => Choose(base, this.after(0));
        return /** @type {any} */ ((await this.#sync(event, { hasLimit: true, isPoll: true }, given)).tuple);
    }

    /**
     * Waits until one of the branches is chosen, each an event: `In('job', INT).wrap(5)`, `Rd('stop').nack(9)`. After
     * `timeout` each server is asked whether it has seen all of it; if all have, and nothing was chosen, the outcome
     * has the kind 'alarm', and all nack numbers are raised.
     *
     * Throws as `sync` does, and TimedOut if a server has no connection when the time is up, or does not answer then
     * for `patience`.
     * @template {Limits} [L={}]
     * @param {readonly SpaceEvent[]} branches @param {Only<L, Limits>} [limits] @returns {Promise<Chosen>}
     */
    async choose(branches, limits = /** @type {any} */ ({})) {
        const { timeout, signal } = checkedLimits(limits);
        if (!Array.isArray(branches)) throw new OutOfRange(`the branches are an array of events: ${shown(branches)}`);
        const checked = Choose(...branches), none = { timeout: null, signal };
        if (timeout === null) return this.#sync(() => checked, {}, none);
        const event = () => Choose(...branches, this.after(timeout));
        return this.#sync(event, { hasLimit: true, isPoll: timeout === 0 }, none);
    }

    /**
     * Waits until a base of the event is chosen. A base that is ready at once is chosen first, and then no server is
     * asked. Else all servers are asked for all inputs and reads, and at most one of them is chosen. An alarm is chosen
     * at its time, whether servers are there or not; but while a server is asked to hand a tuple over none is, and
     * after `patience` of that TimedOut is thrown.
     *
     * Throws OutOfRange (an event with a leaf under more than 64 nodes, more than 256 bases or 64 inputs and reads),
     * Busy, Spent before it began: nothing was sent. NoConnection, TimedOut, and all others: it is over (see the
     * class).
     * @param {SpaceEvent} event @param {{ signal?: AbortSignal | null }} [limits] @returns {Promise<Chosen>}
     */
    async sync(event, limits = {}) {
        const { signal } = checkedLimits(checkedOptions(limits, ['signal']));
        checkedEvent(event);
        return this.#sync(() => event, {}, { timeout: null, signal });
    }

    /**
     * Waits until a tuple that matches is held for this client, which nobody else is offered meanwhile, and which is
     * not taken. Null if none was there in `timeout`, as `take` does.
     *
     *     const offer = await space.hold(['job', INT], { timeout: 60_000 });
     *     try {
     *         await workOn(offer.tuple);          // other calls of the space may be made here
     *         await offer.accept();               // takes it; or throws Gone
     *     } finally {
     *         offer.release();                    // what was not accepted is free again
     *     }
     *
     * What is held is lost with its connection, as by the end of this program, or of the server, or of the server's
     * lease: then another client may have it, and the next call throws Gone (see the class). Each hold counts to the 64
     * that a client may ask for at once.
     *
     * `keep`: the library says every `keep` milliseconds that this client is at work, until the offer is accepted,
     * released or lost. Work that does not let other events run meanwhile does not let that run.
     *
     * Throws as `choose` does.
     * @template {Patterns} T @template {HoldOptions} [L={}]
     * @param {T & Whole<T>} template @param {Only<L, HoldOptions>} [options]
     * @returns {Promise<Timed<Offer<Matched<T>>, L>>}
     */
    async hold(template, options = /** @type {any} */ ({})) {
        const base = In(...checkedTemplate(template)), keep = keepOf(options);
        const { timeout, signal } = checkedLimits(options, ['keep']);
        const event = () => (timeout === null ? base : Choose(base, this.after(timeout)));
        const ways = { hasLimit: timeout !== null, isPoll: timeout === 0, isHold: true };
        const begin = (/** @type {Machine} */ machine) => machine.sync(event(), ways);
        const ended = await this.#call(begin, { timeout: null, signal }, { isWaiting: true });
        if (!(ended instanceof Offer)) return /** @type {any} */ (null);
        if (keep !== null) this.#keepUp(ended, keep);
        return /** @type {any} */ (ended);
    }

    /**
     * Holds a tuple that matches, as `hold` does, calls the function with the offer, or with null if none was there in
     * `timeout`, and returns what it returns. At the end what was not accepted is free again.
     *
     *     await space.holding(['lock'], {}, async (offer) => {
     *         await workOn(..);                   // other calls of the space may be made here
     *         await offer.accept();               // takes it; else it is free again
     *     });
     *
     * Throws what the function throws; Gone if the hold was lost, no call has said so, and the function threw nothing;
     * else as `hold`.
     * @template {Patterns} T @template {HoldOptions} L @template R
     * @param {T & Whole<T>} template @param {Only<L, HoldOptions>} options
     * @param {(offer: Timed<Offer<Matched<T>>, L>) => Promise<R> | R} work @returns {Promise<R>}
     */
    async holding(template, options, work) {
        if (typeof work !== 'function') throw new OutOfRange(`no function: ${shown(work)}`);
        const offer = /** @type {any} */ (await this.hold(/** @type {any} */ (template), /** @type {any} */ (options)));
        let result;
        try {
            result = await work(offer);
        } catch (fault) {
            offer?.release();
            throw fault;
        }
        await offer?.[ASYNC_DISPOSE]();
        return result;
    }

    /**
     * The loop of a worker: holds a tuple that matches, a job, calls the function with it, puts what it returns, and
     * takes the job away last. So a kill at any moment loses nothing: the job is free again. At worst a job whose
     * result was put is done once more. It returns how many jobs were done.
     *
     *     process.exitCode = await space.work(['job', INT], async ([, n]) => ['done', n, n * n]) > 0 ? 0 : 1;
     *
     * - `template`: an array, or an In, or several In, the first of which goes first. The function returns nothing, a
     *   tuple, or an array of tuples; anything else, and a value that is out of range, is an error of the function. If
     *   the hold was lost meanwhile its result is not put, for another worker has the job.
     * - `tries`: one pattern of the template is TRIES, which fits how often a job failed, 0 at first. A job whose
     *   function throws stays held for `delay` * 2 ** failed milliseconds (1,000 if nothing else is said), while other
     *   jobs are done, and is then put again with that count + 1. If that is `tries`, it is put at once as `[dead,
     *   ...the job with its tag and its count, 'Error: text']` instead; `dead` is 'dead' if nothing else is said. So a
     *   job has 30 fields at most. At most 32 jobs wait so; then the oldest is waited for. If `tries` is not given,
     *   what the function throws ends the work, and the job is free again.
     * - With `tries` a job that ends its worker has failed too, with the text 'the worker ended': the next work under
     *   this number learns of it by a file in the folder for the numbers of a program (`lib/notes.mjs`). So the number
     *   and that folder stay the same.
     * - `limit`: milliseconds for the function; after them the job has failed, with the text 'the limit of 5 s', and
     *   what the function comes to does not matter any more.
     * - `stop`: an Rd; `signal`: an AbortSignal. The work ends once there is such a tuple, once the signal is aborted,
     *   or on SIGTERM (which no worker of `worker_threads` hears), in order: the job in hand is finished, those that
     *   wait for their next try are put back with their count, and it returns. So it does if no job came for `timeout`
     *   milliseconds, and none waits for its next try. `grace`: milliseconds after SIGTERM (30,000 if nothing else is
     *   said); a job whose function goes on for longer is free again, and it returns.
     * - `keep`: milliseconds between two signs that this client is at work, 500 if nothing else is said.
     * - `onerror`: is called with each error after which the work goes on. A server that is away, that has another
     *   connection under this number still (Busy), or has no room, is tried again; once the work must end, it throws
     *   NoConnection, TimedOut or Refused if something is not known then.
     *
     * It makes calls of the space, and waits in them: what else waits for long needs a space of its own.
     * @template {Patterns} T
     * @param {(T & Whole<T>) | SpaceEvent | SpaceEvent[]} template @param {(job: any) => unknown} work a job is a tuple, tag first
     * @param {WorkOptions} [options] @returns {Promise<number>}
     */
    async work(template, work, options = {}) {
        return worked(this, template, work, options);
    }

    /**
     * An alarm that is ready `time` milliseconds from now. Throws OutOfRange if that is below 0, or no number.
     * @param {number} time
     */
    after(time) {
        return Alarm(this.clock() + Math.ceil(milliseconds('a time', time)));
    }

    /** The time by the clock of the space, in milliseconds since it began; it never falls. */
    clock() {
        return Math.max(this.#machine.clock, this.#now());
    }

    /**
     * The reply that a server keeps to the last numbered message of this client there, of an earlier life perhaps: null
     * if there was none. So a program that starts again under its number learns whether its last out was stored, or
     * which tuple its last take took. Each server keeps its own; nothing says which of them was the last. Nothing
     * changes.
     *
     * Throws OutOfRange if there is no such server, Busy: nothing was sent. Refused with Gap or Old: another program
     * uses this client's number, and nothing is pending. All others: it is pending.
     * @param {number} [server] @param {Limits} [limits]
     */
    async lastReply(server = 0, limits = {}) {
        const place = Number(within('a server', server, 0, this.#ports.length - 1));
        const ended = await this.#call((machine) => machine.lastReply(place), checkedLimits(limits));
        return /** @type {Kept | null} */ (ended);
    }

    /**
     * Gives the number of this client up for good, at all servers, and returns once all of them know. What it held is
     * free again; what it put stays. From then on nobody can do anything under this number: no life of this client, and
     * no other program. A server keeps the number for good, with the few bytes that say so, so this frees no place of
     * the 65,536.
     *
     * Throws Busy, Spent: nothing was sent. All others: it is pending, and some servers may know. Full is refused by a
     * server whose bank is still in the form of an earlier program: `again` after its next snapshot.
     * @param {Limits} [limits]
     */
    async leave(limits = {}) {
        await this.#call((machine) => machine.leave(), checkedLimits(limits));
    }

    // ---- what is pending after an error

    /**
     * What is pending after an error: 'out', 'outMany', 'takeMany', 'purge', 'lastReply', 'leave', 'accept'; 'sync' if
     * a tuple was taken, or may have been, by a call that an error ended; or null. If there is one of the others and such
     * a tuple, it is the other one. During a call: what is waited for.
     * @returns {'out' | 'outMany' | 'takeMany' | 'purge' | 'lastReply' | 'leave' | 'accept' | 'sync' | null}
     */
    get pending() {
        const { task, inHand } = this.#machine;
        if (task !== null && task.kind !== 'pass') return task.kind;
        return inHand.length > 0 ? 'sync' : null;
    }

    /**
     * Goes on with what is pending after an error: sends what is unanswered again, under its number, and waits for its
     * end, which it returns: Stored for an out, Outcome for an accept, and for a take whose tuple was taken; Kept for
     * `lastReply`; what `outMany`, `takeMany` and `purge` return; null for a leave, and for a take that came too late:
     * nothing was taken then. Nothing is done twice by that. A tuple that was taken for a call before that is returned by
     * the `again` after it.
     *
     * Throws Idle if nothing is pending; Gone for an accept that came too late; else as what it goes on with.
     * @param {Limits} [limits] @returns {Promise<Stored | Outcome | Kept | Put[] | Tuple[] | number | null>}
     */
    async again(limits = {}) {
        const checked = checkedLimits(limits), machine = this.#machine;
        const isPending = () => machine.task !== null && machine.task.kind !== 'pass';
        if (this.pending === null && !this.#isCalled) throw new Idle('nothing is pending');
        if (isPending() || machine.inHand.length === 0) {
            let wasPending = false;
            const begin = () => {
                wasPending = isPending();
                machine.goOn();
            };
            const ended = await this.#call(begin, checked, { isAgain: true, isQuiet: true });
            if (ended instanceof Taken) return ended.outcome;
            if (ended instanceof Many) return listOf(ended);
            if (ended instanceof Stored || ended instanceof Kept || ended instanceof Outcome) return ended;
            if (wasPending) return null;
        }
        return machine.inHand.shift() ?? null;
    }

    /**
     * All nack numbers of the synchronization that an error ended before this call, all of which are raised. Nothing
     * was taken for it.
     *
     * Throws Left after `leave`, Idle if there is none, and Busy if a server may have taken a tuple for it: `again`
     * gets it.
     */
    abandon() {
        if (this.#isClosed) throw new Closed('the space was closed');
        return this.#machine.abandon();
    }

    // ---- what is held

    /** @param {Offer} offer @param {Limits} limits */
    async #accept(offer, limits) {
        await this.#call((machine) => machine.takeHeld(offer), checkedLimits(limits), { isQuiet: true });
        return offer.tuple;
    }

    /** @param {Offer} offer */
    #isHeld(offer) {
        this.#notice();
        return !this.#isClosed && this.#machine.isHeld(offer);
    }

    /** @param {Offer} offer */
    #renew(offer) {
        if (this.#isClosed) throw new Closed('the space was closed');
        this.#notice();
        this.#machine.renew(offer);
        this.#send();
    }

    /** @param {Offer} offer */
    #release(offer) {
        this.#notice();
        this.#machine.release(offer);
        if (!this.#isClosed) this.#send();
    }

    /**
     * Releases an offer; Gone if it was lost, and no call has said so.
     * @param {Offer} offer
     */
    #end(offer) {
        this.#notice();
        if (!this.#isClosed && this.#machine.untold.includes(offer)) return this.#machine.told([offer]);
        this.#release(offer);
        return null;
    }

    /** What a server held is lost once its connection has ended. */
    #notice() {
        for (const link of this.#links) {
            if (link.isUp && link.isOver) this.#machine.loseHolds(link.server);
        }
    }

    /**
     * An offer is not held any more.
     * @param {Offer} offer @param {boolean} isOver
     */
    #ended(offer, isOver) {
        clearInterval(this.#keepers.get(offer));
        this.#keepers.delete(offer);
        if (!isOver) return;
        const hear = this.#hearers.get(offer);
        this.#hearers.delete(offer);
        hear?.();
    }

    /**
     * Renews it while it is held.
     * @param {Offer} offer @param {number} every
     */
    #keepUp(offer, every) {
        const renew = () => {
            if (this.#isHeld(offer)) this.#renew(offer);
            else clearInterval(timer);
        };
        const timer = setInterval(renew, Math.min(every, LONGEST_TIMER));
        /** @type {any} */ (timer).unref();
        this.#keepers.set(offer, timer);
    }

    // ---- how it goes on

    /**
     * The tuple of what is chosen.
     * @param {readonly SpaceEvent[]} branches @param {any} limits
     */
    async #found(branches, limits) {
        return (await this.choose(branches, limits)).tuple;
    }

    /** @param {() => SpaceEvent} event @param {Ways} ways @param {CallLimits} limits */
    async #sync(event, ways, limits) {
        const begin = (/** @type {Machine} */ machine) => machine.sync(event(), ways);
        return /** @type {Chosen} */ (await this.#call(begin, limits, { isWaiting: true }));
    }

    /**
     * @param {'takeMany' | 'purge'} kind @param {Template} template @param {number} count
     * @param {CallLimits} limits
     */
    async #takeMany(kind, template, count, limits) {
        /** @type {import('./trains.mjs').TakeTrain | null} */
        let train = null;
        try {
            return listOf(await this.#call((machine) => { train = machine.takeMany(kind, template, count); }, limits));
        } catch (fault) {
            if (train === null || !(fault instanceof SpaceError)) throw fault;
            throw Object.assign(fault, { taken: listOf(new Many(train)) });
        }
    }

    /** Throws what all calls throw now. */
    #beOpen() {
        if (this.#isClosed) throw new Closed('the space was closed');
        if (this.#broken instanceof Restored) {
            const { server, last, answered } = this.#broken;
            throw new Restored(server, last, answered);
        }
        if (this.#broken !== null) {
            const { server, last, answered, client } = this.#broken;
            throw new NumberInUse(server, last, answered, client);
        }
    }

    /**
     * One call, from its beginning to its end, which is null if there was nothing to wait for. It waits until those
     * before it have ended.
     * @param {(machine: Machine) => void} begin @param {CallLimits} limits
     * @param {{ isAgain?: boolean, isQuiet?: boolean, isWaiting?: boolean }} [ways] `isQuiet`: it says nothing of holds
     *   that were lost; `isWaiting`: it does so while it waits.
     * @returns {Promise<Ended | null>}
     */
    async #call(begin, limits, ways = {}) {
        const { isAgain = false, isQuiet = false, isWaiting = false } = ways;
        this.#beOpen();
        const { signal } = limits;
        if (signal?.aborted) throw this.#withPending(new Aborted(signal.reason));
        if (this.#isCalled) await this.#itsTurn(signal);
        this.#isCalled = true;
        try {
            await this.#heard();
            this.#beOpen();
            if (signal?.aborted) throw new Aborted(signal.reason);
            return await this.#callNow(begin, limits, isAgain, isQuiet, isWaiting);
        } catch (fault) {
            this.#machine.giveUp();
            this.#send();
            throw this.#withPending(fault);
        } finally {
            this.#rest();
            const next = this.#queue.shift();
            if (next === undefined) this.#isCalled = false;
            else next();
        }
    }

    /** Between two calls what arrives waits; but the end of a connection over which something is held is heard. */
    #rest() {
        for (const { server, stream } of this.#links) {
            if (this.#machine.heldAt(server) === 0) stream?.pause();
            /** @type {any} */ (stream)?.unref?.();
        }
    }

    /**
     * The end of a connection that is there already has been heard. So nothing is sent over one that has ended: it would
     * count as sent, and another program may have used this number meanwhile.
     */
    async #heard() {
        const up = this.#links.filter((link) => link.isUp && !link.isOver);
        if (up.length === 0) return;
        for (const { stream } of up) stream?.resume();
        await turned();
    }

    /**
     * @param {(machine: Machine) => void} begin @param {CallLimits} limits
     * @param {boolean} isAgain @param {boolean} isQuiet @param {boolean} isWaiting
     */
    async #callNow(begin, { timeout, signal }, isAgain, isQuiet, isWaiting) {
        const machine = this.#machine, now = performance.now();
        const until = timeout === null ? Infinity : now + timeout;
        this.#notice();
        if (!isQuiet && machine.untold.length > 0) throw machine.told(machine.untold);
        for (const link of this.#links) {
            if (!link.isUp) {
                link.until = now + this.#patience;
                link.busyUntil = null;
            }
        }
        this.#late = null;
        const isDone = () => machine.ended !== null || machine.task === null;
        const isLeftOver = machine.task?.kind === 'sync' || machine.task?.kind === 'pass';
        if (!isAgain && isLeftOver) await this.#settle(isDone, until, signal);
        machine.tick(this.#now());
        begin(machine);
        await this.#wait(isDone, { until, signal, isWaiting: isWaiting && !isQuiet });
        const { ended } = machine;
        machine.ended = null;
        if (ended instanceof Offer) this.#renewed = performance.now();
        if (ended instanceof Gone) throw ended;
        if (ended instanceof Many && ended.train.fault !== null) {
            const key = ended.train instanceof OutTrain ? 'stored' : 'taken';
            throw Object.assign(ended.train.fault, { [key]: listOf(ended) });
        }
        return ended;
    }

    /**
     * Waits until the calls before it have ended.
     * @param {AbortSignal | null} signal @returns {Promise<void>}
     */
    #itsTurn(signal) {
        return new Promise((resolve, reject) => {
            const leave = () => {
                remove();
                reject(this.#withPending(new Aborted(signal?.reason)));
            };
            const remove = this.#queue.push(() => {
                signal?.removeEventListener('abort', leave);
                resolve();
            });
            signal?.addEventListener('abort', leave, { once: true });
        });
    }

    /**
     * Finishes what is pending after an error; what was taken by that is in hand then.
     * @param {number} [timeout]
     */
    async #finishPending(timeout = Infinity) {
        const machine = this.#machine, limits = { timeout: Math.min(timeout, this.#patience), signal: null };
        const isOld = machine.task?.kind === 'sync' || machine.task?.kind === 'pass';
        const begin = () => { if (!isOld && machine.task !== null) machine.goOn(); };
        if (machine.task === null) return;
        const ended = await this.#call(begin, limits, { isAgain: !isOld, isQuiet: true });
        if (ended !== null) machine.file(ended);
    }

    /**
     * Waits for the answer to the Accept of a synchronization that ended by an error, or to one that changes nothing.
     * If it was refused, that is over.
     * @param {() => boolean} isDone @param {number} until @param {AbortSignal | null} signal
     */
    async #settle(isDone, until, signal) {
        const machine = this.#machine;
        try {
            const soon = Math.min(until, performance.now() + this.#patience);
            await this.#wait(isDone, { until: soon, signal });
        } catch (fault) {
            if (!(fault instanceof Refused && machine.task === null)) throw fault;
        }
        if (machine.ended !== null) machine.file(machine.ended);
    }

    /** @param {unknown} fault */
    #withPending(fault) {
        if (fault instanceof SpaceError && !(fault instanceof OutOfRange)) fault.pending = this.pending;
        return fault;
    }

    /**
     * Sends, hears, greets, until it is done. Throws TimedOut if that is later than `until`, NoConnection if a server
     * that is needed is away for too long, Aborted, Closed, and what a reply leads to; Gone if what is held is lost and
     * it `isWaiting` for a tuple.
     * @param {() => boolean} isDone
     * @param {{ until?: number, signal: AbortSignal | null, isWaiting?: boolean }} limits @returns {Promise<void>}
     */
    #wait(isDone, { until = Infinity, signal, isWaiting = false }) {
        return new Promise((resolve, reject) => {
            const abort = () => this.#finish(new Aborted(signal?.reason));
            /** @param {unknown} fault */
            const end = (fault) => {
                signal?.removeEventListener('abort', abort);
                if (fault === null) resolve();
                else reject(fault);
            };
            signal?.addEventListener('abort', abort);
            this.#waiter = { isDone, until, isWaiting, end };
            for (const { stream } of this.#links) {
                stream?.resume();
                /** @type {any} */ (stream)?.ref?.();
            }
            this.#goOn();
        });
    }

    /**
     * Ends the wait, if there is one. Until the next one what arrives waits, and keeps no program alive; but the end of
     * a connection over which something is held is heard.
     * @param {unknown} fault
     */
    #finish(fault) {
        const waiter = this.#waiter;
        if (waiter === null) return;
        this.#waiter = null;
        clearTimeout(this.#timer);
        this.#rest();
        waiter.end(fault);
    }

    /**
     * Something has come, or is due. It is looked at after all that can be read now: so what came in time counts, also
     * if this program had no processor for a while.
     */
    #soon() {
        if (this.#isSoon) return;
        this.#isSoon = true;
        setImmediate(() => {
            this.#isSoon = false;
            this.#goOn();
        });
    }

    /** Sends, hears, and ends the wait if it is over; else looks what is due. */
    #goOn() {
        const waiter = this.#waiter;
        if (waiter === null) return;
        try {
            this.#send();
            if (!waiter.isDone()) this.#hearAll();
            const { untold } = this.#machine;
            if (waiter.isDone()) this.#finish(null);
            else if (waiter.isWaiting && untold.length > 0) this.#finish(this.#machine.told(untold));
            else this.#look(waiter.until);
        } catch (fault) {
            this.#finish(fault);
        }
    }

    /**
     * Sends what the machine said. What a server that is not there is not sent counts no more, or is sent after its
     * greeting.
     */
    #send() {
        const { sent } = this.#machine;
        this.#machine.sent = [];
        for (const link of this.#links) {
            const own = sent.filter(([server]) => server === link.server).map(([, data]) => data);
            if (own.length === 0 || !link.isUp || link.isOver) continue;
            for (const data of own) {
                const number = numberOf(data);
                if (number > link.lastSent) link.lastSent = number;
            }
            link.stream?.write(Buffer.concat(own));
        }
    }

    /** Hears what came, and then looks whether an alarm is ready. It stops once what is pending has ended. */
    #hearAll() {
        const machine = this.#machine;
        machine.clock = this.clock();
        for (const link of this.#links) {
            while (machine.ended === null && this.#hear(link)) {
                if (!(machine.task instanceof OutTrain || machine.task instanceof TakeTrain)) this.#send();
            }
        }
        if (machine.ended === null) machine.tick(this.#now());
        this.#send();
    }

    /**
     * Hears the next frame of a server; false if none came whole.
     * @param {Link} link
     */
    #hear(link) {
        let reply;
        try {
            reply = link.reply();
        } catch (fault) {
            if (!(fault instanceof BadFrame)) throw fault;
            this.#letGo(link);
            throw new BadReply(link.server, fault.message);
        }
        if (reply === null) {
            if (link.isOver) this.#lose(link);
            return false;
        }
        if (link.isUp) {
            if (this.#machine.isJudged(link.server, reply)) link.lastSent = this.#machine.numbers[link.server] - 1n;
            try {
                this.#machine.receive(link.server, reply);
            } catch (fault) {
                throw fault instanceof NumberInUse ? this.#breakBy(link, fault) : fault;
            }
        } else if (reply.kind === 'welcome') {
            this.#welcome(link, reply.number);
        } else if (REFUSALS[Number(reply.number)] === 'Busy' && !link.fresh && this.#bears(link)) {
            this.#lose(link);
        } else {
            this.#letGo(link);
            throw new Refused(link.server, Number(reply.number), reply.id, this.#machine.client);
        }
        return true;
    }

    /**
     * Whether a server that is Busy is greeted once more.
     * @param {Link} link
     */
    #bears(link) {
        const now = performance.now();
        link.busyUntil ??= now + Math.min(BUSY_PATIENCE, this.#patience);
        return now < link.busyUntil || link.wasUp && !this.#machine.needs(link.server);
    }

    /**
     * A server has welcomed the client. Numbers go on after the last one of an earlier life; a later Welcome changes
     * nothing, and what is unanswered is sent again. What was never sent to it cannot be done: then another program did
     * something under this number.
     * @param {Link} link @param {bigint} last
     */
    #welcome(link, last) {
        const machine = this.#machine, { server } = link, answered = machine.numbers[server] - 1n;
        if (!link.wasUp && link.isNew && last > 0n) {
            // It was greeted without `fresh`, as after a connection that was lost before this.
            this.#letGo(link);
            throw new Refused(server, 2, last, machine.client);
        }
        if (!link.wasUp) {
            machine.numbers[server] = last + 1n;
        } else if (last < answered) {
            throw this.#breakBy(link, new Restored(server, last, answered));
        } else if (last > answered + BigInt(machine.unansweredAt(server)) || last > answered && last > link.lastSent) {
            throw this.#breakBy(link, new NumberInUse(server, last, answered, machine.client));
        }
        link.isUp = link.wasUp = true;
        link.fault = undefined;
        link.fresh = false;
        link.pause = SHORTEST_PAUSE;
        link.busyUntil = null;
        machine.reconnected(server, last);
    }

    /**
     * From now on all calls throw this.
     * @param {Link} link @param {Restored | NumberInUse} fault
     */
    #breakBy(link, fault) {
        this.#letGo(link);
        this.#machine.forget();
        this.#broken = fault;
        return fault;
    }

    /**
     * Greets what is due, and sets the time of the next look.
     * @param {number} limit
     */
    #look(limit) {
        const now = performance.now(), { task, clock } = this.#machine;
        let until = limit, wake = limit;
        if (task?.kind === 'sync' && !task.isDropped) {
            wake = until = Math.min(until, this.#latest(task, now));
            const at = task.nextTime();
            if (at !== null && (task.accepted === null || at > clock)) wake = Math.min(wake, now + at - this.clock());
        }
        for (const link of this.#links) {
            if (link.isUp) continue;
            if (now >= link.until) this.#giveUp(link, now);
            if (link.stream === null && link.due <= now) this.#join(link);
            wake = Math.min(wake, link.until, link.stream === null ? link.due : Infinity);
        }
        if (now >= until) throw new TimedOut(this.#machine.missing());
        if (this.#machine.held.size > 0) {
            if (now >= this.#renewed + RENEWED_EVERY) {
                this.#renewed = now;
                this.#machine.renewAll();
                this.#send();
            }
            wake = Math.min(wake, this.#renewed + RENEWED_EVERY);
        }
        clearTimeout(this.#timer);
        if (wake !== Infinity) {
            this.#timer = setTimeout(() => this.#soon(), Math.min(LONGEST_TIMER, Math.max(1, Math.ceil(wake - now))));
        }
    }

    /**
     * The time at which a synchronization must end of which an alarm is ready: it waits only for an answer. If
     * the call's own time is up and a server is away, that is now.
     * @param {Sync} task @param {number} now
     */
    #latest(task, now) {
        const base = task.ringing(this.#machine.clock);
        if (base === null) return Infinity;
        if (base === task.limit && !task.isPoll && !this.#links.every((link) => link.isUp)) return now;
        this.#late ??= now + this.#patience;
        return this.#late;
    }

    /**
     * A server has been away for too long.
     * @param {Link} link @param {number} now
     */
    #giveUp(link, now) {
        if (link.wasUp && !this.#machine.needs(link.server)) {
            link.until = now + this.#patience;
            return;
        }
        this.#letGo(link);
        if (link.busyUntil !== null && link.busyUntil > 0) throw new Refused(link.server, 3, 0n, this.#machine.client);
        throw link.noConnection();
    }

    /**
     * Begins a connection.
     * @param {Link} link
     */
    #join(link) {
        /** @type {import('node:stream').Duplex} */
        let stream;
        try {
            stream = this.#connect(link.port);
        } catch (fault) {
            link.fault = fault;
            this.#lose(link);
            return;
        }
        if (typeof stream?.on !== 'function') {
            Promise.resolve(stream).catch(() => {});        // an async function: what it throws is not said beside this
            throw new OutOfRange(`connect returns a stream, at once: ${shown(stream)}`);
        }
        link.stream = stream;
        link.isMade = !(/** @type {any} */ (stream).connecting ?? false);
        const own = (/** @type {() => void} */ change) => () => {
            if (link.stream === stream) {
                change();
                this.#soon();
            }
        };
        const end = own(() => { link.isOver = true; });
        // A stream with TLS is there once both ends have seen the certificates.
        const made = /** @type {any} */ (stream).encrypted === true ? 'secureConnect' : 'connect';
        stream.on(made, own(() => { link.isMade = true; }));
        stream.on('error', (/** @type {unknown} */ fault) => own(() => { link.fault = fault; })());
        const hear = (/** @type {Buffer} */ piece) => own(() => { link.came = Buffer.concat([link.came, piece]); })();
        stream.on('data', hear);
        for (const name of ['end', 'error', 'close']) stream.on(name, end);
        stream.write(frames.hello(this.#machine.client, link.fresh));
    }

    /**
     * The connection is lost, or could not be had: it is made again at once if it was up, else after a pause. Throws
     * NoConnection at the very first.
     * @param {Link} link
     */
    #lose(link) {
        const { isUp } = link, isFirst = !link.wasUp && !link.wasTried && !link.isMade;
        this.#letGo(link);
        link.fresh = false;
        link.wasTried = true;
        const now = performance.now();
        if (isUp) {
            link.until = now + this.#patience;
            link.pause = SHORTEST_PAUSE;
            link.busyUntil = null;
        } else if (isFirst) {
            throw link.noConnection();
        } else {
            link.due = now + link.pause;
            link.pause = Math.min(2 * link.pause, LONGEST_PAUSE);
        }
    }

    /**
     * There is no connection any more, and what was not sent on it is not sent.
     * @param {Link} link
     */
    #letGo(link) {
        link.stream?.destroy();
        link.stream = null;
        if (link.isUp) this.#machine.lost(link.server);
        link.isOver = link.isMade = link.isUp = false;
        link.due = 0;
        link.came = Buffer.alloc(0);
    }
}

/**
 * Whether a greeting was refused because of its number.
 * @param {unknown} fault @returns {fault is Refused}
 */
function isTaken(fault) {
    return fault instanceof Refused && (fault.reason === 'Busy' || fault.reason === 'Known');
}

/**
 * The client number or numbers of the options, or undefined.
 * @param {Record<string, any>} options
 */
function checkedNumbers({ client, numbers }) {
    if (numbers !== undefined) {
        if (typeof numbers !== 'string' || numbers === '' || numbers.includes('\0')) {
            throw new OutOfRange(`the file of client numbers is a path: ${shown(numbers)}`);
        }
        if (client !== undefined) throw new OutOfRange('a client number is given, or a file of them, and not both');
    }
    if (client === undefined) return undefined;
    if (!Array.isArray(client)) return Number(within('a client', client, 0, MOST_CLIENT));
    if (client.length === 0) throw new OutOfRange('there is no client number');
    return Array.from(client, (number) => Number(within('a client', number, 0, MOST_CLIENT)));
}

/**
 * One of several tuples. Throws OutOfRange, which says which one, if it is none.
 * @param {unknown} tuple @param {number} place
 */
function checkedAt(tuple, place) {
    try {
        return checkedTuple(tuple);
    } catch (fault) {
        throw fault instanceof OutOfRange ? new OutOfRange(`tuple ${place}: ${fault.message}`) : fault;
    }
}

/**
 * Every how many milliseconds a hold is renewed, or null.
 * @param {{ keep?: unknown }} options
 */
function keepOf({ keep }) {
    return keep == null ? null : milliseconds('keep', keep, 1);
}

/**
 * What several outs or takes return.
 * @param {Ended | null} ended @returns {Put[] | Tuple[] | number}
 */
function listOf(ended) {
    const { train } = /** @type {Many} */ (ended);
    if (train instanceof OutTrain) return /** @type {Put[]} */ (train.done);
    return train.kind === 'purge' ? train.got : train.taken.map(({ tuple }) => tuple);
}
