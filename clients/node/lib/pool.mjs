/** A pool of spaces, for calls at once. */

import { Aborted, Closed, OutOfRange, SpaceError, TimedOut } from './errors.mjs';
import { basesAndNacks, Choose, SpaceEvent } from './events.mjs';
import { insideOf, turned } from './inside.mjs';
import { ASYNC_DISPOSE, DISPOSE, LONGEST_TIMER, shown } from './limits.mjs';
import { Queue } from './queue.mjs';
import { checkedSpace, connectedBut } from './space.mjs';
import { checkedLimits, checkedTemplate, matches, within } from './values.mjs';

/**
 * @typedef {import('./values.mjs').Value} Value
 * @typedef {import('./values.mjs').Pattern} Pattern
 * @typedef {import('./values.mjs').Tuple} Tuple
 * @typedef {import('./values.mjs').Template} Template
 * @typedef {import('./values.mjs').Values} Values
 * @typedef {import('./values.mjs').Patterns} Patterns
 * @typedef {import('./values.mjs').Limits} Limits
 * @typedef {import('./space.mjs').ConnectOptions} ConnectOptions
 * @typedef {import('./space.mjs').HoldOptions} HoldOptions
 * @typedef {import('./space.mjs').TakeManyOptions} TakeManyOptions
 * @typedef {import('./space.mjs').Chosen} Chosen
 * @typedef {import('./space.mjs').Space} Space
 * @typedef {import('./results.mjs').Stored} Stored
 * @typedef {import('./trains.mjs').Put} Put
 *
 * A call that waits for a member: since when, and for how long at most.
 * @typedef {{ inputs: Template[], since: number, until: number, go: (member: Space) => void,
 *     fail: (fault: unknown) => void }} Waiting
 */
/** @template T @typedef {import('./values.mjs').Matched<T>} Matched */
/** @template T @typedef {import('./values.mjs').Whole<T>} Whole */
/** @template T, L @typedef {import('./values.mjs').Timed<T, L>} Timed */
/** @template T, O @typedef {import('./values.mjs').Only<T, O>} Only */
/** @template {readonly any[]} T @typedef {import('./results.mjs').Offer<T>} Offer */

const SIZE = 16;
const UNSENT = '; nothing was sent for this call';
const GROWN_AFTER = 1_000;              // milliseconds after which a member is made again, if none could be
/** The milliseconds that a call waits at least for a member that is made or finished for it, even if its time is less. */
const MAKING = 2_000;

/**
 * Some spaces for calls at once, as of a web server: each call is made by a member that nobody uses. A member is made
 * when it is needed, up to `size` (16 if nothing else is said); if all are in use a call waits for one, first in, first
 * out. Calls, errors and limits are those of a Space, but the `timeout` of a call counts from its beginning: if no member
 * is free by then, made or finished, it throws TimedOut, and nothing was sent.
 *
 *     const pool = new Pool([7000], { client: range(100, 116) });
 *     await Promise.all(jobs.map((job) => pool.out(['job', job])));
 *     pool.close();
 *
 * - `client`: several numbers, one for each member at least; or left out: the numbers of a file (see `Space.connect`).
 *   With one number `size` is 1. If a member cannot be made, as of a range that is too short, those that there are do
 *   all.
 * - A hold keeps its member until it is accepted or released, or its block ends.
 * - **After an error** the call that failed has thrown it, and its member is finished, as by `again`, before it is lent
 *   again: so what was pending is done or not, and nothing is done twice. If its server is away the member is lent
 *   last. If nothing was sent for a call the text of its error says so. A tuple that was just being taken is not lost:
 *   the next `take`, `takeMany`, `choose` or `sync` that it fits gets it.
 */
export class Pool {
    #ports;
    #options;
    #size;
    /** @type {Set<Space>} */
    #members = new Set();
    /**
     * Members that are not lent, those that may have something pending first.
     * @type {Space[]}
     */
    #idle = [];
    /** @type {Queue<Waiting>} */
    #waiting = new Queue();
    #isGrowing = false;
    #finishing = 0;                     // members that are being finished
    #isClosed = false;
    #grownAfter = 0;

    /**
     * Nothing is connected until the first call. Throws OutOfRange.
     * @param {readonly (number | string)[]} ports @param {ConnectOptions & { size?: number }} [options]
     */
    constructor(ports, options = {}) {
        if (typeof options !== 'object' || options === null) {
            throw new OutOfRange(`the options are an object: ${shown(options)}`);
        }
        const { size, ...more } = options, isOne = more.client !== undefined && !Array.isArray(more.client);
        checkedSpace(ports, more);
        this.#size = Number(within('the size of a pool', size ?? (isOne ? 1 : SIZE), 1, Number.MAX_SAFE_INTEGER));
        if (isOne && this.#size > 1) throw new OutOfRange('a pool of several members has several client numbers');
        this.#ports = [...ports];
        this.#options = more;
    }

    /**
     * How many members there are now.
     * @returns {number}
     */
    get size() {
        return this.#members.size;
    }

    /** As `Space.out`.
     * @template {Values} T @template {Limits} [L={}]
     * @param {T & Whole<T>} tuple @param {Only<L, Limits>} [limits] @returns {Promise<Stored>}
     */
    async out(tuple, limits) {
        return this.#use(limits, [], (member, rest) => member.out(tuple, rest));
    }

    /** As `Space.outMany`; if something is pending after an error, it goes on without its caller.
     * @template {Values} T @template {Limits} [L={}]
     * @param {readonly (T & Whole<T>)[]} tuples @param {Only<L, Limits>} [limits] @returns {Promise<Put[]>}
     */
    async outMany(tuples, limits) {
        return this.#use(limits, [], (member, rest) => member.outMany(tuples, rest));
    }

    /** As `Space.take`.
     * @template {Patterns} T @template {Limits} [L={}]
     * @param {T & Whole<T>} template @param {Only<L, Limits>} [limits] @returns {Promise<Timed<Matched<T>, L>>}
     */
    async take(template, limits) {
        return this.#use(limits, [checkedTemplate(template)], (member, rest) => member.take(template, rest));
    }

    /** As `Space.takes`.
     * @template {Patterns} T @template {Limits} [L={}]
     * @param {T & Whole<T>} template @param {Only<L, Limits>} [limits]
     * @returns {AsyncGenerator<Matched<T>, void, undefined>}
     */
    async* takes(template, limits) {
        for (;;) {
            const tuple = await this.take(/** @type {any} */ (template), limits);
            if (tuple === null) return;
            yield /** @type {any} */ (tuple);
        }
    }

    /** As `Space.takeMany`; what unanswered takes take after an error goes to a later take that it fits.
     * @template {Patterns} T @template {TakeManyOptions} [L=TakeManyOptions]
     * @param {T & Whole<T>} template @param {Only<L, TakeManyOptions>} options @returns {Promise<Matched<T>[]>}
     */
    async takeMany(template, options) {
        return this.#use(options, [checkedTemplate(template)], (member, rest) => member.takeMany(template, rest));
    }

    /** As `Space.purge`.
     * @template {Patterns} T @template {Limits} [L={}]
     * @param {T & Whole<T>} template @param {Only<L, Limits>} [limits] @returns {Promise<number>}
     */
    async purge(template, limits) {
        return this.#use(limits, [], (member, rest) => member.purge(template, rest));
    }

    /** As `Space.read`.
     * @template {Patterns} T @template {Limits} [L={}]
     * @param {T & Whole<T>} template @param {Only<L, Limits>} [limits] @returns {Promise<Timed<Matched<T>, L>>}
     */
    async read(template, limits) {
        return this.#use(limits, [], (member, rest) => member.read(template, rest));
    }

    /** As `Space.look`.
     * @template {Patterns} T @template {Limits} [L={}]
     * @param {T & Whole<T>} template @param {Only<L, Limits>} [limits] @returns {Promise<Matched<T> | null>}
     */
    async look(template, limits) {
        return this.#use(limits, [], (member, rest) => member.look(template, rest));
    }

    /** As `Space.choose`.
     * @template {Limits} [L={}]
     * @param {readonly SpaceEvent[]} branches @param {Only<L, Limits>} [limits] @returns {Promise<Chosen>}
     */
    async choose(branches, limits) {
        const inputs = Array.isArray(branches) ? inputsOf(Choose(...branches)) : [];
        return this.#use(limits, inputs, (member, rest) => member.choose(branches, rest));
    }

    /** As `Space.sync`. The clock of an alarm is that of the member: choose with a `timeout` instead.
     * @param {SpaceEvent} event @param {{ signal?: AbortSignal | null }} [limits] @returns {Promise<Chosen>}
     */
    async sync(event, limits) {
        return this.#use(limits, inputsOf(event), (member, rest) => member.sync(event, rest));
    }

    /** As `Space.hold`: the member is this hold's until it is accepted or released.
     * @template {Patterns} T @template {HoldOptions} [L={}]
     * @param {T & Whole<T>} template @param {Only<L, HoldOptions>} [options]
     * @returns {Promise<Timed<Offer<Matched<T>>, L>>}
     */
    async hold(template, options) {
        const { member, rest } = await this.#lent(options, []);
        /** @type {any} */
        let offer = null;
        try {
            offer = await member.hold(/** @type {any} */ (template), rest);
            if (offer !== null) insideOf(member).onOver(offer, () => this.#giveBack(member));
            return offer;
        } finally {
            if (offer === null) this.#giveBack(member);
        }
    }

    /** As `Space.holding`: the member is this block's until it ends. A call of the pool in the block needs another member:
     * if each member has such a block, all wait for each other, until the `timeout` of a call is up.
     * @template {Patterns} T @template {HoldOptions} L @template R
     * @param {T & Whole<T>} template @param {Only<L, HoldOptions>} options
     * @param {(offer: Timed<Offer<Matched<T>>, L>) => Promise<R> | R} work @returns {Promise<R>}
     */
    async holding(template, options, work) {
        return this.#use(options, [], (member, rest) => member.holding(template, rest, work));
    }

    /**
     * Closes all members. Calls that have not ended throw Closed. What was taken for a call that an error ended, and no
     * other call got, is said in a warning of the process. It may be called twice.
     */
    close() {
        this.#isClosed = true;
        for (const waiting of [...this.#waiting]) waiting.fail(new Closed('the pool was closed'));
        for (const member of this.#idle) sayLeft(member);
        for (const member of this.#members) member.close();
        this.#idle = [];
    }

    [DISPOSE]() {
        this.close();
    }

    async [ASYNC_DISPOSE]() {
        this.close();
    }

    /**
     * A call by a member that nobody uses.
     * @param {any} limits @param {Template[]} inputs @param {(member: any, rest: any) => Promise<any>} call
     * @returns {Promise<any>}
     */
    async #use(limits, inputs, call) {
        const { member, rest } = await this.#lent(limits, inputs);
        try {
            return await call(member, rest);
        } finally {
            this.#giveBack(member);
        }
    }

    /**
     * A member that nobody uses, for a call that takes what one of these templates matches, and the limits of that call
     * with what is left of its time.
     * @param {any} limits @param {Template[]} inputs @returns {Promise<{ member: Space, rest: any }>}
     */
    async #lent(limits, inputs) {
        const since = performance.now(), { timeout, signal } = checkedLimits(limits ?? {}, Object.keys(limits ?? {}));
        if (this.#isClosed) throw new Closed('the pool was closed');
        if (signal?.aborted) throw new Aborted(signal.reason);
        const until = timeout === null ? Infinity : since + timeout;
        const member = await this.#freed(inputs, since, this.#isAllLent(since) ? until : Math.max(until, since + MAKING), signal);
        const rest = timeout === null ? limits : { ...limits, timeout: Math.max(0, until - performance.now()) };
        return { member, rest };
    }

    /**
     * Whether calls have all members, and none can be made now.
     * @param {number} now
     */
    #isAllLent(now) {
        const hasRoom = this.#members.size < this.#size && (now >= this.#grownAfter || this.#isGrowing);
        return !hasRoom && this.#idle.length + this.#finishing === 0;
    }

    /**
     * @param {Template[]} inputs @param {number} since @param {number} until @param {AbortSignal | null} signal
     * @returns {Promise<Space>}
     */
    #freed(inputs, since, until, signal) {
        return new Promise((resolve, reject) => {
            /** @type {NodeJS.Timeout | undefined} */
            let timer;
            let isOver = false;
            const end = () => {
                isOver = true;
                clearTimeout(timer);
                signal?.removeEventListener('abort', leave);
                remove();
            };
            const waiting = {
                inputs, since, until,
                go: (/** @type {Space} */ member) => {
                    end();
                    resolve(member);
                },
                fail: (/** @type {unknown} */ fault) => {
                    end();
                    reject(fault);
                },
            };
            const leave = () => waiting.fail(new Aborted(signal?.reason));
            const look = () => {
                const left = until - performance.now();
                if (isOver || left === Infinity) return;
                if (left <= 0) waiting.fail(new TimedOut([], `no member of the pool was free in time${UNSENT}`));
                else timer = setTimeout(look, Math.min(LONGEST_TIMER, Math.ceil(left)));
            };
            const remove = this.#waiting.push(waiting);
            signal?.addEventListener('abort', leave);
            this.#serve();
            look();
        });
    }

    /** @param {Space} member */
    #giveBack(member) {
        if (this.#isClosed) {
            sayLeft(member);
        } else if (insideOf(member).isOver()) {
            sayLeft(member);
            member.close();
            this.#members.delete(member);
        } else {
            this.#idle.push(member);
        }
        this.#serve();
    }

    /** Lends the members that are there to the calls that wait; else makes a member, and finishes others, one for each such call. */
    #serve() {
        for (let { first } = this.#waiting; first !== undefined; { first } = this.#waiting) {
            const place = this.#placeFor(first.inputs);
            if (place < 0) break;
            const [member] = this.#idle.splice(place, 1);
            first.go(member);
        }
        if (this.#waiting.size === 0) return;
        const isDue = this.#members.size === 0 || performance.now() >= this.#grownAfter;
        if (this.#members.size < this.#size && !this.#isGrowing && isDue) this.#grow();
        const made = this.#isGrowing ? 1 : 0;
        while (this.#idle.length > 0 && this.#finishing + made < this.#waiting.size) this.#finish();
    }

    /**
     * What was tried since `begin` for the calls that wait has failed: those that waited for half of that time fail too.
     * @param {number} begin @param {unknown} fault
     */
    #failed(begin, fault) {
        const latest = (begin + performance.now()) / 2;
        if (fault instanceof SpaceError) Object.assign(fault, { pending: null, message: `${fault.message}${UNSENT}` });
        for (const waiting of [...this.#waiting]) {
            if (waiting.since <= latest) waiting.fail(fault);
        }
    }

    /**
     * The place of a member that has taken what fits, for a call that an error ended, or may have; or else of one that
     * has nothing pending.
     * @param {Template[]} inputs
     */
    #placeFor(inputs) {
        const machines = this.#idle.map((member) => insideOf(member).machine());
        const place = machines.findIndex(({ task, inHand }) => {
            const own = task?.kind === 'sync' ? task.accepted : null;
            const had = own === null ? inHand : [...inHand, own];
            const fits = had.some(({ tuple }) => inputs.some((template) => matches(template, tuple ?? [])));
            return fits && (task === null || task.kind === 'sync');
        });
        return place >= 0 ? place : machines.findLastIndex(({ task }) => task === null);
    }

    /** Makes a member. If that fails, the calls wait for the members that there are, or fail with this error if there is none. */
    async #grow() {
        const begin = performance.now();
        this.#isGrowing = true;
        try {
            const numbers = new Set(Array.from(this.#members, (member) => member.client));
            const member = await connectedBut(this.#ports, this.#options, numbers);
            this.#members.add(member);
            if (this.#isClosed) member.close();
            else this.#idle.push(member);
        } catch (fault) {
            if (this.#members.size > 0) this.#grownAfter = performance.now() + GROWN_AFTER;
            else this.#failed(begin, fault);
        } finally {
            this.#isGrowing = false;
        }
        this.#serve();
    }

    /**
     * Finishes what a member that is not lent has pending, in the time of the calls that wait. If that fails, and no
     * member is lent, they fail with that error.
     */
    async #finish() {
        const begin = performance.now();
        const most = Array.from(this.#waiting).reduce((time, { until }) => Math.max(time, until), 0);
        const [member] = this.#idle.splice(0, 1);
        this.#finishing += 1;
        /** @type {unknown} */
        let fault = null;
        try {
            await insideOf(member).finish(Math.max(0, most - begin));
        } catch (thrown) {
            fault = thrown;
            await turned();             // calls whose time is over have ended
        }
        this.#finishing -= 1;
        const isLent = this.#members.size > this.#idle.length + this.#finishing + 1;
        if (fault !== null && !isLent && insideOf(member).machine().task !== null) this.#failed(begin, fault);
        this.#giveBack(member);
    }
}

/**
 * Warns of what a member that is closed has pending, or in hand, for calls that an error ended.
 * @param {Space} member
 */
function sayLeft(member) {
    const { task, inHand } = insideOf(member).machine();
    for (const { tuple } of inHand) process.emitWarning(`a pool is closed with a tuple that it took: ${shown(tuple, Infinity)}`, 'linda-space');
    if (task !== null && (task.kind !== 'sync' || task.accepted !== null)) {
        process.emitWarning(`a pool closes client ${member.client}, which has ${task.kind} pending: its last reply says what became of it`, 'linda-space');
    }
}

/**
 * The templates of the inputs of an event.
 * @param {unknown} event @returns {Template[]}
 */
function inputsOf(event) {
    if (!(event instanceof SpaceEvent)) return [];
    return basesAndNacks(event).bases.filter(({ leaf }) => leaf.kind === 'in').map(({ leaf }) => leaf.template);
}
