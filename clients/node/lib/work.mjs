/** The loop of a worker: `Space.work`. A job is taken away last, so a kill at any moment loses none. */

import { Aborted, Busy, Gone, NoConnection, OutOfRange, Refused, TimedOut } from './errors.mjs';
import { Choose, In, SpaceEvent } from './events.mjs';
import { insideOf, turned } from './inside.mjs';
import { LONGEST_TIMER, MOST_FIELDS, MOST_INTEGER, plain, shown } from './limits.mjs';
import { Offer } from './results.mjs';
import {
    checkedOptions, checkedSignal, checkedTemplate, checkedTuple, checkedValue, INT, matches, milliseconds, TRIES, within,
} from './values.mjs';

/**
 * @typedef {import('./values.mjs').Value} Value
 * @typedef {import('./values.mjs').Tuple} Tuple
 * @typedef {{ tries?: number | null, delay?: number, dead?: Value, stop?: SpaceEvent | null,
 *     signal?: AbortSignal | null, keep?: number, timeout?: number | null, limit?: number | null, grace?: number,
 *     onerror?: ((fault: Error) => void) | null }} WorkOptions
 *
 * A job that waits for its next try: the time of that, what is put then, and the place of its note, if there is one.
 * @typedef {{ offer: Offer, due: number, next: Tuple, place: number | null }} Waiting
 */

const MOST_WAITING = 32;
const MOST_DEAD_TEXT = 1_000;           // bytes
const PAUSE = 500;                      // milliseconds after an error before the next try
const GRACE = 30_000;                   // milliseconds after SIGTERM for the job in hand
const ENDED = 'the worker ended';
const OPTIONS = ['tries', 'delay', 'dead', 'stop', 'signal', 'keep', 'timeout', 'limit', 'grace', 'onerror'];

/**
 * See `Space.work`.
 * @param {import('./space.mjs').Space} space @param {unknown} template @param {(job: any) => unknown} work
 * @param {WorkOptions} options @returns {Promise<number>}
 */
export async function worked(space, template, work, options) {
    return new Work(space, template, work, options).run();
}

/**
 * The inputs that ask for a job: that of a template, or those that are given, in the order in which they are preferred.
 * @param {unknown} template @returns {import('./events.mjs').SpaceEvent[]}
 */
function inputsOf(template) {
    const isInput = (/** @type {unknown} */ it) => it instanceof SpaceEvent && it.kind === 'in';
    if (isInput(template)) return [/** @type {SpaceEvent} */ (template)];
    if (Array.isArray(template) && template[0] instanceof SpaceEvent) {
        const inputs = Array.from(template);
        if (!inputs.every(isInput)) throw new OutOfRange(`the jobs are several In, or a template: ${shown(template)}`);
        return inputs;
    }
    return [In(...checkedTemplate(template, true))];
}

/**
 * The place of TRIES in a template, or -1. Throws OutOfRange if there are several.
 * @param {import('./values.mjs').Template} template
 */
function placeOfTries(template) {
    const place = template.indexOf(TRIES);
    if (template.lastIndexOf(TRIES) !== place) throw new OutOfRange('TRIES is in a job once');
    return place;
}

/**
 * What ends the works that are under way at SIGTERM: one listener for all of them.
 * @type {Set<() => void>}
 */
const stops = new Set();

function stopAll() {
    const all = [...stops];
    stops.clear();
    for (const stop of all) stop();
}

/** The function has not ended in time. */
const LATE = Symbol('late');
/** It has not ended in the grace after SIGTERM. */
const LEFT = Symbol('left');

class Work {
    #space;
    #inside;
    #inputs;
    #places;
    #work;
    #given;
    #signal;
    #count = 0;
    /** @type {Waiting[]} */
    #waiting = [];
    #isStopping = false;
    #stopper = new AbortController();
    #grace = new AbortController();     // it aborts at the end of the grace
    #lastJob = performance.now();
    /** @type {import('./notes.mjs').Notes | null} */
    #notes = null;

    /**
     * @param {import('./space.mjs').Space} space @param {unknown} template @param {(job: any) => unknown} work
     * @param {WorkOptions} options
     */
    constructor(space, template, work, options) {
        const given = checkedOptions(options, OPTIONS), { tries = null, timeout = null, stop = null, limit = null } = given;
        const templates = inputsOf(template).map((input) => input.template), places = templates.map(placeOfTries);
        if (typeof work !== 'function') throw new OutOfRange(`no function: ${shown(work)}`);
        if (stop !== null && !(stop instanceof SpaceEvent && stop.kind === 'rd')) {
            throw new OutOfRange(`what stops the work is an Rd: ${shown(stop)}`);
        }
        if (given.onerror != null && typeof given.onerror !== 'function') throw new OutOfRange('onerror is a function');
        if (places.some((place) => place >= 0 !== (tries !== null))) {
            throw new OutOfRange('a job has TRIES, how often it failed, with tries, and only then');
        }
        if (tries !== null && templates.some((one) => one.length > MOST_FIELDS - 1)) {
            throw new OutOfRange(`with tries a job has ${MOST_FIELDS - 2} fields at most`);
        }
        this.#space = space;
        this.#inside = insideOf(space);
        this.#inputs = templates.map((one) => In(...one.map((item) => (item === TRIES ? INT : item))));
        this.#places = places;
        this.#work = work;
        this.#signal = checkedSignal(given.signal);
        this.#given = {
            tries: tries === null ? null : Number(within('a count of tries', tries, 1, Number.MAX_SAFE_INTEGER)),
            delay: milliseconds('the delay', given.delay ?? 1_000),
            dead: checkedValue(given.dead ?? 'dead'),
            stop: /** @type {SpaceEvent | null} */ (stop),
            keep: milliseconds('keep', given.keep ?? 500, 1),
            timeout: timeout === null ? null : milliseconds('a timeout', timeout),
            limit: limit === null ? null : milliseconds('a limit', limit, 1),
            grace: milliseconds('the grace', given.grace ?? GRACE),
            onerror: /** @type {(fault: unknown) => void} */ (given.onerror ?? (() => {})),
        };
    }

    async run() {
        /** @type {NodeJS.Timeout | undefined} */
        let timer;
        const stop = () => {
            this.#isStopping = true;
            this.#stopper.abort();
        };
        const end = () => {
            stop();
            timer = setTimeout(() => this.#grace.abort(), Math.min(LONGEST_TIMER, this.#given.grace));
        };
        stops.add(end);
        if (stops.size === 1) process.once('SIGTERM', stopAll);
        this.#signal?.addEventListener('abort', stop);
        if (this.#signal?.aborted) stop();
        try {
            if (this.#given.tries !== null) await this.#countEnded();
            while (!this.#isStopping && await this.#one());
            this.#isStopping = true;
            while (this.#waiting.length > 0) await this.#tryAgain();
            await this.#forgetLast();
        } finally {
            clearTimeout(timer);
            stops.delete(end);
            if (stops.size === 0) process.removeListener('SIGTERM', stopAll);
            this.#signal?.removeEventListener('abort', stop);
            for (const { offer } of this.#waiting) offer.release();
        }
        return this.#count;
    }

    /**
     * What an earlier life under this number had in hand counts as failed, if nobody has it now. What others have is not
     * in the file any more, and counts if it is offered to this life.
     */
    async #countEnded() {
        const notes = this.#notes = await this.#inside.notes();
        for (const noted of [...notes.noted]) {
            if (noted.place !== null && !await this.#isHad(noted)) notes.clear(noted.place);
        }
    }

    /**
     * Holds what an earlier life had in hand, if it is to be had now: then it counts as failed.
     * @param {import('./notes.mjs').Noted} noted
     */
    async #isHad(noted) {
        const isLeft = () => this.#notes?.noted.includes(noted) ?? false;
        const ways = { isHold: true, isOwn: true, hasLimit: true, isPoll: true, at: noted.server };
        const limits = { timeout: null, signal: this.#stopper.signal };
        /** @type {Offer[]} */
        const others = [];
        try {
            for (const input of this.#inputs) {
                // A server offers the least id that is free.
                for (let isBefore = true; isBefore && isLeft() && others.length < MOST_WAITING;) {
                    const event = () => Choose(input, this.#space.after(0));
                    const found = await this.#inside.call((machine) => machine.sync(event(), ways), limits, { isQuiet: true });
                    if (!(found instanceof Offer)) break;
                    if (await this.#hasEnded(found)) continue;
                    others.push(found);
                    isBefore = found.id < noted.id;
                }
            }
        } catch (fault) {
            if (!(isAway(fault) || fault instanceof Refused || fault instanceof Aborted || fault instanceof Busy)) throw fault;
        } finally {
            for (const offer of others) offer.release();
        }
        return !isLeft();
    }

    /**
     * Whether it is what an earlier life had in hand: then it counts as failed.
     * @param {Offer} offer
     */
    async #hasEnded(offer) {
        const place = this.#notes?.placeOf(offer) ?? null;
        if (place !== null) await this.#failed(offer, ENDED, place);
        return place !== null;
    }

    /** One job, or what is due; false if the work is over. */
    async #one() {
        if (this.#waiting.length > 0 && this.#waiting[0].due <= performance.now()) {
            await this.#tryAgain();
            return true;
        }
        const { stop, timeout } = this.#given, now = performance.now();
        const isIdle = timeout !== null && this.#waiting.length === 0;
        const left = isIdle ? Math.max(0, this.#lastJob + timeout - now) : 0;
        const event = () => {
            const alarm = isIdle ? [this.#space.after(left)] : [];
            const due = this.#waiting.length > 0 ? [this.#space.after(Math.max(0, this.#waiting[0].due - now))] : [];
            const inputs = this.#waiting.length < MOST_WAITING ? this.#inputs : [];
            return Choose(...stop === null ? [] : [stop], ...inputs, ...due, ...alarm);
        };
        const ways = { isHold: true, isOwn: true, hasLimit: isIdle, isPoll: isIdle && left === 0 };
        const limits = { timeout: null, signal: this.#stopper.signal };
        const hold = () => this.#inside.call((machine) => machine.sync(event(), ways), limits, { isQuiet: true });
        let ended;
        try {
            ended = await this.#finished(hold, false);
        } catch (fault) {
            if (fault instanceof Aborted && this.#isStopping) return false;
            throw fault;
        }
        if (ended instanceof Offer) {
            if (!await this.#hasEnded(ended)) await this.#do(ended);
            this.#lastJob = performance.now();
            return true;
        }
        return !isIdle && /** @type {import('./results.mjs').Outcome} */ (ended).kind !== 'read';
    }

    /** @param {Offer} offer */
    async #do(offer) {
        this.#inside.keep(offer, this.#given.keep);
        const place = this.#notes?.write(offer) ?? 0;
        try {
            let tuples;
            try {
                tuples = await this.#result(offer.tuple);
            } catch (fault) {
                this.#notes?.clear(place);
                await this.#failed(offer, fault);
                return;
            }
            this.#notes?.clear(place);
            if (tuples === null) offer.release();
            else if (await this.#put(tuples, offer) && await this.#accept(offer)) this.#count += 1;
        } catch (fault) {
            offer.release();
            throw fault;
        }
    }

    /**
     * What the function returns for a job, as tuples, or null if the grace was over before that. Throws what it throws,
     * or that its limit is over: then what it comes to does not matter any more.
     * @param {Tuple} job @returns {Promise<Tuple[] | null>}
     */
    async #result(job) {
        const { limit } = this.#given, { signal } = this.#grace, begin = performance.now();
        /** @type {NodeJS.Timeout | undefined} */
        let timer;
        let leave = () => {};
        const working = (async () => this.#work(job))();
        working.catch(() => {});
        try {
            const result = await Promise.race([working, new Promise((resolve) => {
                if (limit !== null) timer = setTimeout(() => resolve(LATE), Math.min(LONGEST_TIMER, limit));
                leave = () => resolve(LEFT);
                signal.addEventListener('abort', leave);
                if (signal.aborted) leave();
            })]);
            if (result === LEFT) return null;
            if (limit !== null && (result === LATE || performance.now() - begin > limit)) throw new Limit(limit);
            return tuplesOf(result);
        } finally {
            clearTimeout(timer);
            signal.removeEventListener('abort', leave);
        }
    }

    /**
     * The function has thrown, or its limit is over, or an earlier life has ended in it.
     * @param {Offer} offer @param {unknown} fault
     * @param {number | null} [place] that of its note, which is kept until the job is put again
     */
    async #failed(offer, fault, place = null) {
        const { tries, delay, dead } = this.#given, { tuple } = offer;
        if (tries === null) throw fault;
        const at = this.#places[this.#inputs.findIndex(({ template }) => matches(template, tuple))];
        const had = BigInt(/** @type {number} */ (tuple[at])), failed = had < 0n ? 0n : had;
        const count = failed < MOST_INTEGER ? plain(failed + 1n) : MOST_INTEGER;
        const job = [...tuple.slice(0, at), count, ...tuple.slice(at + 1)], isDead = count >= tries;
        const next = isDead ? [dead, ...job, cut(textOf(fault))] : job;
        const due = performance.now() + (isDead || delay === 0 ? 0 : Math.min(LONGEST_TIMER, delay * 2 ** Number(failed)));
        const waiting = { offer, due, next: Object.freeze(next), place };
        if (isDead) {
            await this.#next(waiting);
            return;
        }
        this.#waiting.push(waiting);
        this.#waiting.sort((one, other) => one.due - other.due);
    }

    /** The first job that waits is put again, with its count. */
    async #tryAgain() {
        await this.#next(this.#waiting.splice(0, 1)[0]);
    }

    /** @param {Waiting} waiting */
    async #next({ offer, next, place }) {
        try {
            if (await this.#put([next], offer)) await this.#accept(offer);
            if (place !== null) this.#notes?.clear(place);
        } catch (fault) {
            offer.release();
            throw fault;
        }
    }

    /**
     * Puts these tuples, unless the hold was lost; false if not all were put.
     * @param {Tuple[]} tuples @param {Offer} offer
     */
    async #put(tuples, offer) {
        let rest = tuples;
        for (;;) {
            await turned();
            if (!offer.isHeld) {
                offer.release();
                return false;
            }
            if (rest.length === 0) return true;
            const outs = rest, none = { timeout: null, signal: null };
            const put = () => this.#inside.call((machine) => machine.outMany(outs), none, { isQuiet: true });
            try {
                await this.#finished(put, true);
                rest = [];
            } catch (fault) {
                if (!await this.#bearsFull(fault, offer)) return false;
                const { stored } = /** @type {any} */ (fault);
                rest = rest.filter((_, place) => stored[place] === null);
            }
        }
    }

    /**
     * Takes the job away; false if the hold was lost.
     * @param {Offer} offer
     */
    async #accept(offer) {
        for (;;) {
            try {
                await this.#finished(() => offer.accept(), false);
                return true;
            } catch (fault) {
                if (fault instanceof Gone) return false;
                if (!await this.#bearsFull(fault, offer)) return false;
            }
        }
    }

    /**
     * Whether a server without room is tried again; if the work must end the job is free.
     * @param {unknown} fault @param {Offer} offer
     */
    async #bearsFull(fault, offer) {
        if (!(fault instanceof Refused && fault.reason === 'Full')) throw fault;
        this.#given.onerror(fault);
        if (this.#isStopping) {
            offer.release();
            return false;
        }
        await this.#pause();
        return true;
    }

    /**
     * A call, again while a server is away, and after what else is pending; `isOnce`: what is pending after an error is
     * gone on with, and not called again.
     * @template T @param {() => Promise<T>} call @param {boolean} isOnce
     */
    async #finished(call, isOnce) {
        const none = { timeout: null, signal: null }, ways = { isAgain: true, isQuiet: true };
        const goOn = () => this.#inside.call((machine) => machine.goOn(), none, ways);
        let next = /** @type {() => Promise<any>} */ (call);
        for (;;) {
            try {
                return await next();
            } catch (fault) {
                if (fault instanceof Busy) {
                    next = async () => {
                        await this.#inside.finish();
                        next = call;
                        return call();
                    };
                    continue;
                }
                if (!isAway(fault)) throw fault;
                this.#given.onerror(fault);
                if (this.#isStopping) throw fault;
                await this.#pause();
                if (isOnce && fault.pending === 'outMany') next = goOn;
            }
        }
    }

    /** Waits for some time, or less if the work must end. */
    async #pause() {
        const { signal } = this.#stopper;
        if (signal.aborted) return;
        await new Promise((resolve) => {
            const end = () => {
                clearTimeout(timer);
                signal.removeEventListener('abort', end);
                resolve(undefined);
            };
            const timer = setTimeout(end, PAUSE);
            signal.addEventListener('abort', end);
        });
    }

    /** Makes each server that keeps the last job as taken keep another reply, so that nobody takes the job for unfinished. */
    async #forgetLast() {
        const machine = this.#inside.machine(), limits = { timeout: this.#inside.patience, signal: null };
        for (const server of machine.servers) {
            if (machine.kept[server] !== 'taken' || machine.task !== null) continue;
            try {
                await this.#inside.call((own) => own.pass(server), limits, { isQuiet: true });
            } catch (fault) {
                const isBorne = fault instanceof NoConnection || fault instanceof TimedOut || fault instanceof Refused;
                if (!isBorne) throw fault;
                this.#given.onerror(fault);
            }
        }
    }
}

/**
 * Whether the error says that a server is away, or that it still has another connection under this number.
 * @param {unknown} fault
 */
function isAway(fault) {
    return fault instanceof NoConnection || fault instanceof TimedOut || fault instanceof Refused && fault.reason === 'Busy';
}

/** The time of a function was over. */
class Limit extends Error {
    /** @param {number} limit */
    constructor(limit) {
        super(`the limit of ${limit / 1_000} s`);
    }

    toString() {
        return this.message;
    }
}

/**
 * What a function returned, as tuples.
 * @param {any} result @returns {Tuple[]}
 */
function tuplesOf(result) {
    if (result == null) return [];
    const items = Array.isArray(result) ? Array.from(result) : null, isMany = items?.length === 0 || Array.isArray(items?.[0]);
    if (items === null || isMany && !items.every(Array.isArray)) {
        throw new TypeError(`a worker's function returns nothing, a tuple or an array of tuples: ${shown(result)}`);
    }
    return isMany ? items.map(checkedTuple) : [checkedTuple(items)];
}

/** @param {unknown} fault */
function textOf(fault) {
    try {
        return String(fault);
    } catch {
        return 'an error without a text';
    }
}

/**
 * A text, cut to `MOST_DEAD_TEXT` bytes at most, at the border of a character.
 * @param {string} text
 */
function cut(text) {
    const data = Buffer.from(text);
    let end = Math.min(data.length, MOST_DEAD_TEXT);
    while (end < data.length && (data[end] & 0xc0) === 0x80) end -= 1;
    return data.toString('utf8', 0, end);
}
