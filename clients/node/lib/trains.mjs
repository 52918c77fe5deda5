/**
 * Several numbered messages under way at once, 64 at most: outs, or the Accepts of takes. Those to one server have
 * rising numbers, and are answered in order; if one is refused those after it are refused too, and none is done.
 *
 * After a lost connection Welcome's last number says how many of them were done: those up to it.
 */

import { Spent } from './errors.mjs';
import { frames } from './frames.mjs';
import { MOST_ASKS, MOST_UNDER_WAY, NUMBER_LIMIT, plain } from './limits.mjs';
import { Outcome } from './results.mjs';
import { bindsOf, matches } from './values.mjs';

/**
 * @typedef {import('./machine.mjs').Machine} Machine
 * @typedef {import('./machine.mjs').Arrival} Arrival
 * @typedef {import('./errors.mjs').Refused} Refused
 * @typedef {import('./frames.mjs').Reply} Reply
 * @typedef {import('./values.mjs').Tuple} Tuple
 * @typedef {import('./values.mjs').Template} Template
 *
 * The place of a tuple that was put: `id` is null if it was put, and the answer was lost with a connection.
 * @typedef {{ server: number, id: number | bigint | null }} Put
 */

/** Several outs or takes have ended. */
export class Many {
    /** @param {OutTrain | TakeTrain} train */
    constructor(train) {
        this.train = train;
    }
}

/**
 * What is under way at each server: by rising number.
 * @template {{ number: bigint }} M
 */
class Flights {
    /** @type {Map<number, M[]>} */
    lists = new Map();

    /** @param {number} server @returns {M[]} */
    at(server) {
        const list = this.lists.get(server) ?? [];
        this.lists.set(server, list);
        return list;
    }

    get count() {
        return [...this.lists.values()].reduce((sum, list) => sum + list.length, 0);
    }
}

/**
 * Outs that are pending: `next` is the place of the first that was not sent, `done` what is known of each, `fault` the
 * first refusal. After it nothing more is sent, and the answers to the rest are waited for.
 */
export class OutTrain {
    kind = /** @type {const} */ ('outMany');
    next = 0;
    /** @type {Refused | null} */
    fault = null;
    /** @type {Flights<{ number: bigint, place: number }>} */
    #flights = new Flights();
    /** @type {Set<number>} */
    #refusing = new Set();

    /** @param {Machine} machine @param {{ server: number, tuple: Tuple }[]} outs */
    constructor(machine, outs) {
        this.machine = machine;
        this.outs = outs;
        /** @type {(Put | null)[]} */
        this.done = outs.map(() => null);
    }

    /** @param {number} server */
    flight(server) {
        return this.#flights.at(server);
    }

    /** @param {number} server */
    needs(server) {
        return this.flight(server).length > 0;
    }

    /** Sends what there is room for; ends if nothing is left. */
    goOn() {
        const { machine } = this;
        while (this.fault === null && this.next < this.outs.length && this.#flights.count < MOST_UNDER_WAY) {
            const { server, tuple } = this.outs[this.next], list = this.flight(server);
            const number = machine.numbers[server] + BigInt(list.length);
            list.push({ number, place: this.next });
            machine.sent.push([server, frames.out(number, tuple)]);
            this.next += 1;
        }
        if (this.#flights.count === 0) {
            machine.task = null;
            machine.ended = new Many(this);
        }
    }

    /**
     * The first message under way at that server has this answer.
     * @param {number} server @param {Reply} reply
     */
    answered(server, reply) {
        if (reply.kind !== 'stored') this.machine.inUse(server, reply);
        this.#putFirst(server, plain(reply.id));
        this.goOn();
    }

    /** @param {number} server @param {number | bigint | null} id */
    #putFirst(server, id) {
        const [{ number, place }] = this.flight(server).splice(0, 1);
        this.done[place] = { server, id };
        this.machine.numbers[server] = number + 1n;
        this.machine.kept[server] = 'stored';
    }

    /**
     * The first message under way at that server was not done.
     * @param {number} server @param {Refused} fault
     */
    refused(server, fault) {
        this.flight(server).shift();
        this.#refusing.add(server);
        this.fault ??= fault;
        this.goOn();
    }

    /** It stays pending after an error. */
    drop() {}

    lost() {}

    probed() {}

    /**
     * The messages before `last` were done, and no server keeps their replies. That with `last` is sent again for its reply,
     * and what is after it because it was not done: but not after one that was refused.
     * @param {number} server @param {bigint} last
     */
    reconnected(server, last) {
        const list = this.flight(server);
        while (list.length > 0 && list[0].number < last) this.#putFirst(server, null);
        if (this.#refusing.has(server)) list.length = 0;
        for (const { number, place } of list) {
            this.machine.sent.push([server, frames.out(number, this.outs[place].tuple)]);
        }
        this.goOn();
    }
}

/**
 * Takes that are pending, at one server after another. Each is asked for as many tuples as may be open, and then for what
 * is always answered: what was not offered until then is not there, and is cancelled. What is offered is accepted at
 * once. An Accept over the connection of its Offer is always answered by Taken.
 *
 * - `tickets`: those that are asked under, and were not offered anything. `isAsking`: the answer after them is due.
 * - `isEmpty`: the server has no more. `got`, `taken`: how many were taken, and which, if they are kept.
 * - `told`: how many of `taken` an error has reported. `isDropped`: it ended by an error, and only answers are waited for.
 */
export class TakeTrain {
    server = 0;
    /** @type {Set<bigint>} */
    tickets = new Set();
    isAsking = false;
    isEmpty = false;
    isDropped = false;
    got = 0;
    /** @type {{ server: number, id: number | bigint, tuple: Tuple }[]} */
    taken = [];
    told = 0;
    /** @type {Refused | null} */
    fault = null;
    /** @type {Flights<{ number: bigint, ticket: bigint, id: bigint, tuple: Tuple }>} */
    #flights = new Flights();

    /** @param {Machine} machine @param {'takeMany' | 'purge'} kind @param {Template} template @param {number} count */
    constructor(machine, kind, template, count) {
        this.machine = machine;
        this.kind = kind;
        this.template = template;
        this.count = count;
        if (kind === 'takeMany') {
            const isFit = (/** @type {Outcome} */ had) => matches(template, had.tuple ?? []);
            const had = machine.inHand.filter(isFit).slice(0, count);
            machine.inHand = machine.inHand.filter((outcome) => !had.includes(outcome));
            for (const { server, id, tuple } of had) {
                this.#keep(/** @type {number} */ (server), BigInt(id ?? 0), /** @type {Tuple} */ (tuple));
            }
        }
    }

    /** @param {number} server */
    flight(server) {
        return this.#flights.at(server);
    }

    get #isStopped() {
        return this.fault !== null || this.isDropped;
    }

    get #hasEnded() {
        return this.#isStopped || this.got >= this.count || this.server >= this.machine.servers.length;
    }

    /** @param {number} server */
    needs(server) {
        return this.flight(server).length > 0 || !this.#hasEnded && this.server === server;
    }

    /** Asks the server, or the next one, if all that it was asked for is answered; ends if nothing is left. */
    goOn() {
        if (this.isAsking || this.#flights.count > 0) return;
        if (this.isEmpty) {
            this.server += 1;
            this.isEmpty = false;
        }
        if (this.#hasEnded) {
            this.machine.task = null;
            this.machine.ended = new Many(this);
        } else if (this.machine.isUp[this.server]) {
            this.#ask();
        }
    }

    #ask() {
        const { machine, server } = this;
        const room = Math.max(1, MOST_ASKS - machine.heldAt(server));
        const tickets = machine.newTickets(Math.min(room, this.count - this.got));
        this.tickets = new Set(tickets);
        this.isAsking = true;
        for (const ticket of tickets) machine.sent.push([server, frames.ask(ticket, true, this.template)]);
        machine.probe(server);
    }

    /**
     * Whether what arrived is for these takes: an offer is accepted.
     * @param {Arrival} arrival
     */
    arrived({ server, ticket, id, tuple, isOffer }) {
        const list = this.flight(server);
        if (server !== this.server || !this.tickets.has(ticket)) return list.some((own) => own.ticket === ticket);
        if (isOffer && matches(this.template, tuple)) {
            const number = this.machine.numbers[server] + BigInt(list.length);
            if (number >= NUMBER_LIMIT) throw new Spent('no number is left');
            this.tickets.delete(ticket);
            list.push({ number, ticket, id, tuple });
            this.machine.sent.push([server, frames.accept(number, ticket, id)]);
        }
        return true;
    }

    /**
     * All asks were answered: what the server has not offered until now is not there.
     * @param {number} server
     */
    probed(server) {
        if (server !== this.server || !this.isAsking) return;
        this.isEmpty = this.tickets.size > 0;
        this.#stopAsking();
        this.goOn();
    }

    #stopAsking() {
        for (const ticket of this.tickets) this.machine.sent.push([this.server, frames.cancel(ticket)]);
        this.tickets.clear();
        this.isAsking = false;
    }

    /** @param {number} server @param {bigint} id @param {Tuple} tuple */
    #keep(server, id, tuple) {
        this.got += 1;
        if (this.kind === 'takeMany') this.taken.push({ server, id: plain(id), tuple });
    }

    /**
     * The first Accept under way at that server has this answer.
     * @param {number} server @param {Reply} reply
     */
    answered(server, reply) {
        const [{ number, id, tuple }] = this.flight(server);
        const isTaken = reply.kind === 'taken' && reply.id === id && matches(tuple, reply.tuple);
        if (!isTaken && reply.kind !== 'gone') this.machine.inUse(server, reply);
        this.flight(server).shift();
        this.machine.numbers[server] = number + 1n;
        if (isTaken) this.#keep(server, id, tuple);
        else this.isEmpty = false;
        this.goOn();
    }

    /**
     * The first Accept under way at that server was not done, and its tuple is held no more.
     * @param {number} server @param {Refused} fault
     */
    refused(server, fault) {
        const [{ ticket }] = this.flight(server).splice(0, 1);
        this.machine.sent.push([server, frames.cancel(ticket)]);
        this.fault ??= fault;
        this.#stopAsking();
        this.goOn();
    }

    /** It ended by an error: only what is under way is waited for. */
    drop() {
        if (this.isDropped) return;
        this.isDropped = true;
        this.told = this.taken.length;
        this.machine.lastDropped = this.machine.ticket - 1n;
        this.#stopAsking();
        if (this.#flights.count === 0) this.machine.task = null;
    }

    /** @param {number} server */
    lost(server) {
        if (server !== this.server) return;
        this.tickets.clear();
        this.isAsking = false;
    }

    /**
     * The tuples of the Accepts up to `last` were taken, and no others.
     * @param {number} server @param {bigint} last
     */
    reconnected(server, last) {
        for (const { number, id, tuple } of this.flight(server).splice(0)) {
            if (number > last) {
                this.isEmpty = false;           // it is free again
                continue;
            }
            this.#keep(server, id, tuple);
            this.machine.numbers[server] = number + 1n;
            this.machine.kept[server] = 'taken';
        }
        this.goOn();
    }

    /**
     * What was taken and no error has reported, as the outcomes of takes.
     * @returns {Outcome[]}
     */
    outcomes() {
        return this.taken.slice(this.told).map((got) => (
            new Outcome(0, 'took', [], [], got, bindsOf(this.template, got.tuple))));
    }
}
