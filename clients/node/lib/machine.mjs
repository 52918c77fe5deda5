/** The client that docs/PROTOCOL.md describes: a machine that says what must be sent, and is given what arrives. */

import { Busy, Gone, Idle, Left, NumberInUse, Refused, Spent } from './errors.mjs';
import { basesAndNacks } from './events.mjs';
import { frames } from './frames.mjs';
import { JUDGED, NUMBER_LIMIT, plain, REFUSALS } from './limits.mjs';
import { Kept, Offer, Outcome, Stored } from './results.mjs';
import { Many, OutTrain, TakeTrain } from './trains.mjs';
import { bindsOf, matches, range } from './values.mjs';

/**
 * What is pending: an Out, a request for a kept reply, the Accept of an offer that was held, an Accept that changes
 * nothing, Leaves that are not answered (the number of each, by server), several messages under way, or a
 * synchronization.
 * @typedef {{ kind: 'out', server: number, number: bigint, tuple: Tuple }} Putting
 * @typedef {{ kind: 'lastReply', server: number, number: bigint }} Asking
 * @typedef {{ kind: 'accept', server: number, number: bigint, offer: Offer }} Taking
 * @typedef {{ kind: 'pass', server: number, number: bigint }} Passing
 * @typedef {{ kind: 'leave', numbers: Map<number, bigint> }} Leaving
 * @typedef {Putting | Asking | Taking | Passing} Single
 * @typedef {Single | Leaving | OutTrain | TakeTrain | Sync} Task
 *
 * An Offer or a Read that came; an Accept that is not answered.
 * @typedef {{ server: number, ticket: bigint, id: bigint, tuple: Tuple, isOffer: boolean }} Arrival
 * @typedef {{ server: number, number: bigint, ticket: bigint, id: bigint, tuple: Tuple }} Accepted
 *
 * How something ended: a leave as 'left', a pass as 'passed', the accept of an offer as a Taken, several outs or takes
 * as what their train has, or as the Refused that ended them.
 * @typedef {Stored | Kept | Outcome | Offer | Gone | Refused | Taken | Many | 'left' | 'passed'} Ended
 *
 * `hasLimit`: the last base is the alarm of the call's own time. `isPoll`, `isHold`: see Sync. `isOwn`: the caller
 * that holds the tuple sees its loss itself, and no call reports it. `at`: the only server that is asked.
 * @typedef {{ hasLimit?: boolean, isPoll?: boolean, isHold?: boolean, isOwn?: boolean, at?: number | null }} Ways
 *
 * @typedef {import('./values.mjs').Value} Value
 * @typedef {import('./values.mjs').Tuple} Tuple
 * @typedef {import('./values.mjs').Template} Template
 * @typedef {import('./events.mjs').SpaceEvent} SpaceEvent
 * @typedef {import('./events.mjs').Base} Base
 * @typedef {import('./frames.mjs').Reply} Reply
 */

/** An offer that was held was taken. */
export class Taken {
    /** @param {Offer} offer */
    constructor(offer) {
        this.outcome = new Outcome(0, 'took', [], [], offer, offer.binds);
    }
}

/**
 * A synchronization that is pending: what is open under each ticket, by rising ticket, the unanswered Accept, and what
 * is saved, oldest first.
 *
 * - `limit`: the alarm of the call's own `timeout`. When it is ready each server is sent a message after the Asks that
 *   is always answered; `unsure` are those that have not answered it. It is chosen once all have.
 * - `isPoll`: there is no time: the servers are asked that at once.
 * - `isHold`: an offer is not accepted, but handed on as it is.
 * - `servers`: those that are asked. `askedAgain`: those that the Asks were sent to again.
 * - `isDropped`: it ended by an error. Only the answer to its Accept is waited for.
 */
export class Sync {
    kind = /** @type {const} */ ('sync');
    /** @type {Map<bigint, Base>} */
    tickets = new Map();
    /** @type {Accepted | null} */
    accepted = null;
    /** @type {Arrival[]} */
    saved = [];
    /** @type {Set<number>} */
    askedAgain = new Set();
    /** @type {Set<number> | null} */
    unsure = null;
    isDropped = false;

    /** @param {SpaceEvent} event @param {Ways} ways @param {number[]} servers */
    constructor(event, { hasLimit = false, isPoll = false, isHold = false, isOwn = false, at = null }, servers) {
        const { bases, nacks } = basesAndNacks(event);
        this.servers = at === null ? servers : [at];
        this.bases = bases;
        this.nacks = nacks;
        this.asked = bases.filter((base) => base.leaf.isAsked);
        this.limit = hasLimit && this.asked.length > 0 ? bases[bases.length - 1] : null;
        this.isPoll = isPoll;
        this.isHold = isHold;
        this.isOwn = isOwn;
    }

    /**
     * What is open under a ticket that is known to be open.
     * @param {bigint} ticket
     */
    base(ticket) {
        return /** @type {Base} */ (this.tickets.get(ticket));
    }

    /**
     * The first alarm whose time has come.
     * @param {number} clock
     */
    ringing(clock) {
        return this.bases.find(({ leaf }) => leaf.kind === 'alarm' && leaf.time <= clock) ?? null;
    }

    /** When the first alarm is ready, but for that of the call's own time once the servers are asked. */
    nextTime() {
        const isWaited = (/** @type {Base} */ base) => base !== this.limit || this.unsure === null;
        const alarms = this.bases.filter((base) => base.leaf.kind === 'alarm' && isWaited(base));
        return alarms.length === 0 ? null : Math.min(...alarms.map((base) => Number(base.leaf.time)));
    }

    /** @param {Base} base @param {Outcome['kind']} kind @param {Arrival | Outcome | null} [got] */
    outcome(base, kind, got = null) {
        const raised = this.nacks.filter((_, place) => !base.above.includes(place));
        if (got === null) {
            const value = kind === 'always' ? base.leaf.value : null;
            return new Outcome(base.number, kind, base.labels, raised, null, [], value);
        }
        const tuple = /** @type {Tuple} */ (got.tuple);
        const found = { server: /** @type {number} */ (got.server), id: plain(BigInt(got.id ?? 0)), tuple };
        return new Outcome(base.number, kind, base.labels, raised, found, bindsOf(base.leaf.template, tuple));
    }
}

/**
 * The client: its clock, its next numbers, and what is pending. What a call sends is appended to `sent`, as pairs of
 * a server and a frame; if what was pending has ended, `ended` says how.
 *
 * - `isUp`, `probes`: for each server whether it is greeted, and how many answers to messages with number 0 it owes.
 * - `kept`: for each server what answered the last numbered message of this life there, null if there was none.
 * - `held`: the offers that are held, by server and ticket. `own` are those whose loss no call reports.
 * - `untold`: the offers that were lost, and no call has reported it.
 * - `inHand`: what was taken for calls that ended by an error before.
 * - `dropped`: the nack numbers of a synchronization that ended by an error, until the next one.
 */
export class Machine {
    clock = 0;
    ticket = 1n;
    outs = 0;
    hasLeft = false;
    /** @type {Task | null} */
    task = null;
    /** @type {[number, Uint8Array][]} */
    sent = [];
    /** @type {Ended | null} */
    ended = null;
    /** @type {Map<string, Offer>} */
    held = new Map();
    /** @type {WeakSet<Offer>} */
    own = new WeakSet();
    /** @type {Offer[]} */
    untold = [];
    /** @type {Outcome[]} */
    inHand = [];
    /** @type {(number | bigint)[] | null} */
    dropped = null;
    lastDropped = 0n;                   // the greatest ticket of a synchronization that ended by an error

    /**
     * @param {number} client @param {number} count
     * @param {import('./results.mjs').OfferCalls & { ended: (offer: Offer, isOver: boolean) => void }} calls
     *   `ended` hears that an offer is not held any more; `isOver`: it was taken or released, or Gone was thrown.
     */
    constructor(client, count, calls) {
        this.client = client;
        this.calls = calls;
        this.servers = range(0, count);
        this.numbers = this.servers.map(() => 1n);
        this.isUp = this.servers.map(() => false);
        this.probes = this.servers.map(() => 0);
        this.kept = /** @type {(Kept['kind'] | null)[]} */ (this.servers.map(() => null));
    }

    // ---- calls

    /**
     * The j-th out of client c, from 0, goes to server (c + j) mod S.
     * @param {Tuple} tuple
     */
    out(tuple) {
        this.beIdle();
        const server = this.serverOf(0);
        this.begin({ kind: 'out', server, number: this.nextNumber(server), tuple });
        this.outs += 1;
    }

    /**
     * The server of the out that comes after `others` further ones.
     * @param {number} others
     */
    serverOf(others) {
        return (this.client + this.outs + others) % this.servers.length;
    }

    /**
     * Puts these tuples, each as `out` does.
     * @param {readonly Tuple[]} tuples
     */
    outMany(tuples) {
        this.beIdle();
        for (const server of this.servers) this.nextNumber(server, tuples.length);
        const train = new OutTrain(this, tuples.map((tuple, place) => ({ server: this.serverOf(place), tuple })));
        this.outs += tuples.length;
        this.task = train;
        train.goOn();
    }

    /**
     * Takes what matches and is there now, `count` at most; what is in hand comes first, if the tuples are kept.
     * @param {'takeMany' | 'purge'} kind @param {Template} template @param {number} count @returns {TakeTrain}
     */
    takeMany(kind, template, count) {
        this.beIdle();
        const train = new TakeTrain(this, kind, template, count);
        this.task = train;
        train.goOn();
        return train;
    }

    /**
     * Asks for the kept reply to the last number, if there is one. The message that is sent under that number does not matter.
     * @param {number} server
     */
    lastReply(server) {
        this.beIdle();
        const number = this.numbers[server] - 1n;
        if (number > 0n) this.begin({ kind: 'lastReply', server, number });
    }

    /** Gives the number up at all servers. */
    leave() {
        this.beIdle();
        const numbers = new Map(this.servers.map((server) => [server, this.nextNumber(server)]));
        this.begin({ kind: 'leave', numbers });
    }

    /**
     * Accepts an offer that is held, or goes on with its Accept.
     * @param {Offer} offer
     */
    takeHeld(offer) {
        if (offer.isTaken) return;
        if (this.isTaking(offer)) {
            this.goOn();
            return;
        }
        this.beIdle();
        if (!this.isHeld(offer)) throw this.told([offer]);
        this.begin({ kind: 'accept', server: offer.server, number: this.nextNumber(offer.server), offer });
    }

    /**
     * Sends a message that changes nothing: an Accept of nothing, whose reply is kept.
     * @param {number} server
     */
    pass(server) {
        this.beIdle();
        this.begin({ kind: 'pass', server, number: this.nextNumber(server) });
    }

    /** @param {Offer} offer */
    renew(offer) {
        if (!this.isHeld(offer)) throw this.told([offer]);
        this.renewAt(offer.server);
    }

    /** Sends a message that changes nothing to each server that holds something. */
    renewAll() {
        for (const server of new Set(Array.from(this.held.values(), (offer) => offer.server))) this.renewAt(server);
    }

    /**
     * A Cancel of a ticket that is never open.
     * @param {number} server
     */
    renewAt(server) {
        this.sent.push([server, frames.cancel(NUMBER_LIMIT - 1n)]);
    }

    /**
     * Gives what is held free again, if it is held and no Accept of it is unanswered. If it was lost no call reports that.
     * @param {Offer} offer
     */
    release(offer) {
        if (this.isHeld(offer) && !this.isTaking(offer)) {
            this.held.delete(placeOf(offer));
            this.sent.push([offer.server, frames.cancel(offer.ticket)]);
        }
        this.untold = this.untold.filter((other) => other !== offer);
        this.calls.ended(offer, true);
    }

    /**
     * The Gone of these offers, whose loss no other call reports.
     * @param {readonly Offer[]} offers
     */
    told(offers) {
        this.untold = this.untold.filter((other) => !offers.includes(other));
        for (const offer of offers) this.calls.ended(offer, true);
        return new Gone(offers);
    }

    /**
     * The tuples that a server held are not held any more.
     * @param {number} server
     */
    loseHolds(server) {
        for (const offer of [...this.held.values()]) {
            if (offer.server !== server) continue;
            this.held.delete(placeOf(offer));
            if (!this.isTaking(offer) && !this.own.has(offer)) this.untold.push(offer);
            this.calls.ended(offer, false);
        }
    }

    /**
     * How many offers that server holds.
     * @param {number} server
     */
    heldAt(server) {
        return [...this.held.values()].filter((offer) => offer.server === server).length;
    }

    /** @param {SpaceEvent} event @param {Ways} ways */
    sync(event, ways) {
        this.beIdle();
        const sync = new Sync(event, ways, this.servers);
        this.dropped = null;
        for (const base of sync.bases) {
            const { leaf } = base;
            if (leaf.kind === 'always' || leaf.kind === 'alarm' && leaf.time <= this.clock && base !== sync.limit) {
                this.commit(sync, base, leaf.kind);
                return;
            }
            const isIn = leaf.kind === 'in' && !sync.isHold;
            const place = isIn ? this.inHand.findIndex((had) => matches(leaf.template, had.tuple ?? [])) : -1;
            if (place >= 0) {
                this.ended = sync.outcome(base, 'took', this.inHand[place]);
                this.inHand.splice(place, 1);
                return;
            }
        }
        for (const [place, ticket] of this.newTickets(sync.asked.length).entries()) {
            sync.tickets.set(ticket, sync.asked[place]);
        }
        this.begin(sync);
        if (sync.isPoll) this.ring(sync);
    }

    /**
     * The task is pending from now on.
     * @param {Task} task
     */
    begin(task) {
        this.task = task;
        this.sent.push(...this.unanswered());
    }

    /**
     * The next number at that server, if `count` numbers are left.
     * @param {number} server @param {number} [count]
     */
    nextNumber(server, count = 1) {
        if (this.numbers[server] + BigInt(count) > NUMBER_LIMIT) throw new Spent('no number is left');
        return this.numbers[server];
    }

    /**
     * The next `count` tickets.
     * @param {number} count
     */
    newTickets(count) {
        if (this.ticket + BigInt(count) > NUMBER_LIMIT) throw new Spent('no ticket is left');
        const tickets = range(0, count).map((place) => this.ticket + BigInt(place));
        this.ticket += BigInt(count);
        return tickets;
    }

    beHere() {
        if (this.hasLeft) throw new Left('the client has left');
    }

    beIdle() {
        this.beHere();
        if (this.task !== null) throw new Busy('an earlier call has not ended');
    }

    /** @param {Offer} offer */
    isHeld(offer) {
        return this.held.get(placeOf(offer)) === offer;
    }

    /** @param {Offer} offer */
    isTaking(offer) {
        return this.task?.kind === 'accept' && this.task.offer === offer;
    }

    /**
     * Sends what is unanswered once more, to the servers that are up, since one of them may have refused it; but no
     * Accept of a synchronization, which is over if it was refused, and none of several messages under way.
     */
    goOn() {
        const { task } = this;
        if (task === null && this.inHand.length === 0) throw new Idle('nothing is pending');
        if (isTrain(task)) task.goOn();
        else if (task?.kind !== 'sync') this.sent.push(...this.unanswered().filter(([server]) => this.isUp[server]));
    }

    // ---- after an error

    /**
     * A call ended by an error. A synchronization is over, but for the answer to its Accept; all else stays pending.
     */
    giveUp() {
        const { ended, task } = this;
        if (ended !== null) {
            this.file(ended);
        } else if (isTrain(task)) {
            task.drop();
        } else if (task?.kind === 'sync' && !task.isDropped) {
            this.dropped = [...task.nacks];
            this.lastDropped = this.ticket - 1n;
            const own = task.accepted;
            this.cancel(task, own);
            task.saved = [];
            task.isDropped = true;
            if (own === null) this.task = null;
            else task.tickets = new Map([[own.ticket, task.base(own.ticket)]]);
        }
    }

    /**
     * Keeps how a task ended whose call is over.
     * @param {Ended} ended
     */
    file(ended) {
        this.task = this.ended = null;
        if (ended instanceof Outcome && ended.kind === 'took') this.inHand.push(ended);
        if (ended instanceof Offer) this.release(ended);
        if (ended instanceof Many && ended.train instanceof TakeTrain) this.inHand.push(...ended.train.outcomes());
    }

    /** The nack numbers of the synchronization that ended by an error. */
    abandon() {
        this.beHere();
        if (this.inHand.length > 0 || this.task?.kind === 'sync') {
            throw new Busy('a tuple may have been taken for it: go on by again()');
        }
        const raised = this.dropped;
        if (raised === null) throw new Idle('no synchronization ended by an error');
        this.dropped = null;
        return raised;
    }

    /** A server is an older one than it was: what is pending will have no answer. */
    forget() {
        if (this.task?.kind === 'sync' && !this.task.isDropped) this.task.accepted = null;
        else this.task = null;
    }

    // ---- what is unanswered, and to whom

    /**
     * What is not answered: an Out, an Accept or the Leaves, and then the Asks of all open tickets, by rising ticket,
     * then rising server.
     * @returns {[number, Uint8Array][]}
     */
    unanswered() {
        const { task } = this;
        switch (task?.kind) {
            case 'out':
                return [[task.server, frames.out(task.number, task.tuple)]];
            case 'lastReply':
                return [[task.server, frames.accept(task.number, 0, 0)]];
            case 'accept':
                return [[task.server, frames.accept(task.number, task.offer.ticket, task.offer.id)]];
            case 'pass':
                return [[task.server, frames.accept(task.number, 0, 0)]];
            case 'leave':
                return Array.from(task.numbers, ([server, number]) => [server, frames.leave(number)]);
            case 'sync': {
                const own = task.accepted;
                /** @type {[number, Uint8Array][]} */
                const packets = own === null ? [] : [[own.server, frames.accept(own.number, own.ticket, own.id)]];
                for (const [ticket, { leaf }] of task.isDropped ? [] : task.tickets) {
                    const ask = frames.ask(ticket, leaf.kind === 'in', leaf.template);
                    for (const server of task.servers) packets.push([server, ask]);
                }
                return packets;
            }
            default:
                return [];
        }
    }

    /**
     * How many numbered messages to that server are not answered; a request for a kept reply does not count.
     * @param {number} server
     */
    unansweredAt(server) {
        const { task } = this;
        if (task === null || task.kind === 'lastReply') return 0;
        if (isTrain(task)) return task.flight(server).length;
        if (task.kind === 'leave') return task.numbers.has(server) ? 1 : 0;
        return (task.kind === 'sync' ? task.accepted?.server : task.server) === server ? 1 : 0;
    }

    /**
     * Whether what is pending cannot end without that server.
     * @param {number} server
     */
    needs(server) {
        const { task } = this;
        if (task === null) return false;
        if (isTrain(task)) return task.needs(server);
        if (task.kind === 'leave') return task.numbers.has(server);
        if (task.kind !== 'sync') return task.server === server;
        return task.isDropped ? task.accepted?.server === server : task.tickets.size > 0 && task.servers.includes(server);
    }

    /** The servers whose answer is waited for; for a synchronization those that are away, if there are any. */
    missing() {
        const { task } = this;
        if (task === null) return [];
        if (isTrain(task)) return this.servers.filter((server) => task.needs(server));
        if (task.kind === 'leave') return [...task.numbers.keys()];
        if (task.kind !== 'sync') return [task.server];
        if (task.accepted !== null) return [task.accepted.server];
        const away = task.servers.filter((server) => !this.isUp[server]);
        return away.length > 0 ? away : task.servers.filter((server) => task.unsure?.has(server) ?? true);
    }

    /**
     * The connection is over: the server holds nothing for this client any more, and owes it nothing.
     * @param {number} server
     */
    lost(server) {
        this.isUp[server] = false;
        this.probes[server] = 0;
        this.loseHolds(server);
        if (isTrain(this.task)) this.task.lost(server);
    }

    /**
     * That server has welcomed the client, with this last number.
     * @param {number} server @param {bigint} last
     */
    reconnected(server, last) {
        this.isUp[server] = true;
        if (isTrain(this.task)) this.task.reconnected(server, last);
        this.sent.push(...this.unanswered().filter(([other]) => other === server));
        if (this.task?.kind === 'sync' && !this.task.isDropped) {
            if (this.task.tickets.size > 0) this.task.askedAgain.add(server);
            if (this.task.unsure?.has(server)) this.probe(server);
        }
    }

    // ---- what arrives

    /** @param {number} now */
    tick(now) {
        this.clock = Math.max(this.clock, now);
        if (this.task?.kind === 'sync' && this.task.accepted === null) this.ring(this.task);
    }

    /**
     * The first alarm that is ready is chosen, if no Accept is unanswered. That of the call's own time waits for an
     * answer of each server.
     * @param {Sync} sync
     */
    ring(sync) {
        const base = sync.ringing(this.clock);
        if (base === null) return;
        if (base === sync.limit) {
            if (sync.unsure === null) {
                sync.unsure = new Set(sync.servers);
                for (const server of sync.servers) {
                    if (this.isUp[server]) this.probe(server);
                }
            }
            if (sync.unsure.size > 0) return;
        }
        this.commit(sync, base, 'alarm');
    }

    /**
     * A message that is always refused Old and changes nothing. Messages are answered in order, so what was before it
     * was seen then.
     * @param {number} server
     */
    probe(server) {
        this.sent.push([server, frames.accept(0, 0, 0)]);
        this.probes[server] += 1;
    }

    /**
     * Takes a reply. Throws Refused if it is one, and Spent if an offer would be accepted and no number is left. While
     * the client leaves, Refused with Left is as good as Left: an earlier life of it has left that server.
     * @param {number} server @param {Reply} reply
     */
    receive(server, reply) {
        const { task } = this;
        if (isNumbered(reply.kind) && reply.number >= this.numbers[server] && this.unansweredAt(server) > 0) {
            this.kept[server] = reply.kind;
        }
        const isLeft = reply.kind === 'refused' && REFUSALS[Number(reply.number)] === 'Left';
        if (task?.kind === 'leave' && task.numbers.has(server)
            && (isLeft || reply.kind === 'left' && task.numbers.get(server) === reply.number)) {
            this.left(server, task, !isLeft);
        } else if (reply.kind === 'refused') {
            this.refused(server, Number(reply.number), reply.id);
        } else if (reply.kind === 'offer' || reply.kind === 'read') {
            const { id, tuple } = reply;
            this.arrive({ server, ticket: reply.number, id, tuple, isOffer: reply.kind === 'offer' });
        } else if (isTrain(task)) {
            if (task.flight(server)[0]?.number === reply.number) task.answered(server, reply);
        } else if (task?.kind === 'leave') {
            if (task.numbers.get(server) === reply.number && reply.kind !== 'left') this.inUse(server, reply);
        } else if (task !== null) {
            const own = task.kind === 'sync' ? task.accepted : task;
            if (own !== null && own.server === server && own.number === reply.number) this.answered(task, reply);
        }
    }

    /**
     * Whether the reply says that what is unanswered at that server was not done, nor what was sent there after it.
     * @param {number} server @param {Reply} reply
     */
    isJudged(server, reply) {
        const name = reply.kind === 'refused' ? REFUSALS[Number(reply.number)] : '';
        return JUDGED.includes(name) && !(name === 'Old' && this.probes[server] > 0);
    }

    /**
     * A reply that cannot answer what this program sent under its number: another one uses the number.
     * @param {number} server @param {Reply} reply @returns {never}
     */
    inUse(server, reply) {
        throw new NumberInUse(server, reply.number, reply.number - 1n, this.client);
    }

    /**
     * The server of the unanswered message has answered its number.
     * @param {Single | Sync} task @param {Reply} reply
     */
    answered(task, reply) {
        if (task.kind === 'sync') {
            this.settle(task, /** @type {Accepted} */ (task.accepted), reply);
        } else if (task.kind === 'accept') {
            this.taken(task, reply);
        } else if (task.kind === 'lastReply') {
            const kind = /** @type {Kept['kind']} */ (reply.kind);
            const id = kind === 'stored' || kind === 'taken' ? plain(reply.id) : null;
            const tuple = kind === 'taken' ? reply.tuple : null;
            this.end(task, new Kept(task.server, plain(reply.number), kind, id, tuple));
        } else if (task.kind === 'pass' && reply.kind === 'gone') {
            this.end(task, 'passed');
        } else if (task.kind === 'out' && reply.kind === 'stored') {
            this.end(task, new Stored(task.server, plain(reply.id), task.tuple));
        } else {
            this.inUse(task.server, reply);
        }
    }

    /**
     * A server knows that the client left, by this Leave or by one of an earlier life.
     * @param {number} server @param {Leaving} task @param {boolean} isNew
     */
    left(server, task, isNew) {
        if (isNew) this.numbers[server] = /** @type {bigint} */ (task.numbers.get(server)) + 1n;
        task.numbers.delete(server);
        if (task.numbers.size === 0) {
            this.hasLeft = true;
            this.ended = 'left';
            this.task = null;
            for (const offer of this.held.values()) this.calls.ended(offer, true);
            this.held.clear();
        }
    }

    /**
     * A Refused ends the call. It changes only this: a numbered message that was judged and not done is not
     * pending any more, and its number is still the next one.
     * @param {number} server @param {number} code @param {bigint} detail
     */
    refused(server, code, detail) {
        const name = REFUSALS[code], { task } = this;
        if (name === 'Old' && this.probes[server] > 0) {
            this.probes[server] -= 1;
            if (this.probes[server] > 0) return;
            if (isTrain(task)) task.probed(server);
            if (task?.kind === 'sync' && task.unsure !== null) {
                task.unsure.delete(server);
                if (task.accepted === null) this.ring(task);
            }
            return;
        }
        const isOpen = (task?.kind === 'sync' || task instanceof TakeTrain) && task.tickets.has(detail);
        if (name === 'TooManyAsks' && detail <= this.lastDropped && !isOpen) return;    // of one that ended so before
        if (JUDGED.includes(name)) {
            if (isTrain(task) && task.flight(server).length > 0) {
                task.refused(server, new Refused(server, code, detail, this.client));
                return;
            }
            if (task?.kind === 'sync' && task.accepted?.server === server) {
                task.accepted = null;
                if (task.isDropped) this.endDropped(task);
            } else if (task !== null && !isTrain(task) && task.kind !== 'sync' && task.kind !== 'leave'
                && task.server === server) {
                this.task = null;
            }
        }
        throw new Refused(server, code, detail, this.client);
    }

    /**
     * An Offer or a Read, at any time.
     * @param {Arrival} arrival
     */
    arrive(arrival) {
        if (this.task instanceof TakeTrain && this.task.arrived(arrival)) return;
        const sync = this.task?.kind === 'sync' && !this.task.isDropped ? this.task : null;
        const base = sync?.tickets.get(arrival.ticket);
        if (sync === null || base === undefined) {
            const held = this.held.get(placeOf(arrival));
            if (arrival.isOffer && (held === undefined || BigInt(held.id) !== arrival.id)) {
                this.sent.push([arrival.server, frames.cancel(arrival.ticket)]);
            }
            return;
        }
        if ((base.leaf.kind === 'in') !== arrival.isOffer || !matches(base.leaf.template, arrival.tuple)) return;
        if (sync.accepted === null) {
            this.takeUp(sync, base, arrival);
        } else if (!sync.saved.some((saved) => placeOf(saved) === placeOf(arrival) && saved.id === arrival.id)) {
            sync.saved.push(arrival);
        }
    }

    /**
     * An offer is accepted, or held as it is; a copy ends the synchronization by its base.
     * @param {Sync} sync @param {Base} base @param {Arrival} arrival
     */
    takeUp(sync, base, arrival) {
        if (!arrival.isOffer) {
            this.commit(sync, base, 'read', arrival);
        } else if (sync.isHold) {
            const offer = new Offer(arrival, bindsOf(base.leaf.template, arrival.tuple), this.calls);
            this.held.set(placeOf(offer), offer);
            if (sync.isOwn) this.own.add(offer);
            this.cancel(sync, arrival);
            this.ended = offer;
            this.task = null;
        } else {
            const { server, ticket, id } = arrival, number = this.nextNumber(server);
            sync.accepted = { server, number, ticket, id, tuple: arrival.tuple };
            this.sent.push([server, frames.accept(number, ticket, id)]);
        }
    }

    /**
     * An answer to the unanswered Accept. If the Asks were sent again to its server, the Accept may have been done
     * before that: its ticket is open there once more, and is not spared.
     * @param {Sync} sync @param {Accepted} own @param {Reply} reply
     */
    settle(sync, own, reply) {
        const base = sync.base(own.ticket);
        if (reply.kind === 'taken' && reply.id === own.id && matches(base.leaf.template, reply.tuple)) {
            this.numbers[own.server] = own.number + 1n;
            const isOfferedAgain = sync.saved.some((saved) => placeOf(saved) === placeOf(own));
            const isOpen = sync.askedAgain.has(own.server) || isOfferedAgain;
            this.commit(sync, base, 'took', { ...own, tuple: reply.tuple, isOffer: true }, isOpen ? null : own);
        } else if (reply.kind === 'gone') {
            this.numbers[own.server] = own.number + 1n;
            sync.accepted = null;
            const oldest = sync.saved.shift();
            if (sync.isDropped) this.endDropped(sync);
            else if (oldest !== undefined) this.takeUp(sync, sync.base(oldest.ticket), oldest);
            else this.ring(sync);
        } else {
            this.inUse(own.server, reply);
        }
    }

    /**
     * An answer to the Accept of an offer that was held.
     * @param {Taking} task @param {Reply} reply
     */
    taken(task, reply) {
        const { offer } = task;
        if (reply.kind === 'taken' && reply.id === BigInt(offer.id) && matches(offer.tuple, reply.tuple)) {
            offer.isTaken = true;
            this.held.delete(placeOf(offer));
            this.end(task, new Taken(offer));
            this.calls.ended(offer, true);
        } else if (reply.kind === 'gone') {
            this.held.delete(placeOf(offer));
            this.sent.push([offer.server, frames.cancel(offer.ticket)]);
            this.end(task, new Gone([offer]));
            this.calls.ended(offer, true);
        } else {
            this.inUse(task.server, reply);
        }
    }

    /** @param {Single} task @param {Ended} ended */
    end(task, ended) {
        this.numbers[task.server] = task.number + 1n;
        this.ended = ended;
        this.task = null;
    }

    /**
     * Ends a synchronization that ended by an error, and for which nothing was taken.
     * @param {Sync} sync
     */
    endDropped(sync) {
        this.cancel(sync, null);
        this.task = null;
    }

    /**
     * The synchronization ends by this base.
     * @param {Sync} sync @param {Base} base @param {Outcome['kind']} kind @param {Arrival | null} [got]
     * @param {Accepted | null} [spared]
     */
    commit(sync, base, kind, got = null, spared = null) {
        this.cancel(sync, spared);
        this.ended = sync.outcome(base, kind, got);
        this.task = null;
    }

    /**
     * A Cancel of each ticket to each server, by rising ticket, then rising server, but for the pair that is spared.
     * @param {Sync} sync @param {{ server: number, ticket: bigint } | null} spared
     */
    cancel(sync, spared) {
        for (const ticket of sync.tickets.keys()) {
            for (const server of sync.servers) {
                if (spared === null || spared.server !== server || spared.ticket !== ticket) {
                    this.sent.push([server, frames.cancel(ticket)]);
                }
            }
        }
    }
}

/**
 * The key for a server and a ticket.
 * @param {{ server: number, ticket: bigint }} pair
 */
function placeOf(pair) {
    return `${pair.server} ${pair.ticket}`;
}


/**
 * Whether the task is several messages under way.
 * @param {Task | null} task @returns {task is OutTrain | TakeTrain}
 */
function isTrain(task) {
    return task instanceof OutTrain || task instanceof TakeTrain;
}

/**
 * Whether a reply has the number of a message.
 * @param {Reply['kind']} kind @returns {kind is Kept['kind']}
 */
function isNumbered(kind) {
    return kind === 'stored' || kind === 'taken' || kind === 'gone' || kind === 'left';
}
