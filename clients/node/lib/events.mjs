/** Events: what a synchronization waits for (docs/PROTOCOL.md). */

import { OutOfRange } from './errors.mjs';
import { MOST_ASKS, MOST_BASES, MOST_DEPTH, MOST_LABEL, shown } from './limits.mjs';
import { checkedTemplate, checkedValue, TRIES, within } from './values.mjs';

/**
 * @typedef {import('./values.mjs').Value} Value
 * @typedef {import('./values.mjs').Pattern} Pattern
 * @typedef {import('./values.mjs').Template} Template
 */

/**
 * `depth`: the most nodes above a leaf, -1 if there is no leaf. `bases`, `asked`: how many leaves there are, and how many
 * are inputs or reads; `nacks`: how many nack numbers. Each counts up to one more than is allowed.
 * @typedef {{ depth: number, bases: number, asked: number, nacks: number }} Measure
 */

const MOST_NACKS = 2 ** 20;             // more do not fit into any outcome
/** @type {(event: SpaceEvent) => Measure} */
let measured;

/** @param {string} kind @param {readonly SpaceEvent[]} members @returns {Measure} */
function measureOf(kind, members) {
    if (!isNode(kind)) return { depth: 0, bases: 1, asked: kind === 'in' || kind === 'rd' ? 1 : 0, nacks: 0 };
    const all = { depth: -1, bases: 0, asked: 0, nacks: kind === 'nack' ? 1 : 0 };
    for (const member of members) {
        const { depth, bases, asked, nacks } = measured(member);
        if (depth >= 0) all.depth = Math.max(all.depth, depth + 1);
        all.bases = Math.min(MOST_BASES + 1, all.bases + bases);
        all.asked = Math.min(MOST_ASKS + 1, all.asked + asked);
        all.nacks = Math.min(MOST_NACKS + 1, all.nacks + nacks);
    }
    return all;
}

/** @param {string} kind */
function isNode(kind) {
    return kind === 'choose' || kind === 'wrap' || kind === 'nack';
}

/**
 * What `Space.sync` waits for: a tree of choices, labels and nacks, with bases as its leaves: In, Rd, Alarm, Always and
 * Never. The bases are numbered from 0 in tree order.
 */
export class SpaceEvent {
    /**
     * What the checks need to know of it without going through it, for an event may be in it several times.
     * @type {Measure}
     */
    #measure;

    /**
     * @param {'in' | 'rd' | 'alarm' | 'always' | 'never' | 'choose' | 'wrap' | 'nack'} kind
     * @param {{ template?: Template, time?: number | bigint, value?: Value, number?: number | bigint,
     *     members?: readonly SpaceEvent[] }} parts
     */
    constructor(kind, { template = [], time = 0, value = 0, number = 0, members = [] }) {
        this.kind = kind;
        this.template = template;
        this.time = time;
        this.value = value;
        this.number = number;
        this.members = members;
        this.#measure = measureOf(kind, members);
        Object.freeze(this);
    }

    static {
        measured = (event) => event.#measure;
    }

    /**
     * This event under a label.
     * @param {number | bigint} label
     */
    wrap(label) {
        return Wrap(label, this);
    }

    /**
     * This event under a nack number, raised if what is chosen is not below it.
     * @param {number | bigint} number
     */
    nack(number) {
        return Nack(number, this);
    }

    get isAsked() {
        return this.kind === 'in' || this.kind === 'rd';
    }
}

/** @param {unknown} event @returns {SpaceEvent} */
export function checkedEvent(event) {
    if (!(event instanceof SpaceEvent)) throw new OutOfRange(`no event: ${shown(event)}`);
    return event;
}

/**
 * An input: chosen when a server has taken a tuple that matches away for this client. TRIES is in it only for `work`.
 * @param {...Pattern} template
 */
export function In(...template) {
    return new SpaceEvent('in', { template: checkedTemplate(template, true) });
}

/**
 * A read: chosen when a server has sent a copy of a tuple that matches.
 * @param {...Pattern} template
 */
export function Rd(...template) {
    return new SpaceEvent('rd', { template: checkedTemplate(template) });
}

/**
 * Chosen once the clock of the space (`Space.clock`) is at this time or later: milliseconds, 0 to 2^64 - 1.
 * `Space.after` makes one from now on.
 * @param {number | bigint} time
 */
export function Alarm(time) {
    return new SpaceEvent('alarm', { time: within('a time', time, 0, MOST_LABEL) });
}

/**
 * A value that is always there.
 * @param {Value} value
 */
export function Always(value) {
    return new SpaceEvent('always', { value: checkedValue(value) });
}

/** Never chosen. */
export function Never() {
    return new SpaceEvent('never', {});
}

/**
 * At most one of these events, of any number, is chosen.
 * @param {...SpaceEvent} events
 */
export function Choose(...events) {
    return new SpaceEvent('choose', { members: Object.freeze(events.map(checkedEvent)) });
}

/**
 * An event under a label, a number from 0 to 2^64 - 1.
 * @param {number | bigint} label @param {SpaceEvent} event
 */
export function Wrap(label, event) {
    const number = within('a label', label, 0, MOST_LABEL);
    return new SpaceEvent('wrap', { number, members: [checkedEvent(event)] });
}

/**
 * An event under a nack number, 0 to 2^64 - 1.
 * @param {number | bigint} number @param {SpaceEvent} event
 */
export function Nack(number, event) {
    const checked = within('a nack number', number, 0, MOST_LABEL);
    return new SpaceEvent('nack', { number: checked, members: [checkedEvent(event)] });
}

/**
 * A base, its number, the labels above it, innermost first, and the places of the nacks above it.
 * @typedef {{ number: number, leaf: SpaceEvent, labels: (number | bigint)[], above: number[] }} Base
 */

/**
 * What is above a node: labels or places of nacks, innermost first.
 * @template T @typedef {{ item: T, above: Chain<T> } | null} Chain
 */

/**
 * What a chain has, innermost first.
 * @template T @param {Chain<T>} chain @returns {T[]}
 */
function listed(chain) {
    const items = [];
    for (let link = chain; link !== null; link = link.above) items.push(link.item);
    return items;
}

/**
 * The bases and the nack numbers of an event, each in tree order. The limits are looked at first, so this takes no longer
 * than an event within them is large.
 * @param {SpaceEvent} event @returns {{ bases: Base[], nacks: (number | bigint)[] }}
 */
export function basesAndNacks(event) {
    const { depth, bases: count, asked, nacks: raised } = measured(event);
    if (depth > MOST_DEPTH) throw new OutOfRange(`a leaf of the event is under more than ${MOST_DEPTH} nodes`);
    if (count > MOST_BASES || asked > MOST_ASKS) {
        throw new OutOfRange(`the event has more than ${MOST_BASES} bases, or more than ${MOST_ASKS} inputs and reads`);
    }
    if (raised > MOST_NACKS) throw new OutOfRange(`the event has more than ${MOST_NACKS} nack numbers`);
    /** @type {Base[]} */
    const bases = [];
    /** @type {(number | bigint)[]} */
    const nacks = [];
    /** @type {{ node: SpaceEvent, labels: Chain<number | bigint>, above: Chain<number> }[]} */
    const left = [{ node: event, labels: null, above: null }];
    for (let next = left.pop(); next !== undefined; next = left.pop()) {
        let { node, labels, above } = next;
        if (!isNode(node.kind)) {
            if (node.template.includes(TRIES)) throw new OutOfRange('TRIES is only in a job of work with tries');
            bases.push({ number: bases.length, leaf: node, labels: listed(labels), above: listed(above).reverse() });
            continue;
        }
        if (node.kind === 'wrap') labels = { item: node.number, above: labels };
        if (node.kind === 'nack') above = { item: nacks.push(node.number) - 1, above };
        for (let place = node.members.length - 1; place >= 0; place -= 1) {
            const member = node.members[place], { depth: isLeafed, nacks: own } = measured(member);
            if (isLeafed >= 0 || own > 0) left.push({ node: member, labels, above });
        }
    }
    return { bases, nacks };
}
