/** What waits, first in, first out; any of it may leave. */

/**
 * One that waits, between two others.
 * @template T
 */
class Place {
    /** @type {Place<T> | null} */
    before = null;
    /** @type {Place<T> | null} */
    after = null;
    isThere = true;

    /** @param {T} item */
    constructor(item) {
        this.item = item;
    }
}

/**
 * A queue in which each step takes the same time, however many wait.
 * @template T
 */
export class Queue {
    /** @type {Place<T> | null} */
    #first = null;
    /** @type {Place<T> | null} */
    #last = null;
    #size = 0;

    get size() {
        return this.#size;
    }

    /** The one that waits for longest. */
    get first() {
        return this.#first?.item;
    }

    /**
     * At the end; what is returned leaves it, once.
     * @param {T} item @returns {() => void}
     */
    push(item) {
        const place = new Place(item);
        place.before = this.#last;
        if (this.#last === null) this.#first = place;
        else this.#last.after = place;
        this.#last = place;
        this.#size += 1;
        return () => this.#remove(place);
    }

    /** The one that waits for longest leaves, and is returned. */
    shift() {
        const place = this.#first;
        if (place !== null) this.#remove(place);
        return place?.item;
    }

    /** @returns {Generator<T, void, undefined>} */
    * [Symbol.iterator]() {
        for (let place = this.#first; place !== null; place = place.after) yield place.item;
    }

    /** @param {Place<T>} place */
    #remove(place) {
        if (!place.isThere) return;
        place.isThere = false;
        this.#size -= 1;
        if (place.before === null) this.#first = place.after;
        else place.before.after = place.after;
        if (place.after === null) this.#last = place.before;
        else place.after.before = place.before;
    }
}
