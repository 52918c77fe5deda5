/** What only a pool and the loop of a worker may do with a space. */

/**
 * - `call`: one call, as all calls are made; `begin` begins it at the machine. `isQuiet`: it says
 *   nothing of holds that were lost.
 * - `finish`: finishes what is pending after an error, in the milliseconds given, `patience` at most. What was taken by that
 *   is in hand: the next take gets it.
 * - `isOver`: whether all calls throw. `onOver`: is called once an offer was taken or released, or Gone was thrown.
 * - `keep`: renews an offer at this interval of milliseconds. `notes`: opens the notes of this client's jobs.
 * @typedef {{
 *     call: (begin: (machine: import('./machine.mjs').Machine) => void,
 *         limits: { timeout: number | null, signal: AbortSignal | null },
 *         ways?: { isAgain?: boolean, isQuiet?: boolean, isWaiting?: boolean })
 *         => Promise<import('./machine.mjs').Ended | null>,
 *     machine: () => import('./machine.mjs').Machine,
 *     finish: (timeout?: number) => Promise<void>,
 *     isOver: () => boolean,
 *     onOver: (offer: import('./results.mjs').Offer<any>, hear: () => void) => void,
 *     patience: number,
 *     keep: (offer: import('./results.mjs').Offer<any>, every: number) => void,
 *     notes: () => Promise<import('./notes.mjs').Notes>,
 * }} Inside
 */

/** @type {WeakMap<object, Inside>} */
export const insides = new WeakMap();

/** @param {import('./space.mjs').Space} space @returns {Inside} */
export function insideOf(space) {
    return /** @type {Inside} */ (insides.get(space));
}

/** All that can be read now has been read: the loop of events has been at the sockets once at least. */
export async function turned() {
    for (let times = 0; times < 2; times += 1) await new Promise((resolve) => { setImmediate(resolve); });
}
