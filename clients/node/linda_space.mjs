/**
 * A client of a tuple space: of 1 to 16 servers (`linda serve`) that listen on ports of this machine. It needs nothing
 * but Node.js, 18.14 or later.
 *
 *     import { ANY, In, INT, Rd, Space } from './linda_space.mjs';
 *
 *     const space = await Space.connect([7000, 7001]);
 *     await space.out(['job', 1]);                           // once the tuple is there for good
 *     await space.look(['job', INT]);                        // ['job', 1], which stays; null if there is none now
 *     await space.read(['job', INT]);                        // the same, but it waits until there is one
 *     await space.take(['job', INT], { timeout: 2500 });     // ['job', 1], which nobody else gets; null after 2.5 s
 *     await space.choose([In('job', ANY).wrap(5), Rd('stop').nack(9)], { timeout: 2500 });
 *     await space.work(['job', INT], ([, n]) => ['done', n]);    // the loop of a worker
 *     space.close();
 *
 * A value is an integer of 64 bits with a sign, a string of at most 4,095 bytes of UTF-8, or a boolean. An integer is a
 * number if it is a safe one, else a bigint: so `===` compares the values of tuples. Both are taken. A tuple is an
 * array: a value, its tag, and at most 32 more, its fields. A pattern is a value, which fits itself (true is not 1), or
 * a formal: INT, TEXT and BOOL fit each value of their kind, ANY each value; TRIES is for the jobs of `work`. A template
 * is a tag and at most 32 patterns. `pack` makes fields of a JSON value, `unpack` a JSON value of fields. All times are in milliseconds.
 *
 * It sends version 2 of the frames, and waits, as docs/PROTOCOL.md says. The calls of a `Space` are made one after
 * another; a `Pool` makes them at once. Nothing that it does needs attention between two calls, and it keeps no program
 * alive that is not in a call.
 */

export {
    Aborted, BadReply, Busy, Closed, Gone, Idle, Left, NoConnection, NoNumber, NumberInUse, OutOfRange, Refused,
    Restored, SpaceError, Spent, TimedOut,
} from './lib/errors.mjs';
export { Alarm, Always, Choose, In, Nack, Never, Rd, SpaceEvent, Wrap } from './lib/events.mjs';
export { frames } from './lib/frames.mjs';
export { pack, unpack } from './lib/packed.mjs';
export { Pool } from './lib/pool.mjs';
export { Kept, Offer, Outcome, Stored } from './lib/results.mjs';
export { Space } from './lib/space.mjs';
export { ANY, BOOL, INT, PACKED, range, TEXT, TRIES } from './lib/values.mjs';

/** @typedef {import('./lib/values.mjs').Value} Value */
/** @typedef {import('./lib/values.mjs').Pattern} Pattern */
/** @typedef {import('./lib/values.mjs').Tuple} Tuple */
/** @typedef {import('./lib/values.mjs').Template} Template */
/** @typedef {import('./lib/values.mjs').Limits} Limits */
/** @typedef {import('./lib/space.mjs').ConnectOptions} ConnectOptions */
/** @typedef {import('./lib/space.mjs').HoldOptions} HoldOptions */
/** @typedef {import('./lib/space.mjs').TakeManyOptions} TakeManyOptions */
/** @typedef {import('./lib/space.mjs').Chosen} Chosen */
/** @typedef {import('./lib/trains.mjs').Put} Put */
/** @typedef {import('./lib/work.mjs').WorkOptions} WorkOptions */
