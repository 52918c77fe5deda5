/**
 * Locks of client numbers on this machine: so a number that a living program has is not taken by another copy of it, also
 * while that one has no connection.
 *
 * A lock is a unix socket in the abstract namespace of Linux, whose name says the numbers' file, or the ports, and the
 * number. It ends with its program. On another platform, or if a socket cannot be had, there are none.
 */

import { createHash, randomBytes } from 'node:crypto';
import { realpathSync } from 'node:fs';
import net from 'node:net';
import path from 'node:path';

const DIGITS_OF_KEY = 32;
const SIZE_OF_NAME = 108;               // bytes: some versions of Node.js fill a name up with zeros, so all names are full

/** A lock that is held until it is released. */
export class Lock {
    /** @param {net.Server} listener */
    constructor(listener) {
        this.listener = listener;
    }

    release() {
        this.listener.close();
    }
}

/**
 * The name for the locks of the numbers of a file, by its real path. The file and its folder may not be there yet.
 * @param {string} file
 */
export function keyOfFile(file) {
    return keyOf(path.join(realFolder(path.dirname(file)), path.basename(file)));
}

/**
 * The name for the locks of given numbers, by the servers in any order.
 * @param {readonly (number | string)[]} ports
 */
export function keyOfPorts(ports) {
    const numbers = ports.filter((port) => typeof port === 'number').sort((one, other) => one - other);
    const paths = ports.filter((port) => typeof port === 'string').map(realPath).sort();
    return keyOf(['ports', ...numbers, ...paths].join(' '));
}

/**
 * The real path of a socket, if it is there: programs in other folders have other paths to it.
 * @param {string} path
 */
function realPath(path) {
    try {
        return realpathSync.native(path);
    } catch {
        return path;
    }
}

/** @param {string} text */
function keyOf(text) {
    return createHash('sha256').update(text).digest('hex').slice(0, DIGITS_OF_KEY);
}

/** @param {string} folder @returns {string} */
function realFolder(folder) {
    try {
        return realpathSync.native(folder);
    } catch {
        const above = path.dirname(folder);
        return above === folder ? folder : path.join(realFolder(above), path.basename(folder));
    }
}

/**
 * A lock of that number, null if this system has no such sockets, or 'held' if another space has it, of this program or of another one.
 * @param {string} key @param {number} number @returns {Promise<Lock | 'held' | null>}
 */
export async function lockOf(key, number) {
    areThere ??= tried();
    return await areThere ? bound(nameOf(`${key}/${number}`)) : null;
}

/**
 * Whether this system has such sockets. An earlier version of Node.js gives each of them one and the same other name.
 * @type {Promise<boolean> | undefined}
 */
let areThere;

async function tried() {
    if (process.platform !== 'linux') return false;
    const name = nameOf(`tried/${randomBytes(16).toString('hex')}`), lock = await bound(name);
    if (!(lock instanceof Lock)) return false;
    const isNamed = String(lock.listener.address()).padEnd(SIZE_OF_NAME, '\0') === name;
    lock.release();
    return isNamed;
}

/** @param {string} what */
function nameOf(what) {
    return `\0linda_space/${what}`.padEnd(SIZE_OF_NAME, '\0');
}

/** @param {string} name @returns {Promise<Lock | 'held' | null>} */
function bound(name) {
    return new Promise((resolve) => {
        const listener = net.createServer((stream) => stream.destroy());
        listener.once('listening', () => resolve(new Lock(listener)));
        listener.on('error', (/** @type {NodeJS.ErrnoException} */ { code }) => resolve(code === 'EADDRINUSE' ? 'held' : null));
        listener.listen({ path: name, exclusive: true });
        listener.unref();
    });
}
