#!/usr/bin/env -S node --test-reporter=spec
/**
 * The tests of linda_space.mjs: over servers of the program, and against recorded sessions.
 *
 *     clients/node/test_linda_space.mjs [TEXT..]      all tests, or those that have one of these texts in their names
 *
 * The program is the one that LINDA names, `linda` at the top of the repository if it is not set. The recorded sessions
 * are those of examples/vectors.json, which tools/client-sessions makes from the documents: there a test plays the
 * servers and compares each byte that the client sends.
 */

import assert from 'node:assert/strict';
import { spawn, spawnSync } from 'node:child_process';
import { createHash } from 'node:crypto';
import { once } from 'node:events';
import {
    cpSync, existsSync, mkdirSync, mkdtempSync, readdirSync, readFileSync, readlinkSync, realpathSync, rmSync, symlinkSync, writeFileSync,
} from 'node:fs';
import { open } from 'node:fs/promises';
import http from 'node:http';
import net from 'node:net';
import { tmpdir } from 'node:os';
import path from 'node:path';
import { Duplex } from 'node:stream';
import { describe, test } from 'node:test';
import { setImmediate as turn, setTimeout as sleep } from 'node:timers/promises';
import tls from 'node:tls';
import { fileURLToPath, pathToFileURL } from 'node:url';
import {
    Aborted, Alarm, Always, ANY, BadReply, BOOL, Busy, Choose, Closed, frames, Gone, Idle, In, INT, Kept, Left, Nack,
    Never, NoConnection, NoNumber, NumberInUse, Outcome, OutOfRange, pack, PACKED, Pool, range, Rd, Refused, Restored,
    Space, SpaceError, Stored, TEXT, TimedOut, TRIES, unpack, Wrap,
} from './linda_space.mjs';
import { keyOfPorts } from './lib/locks.mjs';

const HERE = path.dirname(fileURLToPath(import.meta.url));
const TOP = path.dirname(path.dirname(HERE));
const PROGRAM = process.env.LINDA ?? path.join(TOP, 'linda');
const LIMIT = 200_000;
const LONG = 60_000;
const PIPED = { stdio: ['ignore', 'pipe', 'inherit'] };
const SHORT = { patience: 1_500 };
const MOST_CLIENTS = 65_536;
/** What programs and spaces of the tests keep of their numbers. */
const STATE = process.env.LINDA_STATE = mkdtempSync(path.join(tmpdir(), 'linda-'));
process.on('exit', () => rmSync(STATE, { recursive: true }));

// ---- servers of the program, and connections that are made by hand

/** A server of the program on a folder. */
class Server {
    static async start(folder, port = 0, ...words) {
        const server = new Server();
        server.folder = folder;
        server.child = spawn(PROGRAM, ['serve', '--port', `${port}`, '--dir', folder, ...words], PIPED);
        server.ended = once(server.child, 'exit');
        let told = '';
        for await (const piece of server.child.stdout) {
            told += piece;
            if (told.includes('\n')) break;
        }
        assert.match(told, /^ready \d+\n$/, 'the server did not start');
        server.port = Number(told.split(' ')[1]);
        return server;
    }

    /** kill -9. */
    async kill() {
        this.child.kill('SIGKILL');
        await this.ended;
    }

    /** Stops it: it does nothing, and its connections stay, until it goes on. */
    async stop() {
        this.child.kill('SIGSTOP');
        const folder = `/proc/${this.child.pid}/task`;
        const isStopped = (thread) => readFileSync(`${folder}/${thread}/stat`, 'utf8').split(') ').at(-1)[0] === 'T';
        while (!readdirSync(folder).every(isStopped)) await sleep(1);
    }

    goOn() {
        this.child.kill('SIGCONT');
    }
}

/** What the servers and spaces of one test are made by; all ends with the test. */
class Scene {
    constructor(context) {
        this.folder = mkdtempSync(path.join(tmpdir(), 'linda-'));
        this.servers = [];
        this.spaces = [];
        this.closed = [];
        context.after(async () => {
            for (const one of this.spaces) one.close();
            for (const end of this.closed) end();
            await Promise.all(this.servers.map((server) => server.kill()));
            rmSync(this.folder, { recursive: true });
        });
    }

    async serve(name = 'one', port = 0, ...words) {
        const folder = path.join(this.folder, name);
        mkdirSync(folder, { recursive: true });
        const server = await Server.start(folder, port, ...words);
        this.servers.push(server);
        return server;
    }

    /** Kills a server and starts it again, on its port. */
    async restart(server) {
        await server.kill();
        return this.serve(path.basename(server.folder), server.port);
    }

    async space(servers, client = 7, more = {}) {
        const ports = [servers].flat().map((server) => server.port);
        const connect = () => Space.connect(ports, { client, ...more });
        const one = await (more === SHORT ? patient(connect) : connect());
        this.spaces.push(one);
        return one;
    }

    /** A peer that says what the program never says: a function for each connection, one after another. */
    async fake(...talks) {
        const fake = { talks: [], port: 0 };
        const listener = net.createServer((stream) => {
            const talk = talks.shift();
            if (talks.length === 0) listener.close();
            fake.talks.push(talk(new Peer(stream)).finally(() => stream.destroy()));
            fake.talks.at(-1).catch(() => {});
        });
        await new Promise((resolve) => { listener.listen(0, '127.0.0.1', resolve); });
        this.closed.push(() => listener.close());
        fake.port = listener.address().port;
        /** Checks that all was said, and that only what was expected was sent. */
        fake.end = async () => {
            assert.equal(talks.length, 0, 'there were fewer connections');
            await Promise.all(fake.talks);
        };
        return fake;
    }
}

/** A connection of a server that is played by hand, or of a client. */
class Peer {
    static async connect(port) {
        const stream = net.connect({ port, host: '127.0.0.1', noDelay: true });
        await once(stream, 'connect');
        return new Peer(stream);
    }

    constructor(stream) {
        this.stream = stream;
        this.came = Buffer.alloc(0);
        this.isOver = false;
        this.wake = () => {};
        stream.on('data', (piece) => { this.came = Buffer.concat([this.came, piece]); this.wake(); });
        for (const name of ['end', 'close', 'error']) stream.on(name, () => { this.isOver = true; this.wake(); });
    }

    send(...data) {
        this.stream.write(Buffer.concat(data));
    }

    async until(isDone) {
        while (!isDone()) {
            assert.ok(!this.isOver, `the connection ended behind ${this.came.toString('hex')}`);
            await new Promise((resolve) => { this.wake = resolve; });
        }
    }

    /** Checks that exactly these bytes come next. */
    async expect(...data) {
        const wanted = Buffer.concat(data);
        await this.until(() => this.came.length >= wanted.length);
        assert.equal(this.came.subarray(0, wanted.length).toString('hex'), wanted.toString('hex'));
        this.came = this.came.subarray(wanted.length);
    }

    /** Checks that nothing more comes, and that the connection ends. */
    async end() {
        while (!this.isOver) await new Promise((resolve) => { this.wake = resolve; });
        assert.equal(this.came.toString('hex'), '');
    }

    async ask(...data) {
        this.send(...data);
        await this.until(() => this.came.length >= 4 && this.came.length >= 4 + this.came.readUInt32BE());
        const size = 4 + this.came.readUInt32BE(), reply = frames.reply(this.came.subarray(4, size));
        this.came = this.came.subarray(size);
        return reply;
    }

    /** Greets, and again while the server says Busy; returns the last number. */
    async greet(client) {
        for (;;) {
            const reply = await this.ask(frames.hello(client, false));
            if (reply.kind === 'welcome') return reply.number;
            assert.equal(reply.number, 3n);
        }
    }
}

function number(value, size = 8) {
    const spelled = Buffer.alloc(8);
    spelled.writeBigUInt64BE(BigInt(value));
    return spelled.subarray(8 - size);
}

function framed(...parts) {
    const body = Buffer.concat(parts.map((part) => (typeof part === 'number' ? Buffer.of(part) : part)));
    return Buffer.concat([number(body.length, 4), body]);
}

/** A tuple as bytes: what is after the number in an Out. */
const spelled = (tuple) => frames.out(0, tuple).subarray(13);
const welcome = (last) => framed(0x11, number(last));
const stored = (own, id) => framed(0x12, number(own), number(id));
const offer = (ticket, id, tuple) => framed(0x13, number(ticket), number(id), spelled(tuple));
const read = (ticket, id, tuple) => framed(0x14, number(ticket), number(id), spelled(tuple));
const taken = (own, id, tuple) => framed(0x15, number(own), number(id), spelled(tuple));
const gone = (own) => framed(0x16, number(own));
const refusal = (code, detail) => framed(0x17, code, number(detail));
const BUSY = 3, OLD = 4, FULL = 6, TOO_MANY_ASKS = 10;
const PROBE = frames.accept(0, 0, 0);
const hello = (client = 7) => frames.hello(client, false);
const greets = async (peer, last) => { await peer.expect(hello()); peer.send(welcome(last)); };

/** The error that a call ends with, which is of this class and has these properties. */
async function fails(call, type, properties = {}) {
    let fault = null;
    try {
        await (typeof call === 'function' ? call() : call);
    } catch (thrown) {
        fault = thrown;
    }
    assert.ok(fault instanceof type, `${fault?.stack ?? 'no error'}, not ${type.name}`);
    for (const [name, value] of Object.entries(properties)) assert.deepEqual(fault[name], value, `${name}: ${fault}`);
    return fault;
}

/** The result of a call, which is made again while a server is slower than the short patience of a space. */
async function patient(call) {
    const end = performance.now() + LONG;
    for (;;) {
        try {
            return await call();
        } catch (fault) {
            // (a server may be so slow that it has not seen yet that a connection before ended)
            const isSlow = fault instanceof NoConnection || fault instanceof TimedOut || (fault instanceof Refused && fault.reason === 'Busy');
            if (!isSlow || performance.now() > end) throw fault;
        }
    }
}

/** The error of a call that takes at least so many milliseconds, and less than `LONG`. The call began before this function, so some of its time is
 * not seen. */
async function failsAfter(least, call, type, properties) {
    const begin = performance.now();
    const fault = await fails(call, type, properties);
    const time = performance.now() - begin;
    assert.ok(time >= 0.9 * least - 10 && time < LONG, `${time} ms`);
    return fault;
}

const outcome = (base, kind, labels, raised, got = null, binds = [], value = null) => (
    new Outcome(base, kind, labels, raised, got, binds, value));

/** The port of a proxy with TLS before a port, which counts its connections; its certificate, for `linda`, is in the scene's folder. */
async function encrypted(scene, port) {
    const [key, certificate] = ['key', 'certificate'].map((name) => path.join(scene.folder, name));
    const words = ['req', '-x509', '-newkey', 'ec', '-pkeyopt', 'ec_paramgen_curve:P-256', '-nodes', '-subj', '/CN=linda', '-addext', 'subjectAltName=DNS:linda'];
    const [status] = await once(spawn('openssl', [...words, '-keyout', key, '-out', certificate], { stdio: 'ignore' }), 'close');
    assert.equal(status, 0);
    scene.encrypted = 0;
    const listener = tls.createServer({ key: readFileSync(key), cert: readFileSync(certificate) }, (stream) => {
        scene.encrypted += 1;
        const behind = net.connect({ port, host: '127.0.0.1', noDelay: true });
        stream.pipe(behind).pipe(stream);
        for (const end of [stream, behind]) end.on('error', () => { stream.destroy(); behind.destroy(); });
    });
    await new Promise((resolve) => { listener.listen(0, '127.0.0.1', resolve); });
    scene.closed.push(() => listener.close());
    return listener.address().port;
}

/** Plays it in a folder of its own, and again, four times in all, if what was held is gone: a busy machine may stop this program for longer than a lease. */
const unlessLate = (work) => async (scene) => {
    for (let left = 3; ; left--) {
        try {
            return await work(scene, `try ${left}`);
        } catch (fault) {
            if (left === 0 || !(fault instanceof Gone)) throw fault;
        }
    }
};

/** The warnings of the library that have this text, from now on. */
function warnings(scene, text) {
    const heard = [];
    const hear = ({ name, message }) => { if (name === 'linda-space' && message.includes(text)) heard.push(message); };
    process.on('warning', hear);
    scene.closed.push(() => process.off('warning', hear));
    return heard;
}

/** Groups of tests that mostly wait, and so are played beside each other. Others, in which this program does nothing else for seconds, come after them. */
const GROUPS = [];
const beside = (name, work) => GROUPS.push([name, work]);

/** Whether a test of this name is left out. */
const isLeftOut = (name) => process.argv.length > 2 && !process.argv.slice(2).some((text) => name.includes(text));

/** A test with a scene of its own. */
const play = (name, work) => test(name, { timeout: LIMIT, skip: isLeftOut(name) }, (context) => work(new Scene(context)));

// ---- recorded sessions

/** JSON, its integers above 2^53 as bigint. */
function parsed(text) {
    const mark = (found) => (found[0] === '"' ? found : `{"integer": "${found}"}`);
    const marked = text.replace(/"(?:[^"\\]|\\.)*"|-?\d{16,}/g, mark);
    return JSON.parse(marked, (_, value) => {
        const isMarked = typeof value === 'object' && value !== null && typeof value.integer === 'string';
        if (!isMarked) return value;
        const integer = BigInt(value.integer);
        return Number.isSafeInteger(Number(integer)) ? Number(integer) : integer;
    });
}

const FORMALS = { '?i': INT, '?s': TEXT, '?b': BOOL, _: ANY };
const templateOf = (told) => told.map((item) => (Array.isArray(item) ? FORMALS[item[0]] : item));

function eventOf([kind, ...parts]) {
    switch (kind) {
        case 'in': return In(...templateOf(parts[0]));
        case 'rd': return Rd(...templateOf(parts[0]));
        case 'choose': return Choose(...parts.map(eventOf));
        case 'wrap': return Wrap(parts[0], eventOf(parts[1]));
        case 'nack': return Nack(parts[0], eventOf(parts[1]));
        case 'alarm': return Alarm(parts[0]);
        case 'always': return Always(parts[0]);
        default: return Never();
    }
}

/** How a call ended, as the file writes it. */
function endOf(ended) {
    if (ended instanceof Stored) return ['stored', ended.server, ended.id];
    if (ended instanceof Kept) {
        const more = [ended.id, ended.tuple].filter((part) => part !== null);
        return ['kept', ended.kind, ended.number, ...more];
    }
    if (ended instanceof Outcome) {
        const { kind, base, server, id, tuple, binds, value, labels, raised } = ended;
        const got = kind === 'alarm' ? [] : kind === 'always' ? [value] : [server, id, tuple, binds];
        return [kind, base, ...got, labels, raised];
    }
    return ended;
}

function faultOf(fault) {
    if (fault instanceof NumberInUse) return ['in use', fault.server];
    if (fault instanceof Refused) return ['refused', fault.server, fault.code, fault.detail];
    if (fault instanceof Left) return ['refused left'];
    throw fault;
}

/** Plays the servers of a session, step by step. */
class Player {
    now = 0;
    made = [];
    streams = [];
    ends = [];
    sent = [];

    constructor(session) {
        this.session = session;
        this.made = Array.from({ length: session.servers }, () => []);
        this.sent = this.made.map(() => Buffer.alloc(0));
    }

    connect(port) {
        const server = port - 1;
        const stream = new Duplex({
            read() {},
            write: (piece, _, done) => {
                stream.told = Buffer.concat([stream.told, piece]);
                done();
            },
        });
        stream.told = Buffer.alloc(0);
        this.made[server].push(stream);
        return stream;
    }

    /** Waits until this is so. */
    async until(isSo, what) {
        const end = performance.now() + 10_000;
        while (!isSo()) {
            assert.ok(performance.now() < end, what);
            await turn();
        }
    }

    note(promise) {
        const failed = (fault) => this.ends.push(['error', fault.stack]);
        promise.then(endOf, faultOf).then((ended) => this.ends.push(ended), failed);
    }

    call([word, ...parts]) {
        const { one } = this;
        switch (word) {
            case 'out': return one.out(parts);
            case 'take': case 'read': {
                // Not by those names, which ask the servers once more when the time is up.
                const base = (word === 'take' ? In : Rd)(...templateOf(parts[0]));
                const time = parts[1] === null ? [] : [one.after(Math.round(parts[1] * 1000))];
                return one.sync(Choose(base, ...time));
            }
            case 'sync': return one.sync(eventOf(parts[0]));
            case 'last_reply': return one.lastReply(parts[0]).then((kept) => kept ?? ['none']);
            case 'leave': return one.leave().then(() => ['left']);
            case 'again': return one.again();
            default: return (async () => ['dropped', one.abandon()])();
        }
    }

    async play() {
        const { client, fresh, steps, servers } = this.session;
        const options = { client, fresh, connect: (port) => this.connect(port), clock: () => this.now };
        const begun = Space.connect(range(1, servers + 1), options);
        begun.then((one) => { this.one = one; }, (fault) => this.note(Promise.reject(fault)));
        try {
            for (const [place, step] of steps.entries()) {
                try {
                    await this.step(step);
                } catch (fault) {
                    const told = JSON.stringify(step, (_, it) => (typeof it === 'bigint' ? `${it}` : it));
                    throw new Error(`step ${place}, ${told}: ${fault.message}`);
                }
            }
            await turn();
        } finally {
            this.one?.close();
        }
        for (const [server, stream] of this.streams.entries()) {
            assert.equal(stream?.told.toString('hex') ?? '', '', `server ${server} was sent more`);
        }
    }

    async step(step) {
        if (Array.isArray(step)) {
            if (step[0] !== 'ends') {
                await this.until(() => this.one, 'no space');
                this.note(this.call(step));
                await turn();
                return;
            }
            await this.until(() => this.ends.length > 0, 'no end');
            assert.deepEqual(this.ends.shift(), step.slice(1));
            return;
        }
        const [word, digits] = step.split(' '), server = Number(word.slice(1));
        const data = Buffer.from(digits ?? '', 'hex');
        switch (word[0]) {
            case '@':
                this.now = server;
                break;
            case '+':
                await this.until(() => this.made[server].length > 0, 'no connection');
                this.streams[server] = this.made[server].shift();
                break;
            case '-':
                this.streams[server].push(null);
                for (let times = 0; times < 3; times += 1) await turn();
                break;
            case '>': {
                const stream = this.streams[server];
                await this.until(() => stream.told.length >= data.length, 'less was sent');
                assert.equal(stream.told.subarray(0, data.length).toString('hex'), data.toString('hex'));
                stream.told = stream.told.subarray(data.length);
                break;
            }
            default:
                this.streams[server].push(data);
                for (let times = 0; times < 3; times += 1) await turn();
        }
    }
}

describe('recorded sessions', () => {
    const sessions = parsed(readFileSync(path.join(TOP, 'examples/vectors.json'), 'utf8')).clients;

    test('all', { timeout: LIMIT, skip: isLeftOut('all') }, async () => {
        assert.ok(sessions.length >= 200);
        const wrong = [];
        for (const [place, session] of sessions.entries()) {
            try {
                await new Player(session).play();
            } catch (fault) {
                wrong.push(`session ${place}: ${fault.message}`);
            }
            if (wrong.length === 3) break;
        }
        assert.deepEqual(wrong, []);
    });
});

// ---- over servers of the program

beside('over servers', () => {
    play('puts, reads and takes', async (scene) => {
        const one = await scene.space(await scene.serve(), 7, { fresh: true });
        const { server, id, kind, tuple } = await one.out(['a', 3, 'x', true]);
        assert.deepEqual([server, id, kind, tuple], [0, 1, 'stored', ['a', 3, 'x', true]]);
        assert.deepEqual(await one.read(['a', INT, TEXT, BOOL]), ['a', 3, 'x', true]);
        assert.deepEqual(await one.take(['a', 3, ANY, ANY]), ['a', 3, 'x', true]);
        assert.equal(await one.take(['a', ANY, ANY, ANY], { timeout: 50 }), null);
        assert.equal(one.pending, null);
        one.close();
        one.close();
        await fails(one.out(['a']), Closed);
        assert.throws(() => one.abandon(), Closed);
    });

    play('a unix socket', async (scene) => {
        const place = path.join(scene.folder, 's');
        await fails(Space.connect([place], { client: 7 }), NoConnection);
        const server = await scene.serve('one', 0, '--socket', place);
        const over = await scene.space({ port: place }, 7, { fresh: true });
        const beside = await scene.space(server, 8, { fresh: true });
        assert.equal((await over.out(['a', 3])).id, 1);
        assert.deepEqual(await beside.take(['a', INT]), ['a', 3]);
        assert.equal((await beside.out(['b'])).id, 2);
        assert.deepEqual(await over.take(['b']), ['b']);
        // Nobody listens there for a while, and then a server does again.
        await server.kill();
        await scene.serve('one', 0, '--socket', place);
        assert.equal((await over.out(['c'])).id, 3);
        for (const wrong of [scene.folder, path.join(scene.folder, 'one', 'left.bank'), `${place}/none`]) {
            await fails(Space.connect([wrong], { client: 9 }), NoConnection);
        }
    });

    play('TLS', async (scene) => {
        const port = await encrypted(scene, (await scene.serve()).port);
        const ca = readFileSync(path.join(scene.folder, 'certificate'));
        const connect = (to) => tls.connect({ port: to, host: '127.0.0.1', ca, servername: 'linda' });
        const one = await scene.space({ port }, 7, { connect }), other = await scene.space({ port }, 8, { connect });
        const big = ['big', ...range(0, 30).map(() => 'x'.repeat(4_000))];          // several records of TLS
        const template = ['big', ...range(0, 30).map(() => TEXT), INT];
        for (const number of range(0, 20)) {
            assert.equal((await one.out([...big, number])).id, number + 1);
            assert.deepEqual(await other.take(template), [...big, number]);
        }
        const many = await one.outMany(range(0, 40).map((number) => [...big, number]));
        assert.deepEqual(many, range(0, 40).map((number) => ({ server: 0, id: 21 + number })));
        assert.equal((await other.takeMany(template, { count: 40 })).length, 40);
        await one.out(['held']);
        await other.holding(['held'], {}, async (offer) => {
            assert.equal(await one.take(['held'], { timeout: 50 }), null);
            assert.deepEqual(await offer.accept(), ['held']);
        });
        const taking = other.take(['late']);
        await one.out(['late']);
        assert.deepEqual(await taking, ['late']);
        // All of that went over one connection of each.
        assert.equal(scene.encrypted, 2);
    });

    play('TLS with another certificate', async (scene) => {
        const port = await encrypted(scene, (await scene.serve()).port);
        for (const [more, code] of [[{}, 'DEPTH_ZERO_SELF_SIGNED_CERT'], [{ servername: 'other', ca: readFileSync(path.join(scene.folder, 'certificate')) }, 'ERR_TLS_CERT_ALTNAME_INVALID']]) {
            const connect = (to) => tls.connect({ port: to, host: '127.0.0.1', servername: 'linda', ...more });
            const begin = performance.now();
            const { cause } = await fails(Space.connect([port], { client: 7, connect, patience: LONG }), NoConnection, { server: 0 });
            assert.equal(cause.code, code);
            assert.ok(performance.now() - begin < LONG / 2, 'it was not tried again');
        }
    });

    play('the README', async (scene) => {
        const left = await scene.serve('left'), right = await scene.serve('right');
        const page = readFileSync(path.join(HERE, 'README.md'), 'utf8');
        const blocks = page.split('```js\n').slice(1).map((block) => block.split('```')[0]);
        assert.equal(blocks.length, 4);
        const listener = net.createServer();
        await new Promise((resolve) => { listener.listen(0, '127.0.0.1', resolve); });
        const { port } = listener.address();
        await new Promise((resolve) => { listener.close(resolve); });
        const file = pathToFileURL(path.join(HERE, 'linda_space.mjs')).href;
        const start = (block, more) => {
            const program = path.join(scene.folder, `block${more}.mjs`);
            const text = block.replace("'./linda_space.mjs'", JSON.stringify(file)).replaceAll('2500', '500')
                .replace('[7000, 7001]', `[${left.port}, ${right.port}]`).replace('[7000]', `[${left.port}]`)
                .replace('client: 12', 'client: 7').replace('workOn(', 'console.log(').replace('8080', `${port}`);
            writeFileSync(program, text);
            return spawn(process.execPath, [program], { ...PIPED, env: { ...process.env, LINDA_STATE: scene.folder } });
        };
        const run = async (block, more) => {
            const child = start(block, more), ended = once(child, 'exit');
            let told = '';
            for await (const piece of child.stdout) told += piece;
            assert.deepEqual(await ended, [0, null]);
            return told;
        };
        assert.equal(await run(blocks[0], 1), "alarm null [] [] [ 9 ]\n{ any: [ 'JSON', null, 1.5 ] }\n");
        assert.equal(await run(blocks[3], 2), "[ 'job', 4 ]\n");
        assert.equal(await run(blocks[1], 3), "2\n0\n[ 'dead', 'root', -1, 2, 'RangeError: -1 has no root' ]\n");
        const web = start(blocks[2], 4);
        scene.closed.push(() => web.kill());
        const other = await scene.space(left, 9);
        const asking = (async () => {
            for (;;) {
                try {
                    return await (await fetch(`http://127.0.0.1:${port}/x`)).text();
                } catch {
                    await sleep(20);                        // nobody listens yet
                }
            }
        })();
        const { id } = await other.choose([In('request', '/x')]);
        await other.out(['answer', id, 5]);
        assert.equal(await asking, '5\n');
    });

    play('true is not one', async (scene) => {
        const one = await scene.space(await scene.serve());
        await one.out(['a', true]);
        await one.out(['a', 1]);
        assert.deepEqual(await one.take(['a', 1]), ['a', 1]);
        assert.deepEqual(await one.take(['a', true]), ['a', true]);
    });

    play('chooses over two servers', async (scene) => {
        const one = await scene.space([await scene.serve('left'), await scene.serve('right')]);
        assert.deepEqual(await one.out(['a', 1]), new Stored(1, 1, ['a', 1]));
        assert.deepEqual(await one.out(['b', 2]), new Stored(0, 1, ['b', 2]));
        const event = Choose(In('b', INT).wrap(5).wrap(6).nack(1), Rd('c').nack(2), Alarm(60_000));
        const took = outcome(0, 'took', [5, 6], [2], { server: 0, id: 1, tuple: ['b', 2] }, [2]);
        assert.deepEqual(await one.sync(event), took);
        const copied = await one.choose([In('b', ANY).nack(1), Rd('a', INT).wrap(3)], { timeout: 10_000 });
        assert.deepEqual(copied, outcome(1, 'read', [3], [1], { server: 1, id: 1, tuple: ['a', 1] }, [1]));
        const rung = await one.sync(Choose(Nack(1, In('b', ANY)), Wrap(8, one.after(10)), Nack(4, Never())));
        assert.deepEqual(rung, outcome(1, 'alarm', [8], [1, 4]));
        assert.deepEqual(await one.sync(Nack(9, Wrap(2, Always('v')))), outcome(0, 'always', [2], [], null, [], 'v'));
        assert.deepEqual(await one.choose([In('b', ANY).nack(1)], { timeout: 10 }), outcome(1, 'alarm', [], [1]));
    });

    play('takers share jobs over two servers', async (scene) => {
        const servers = [await scene.serve('left'), await scene.serve('right')];
        const boss = await scene.space(servers, 1);
        const workers = [2, 3, 4].map(async (client) => {
            const one = await scene.space(servers, client), jobs = [];
            while (jobs.length < 20) jobs.push((await one.take(['job', INT]))[1]);
            return jobs;
        });
        for (let job = 0; job < 60; job += 1) await boss.out(['job', job]);
        const done = (await Promise.all(workers)).flat();
        assert.deepEqual(done.sort((a, b) => a - b), range(0, 60));
        assert.equal(await boss.read(['job', ANY], { timeout: 50 }), null);
    });

    play('its time is up', async (scene) => {
        const server = await scene.serve();
        const one = await scene.space(server), other = await scene.space(server, 8);
        const begin = performance.now();
        assert.equal(await one.take(['a'], { timeout: 200 }), null);
        assert.ok(performance.now() - begin >= 199);
        await other.out(['a']);
        assert.deepEqual(await other.take(['a'], { timeout: 5_000 }), ['a']);
        assert.equal(await one.read(['a'], { timeout: 0 }), null);
    });

    play('a kill under a take', async (scene) => {
        const server = await scene.serve();
        const one = await scene.space(server);
        await one.out(['b']);
        const taking = one.take(['a', INT]);
        await sleep(100);
        const again = await scene.restart(server);
        assert.equal((await (await scene.space(again, 8)).out(['a', 5])).id, 2);
        assert.deepEqual([await taking, await one.take(['b'])], [['a', 5], ['b']]);
    });

    play('a kill under a choice of two', async (scene) => {
        const left = await scene.serve('left'), right = await scene.serve('right');
        const one = await scene.space([left, right]);
        const choosing = one.choose([In('a', INT).wrap(1).nack(4), Rd('b').nack(5)], { timeout: LONG });
        await sleep(50);
        await left.kill();
        await (await scene.space(right, 8)).out(['a', 1]);
        assert.deepEqual(await choosing, outcome(0, 'took', [1], [5], { server: 1, id: 1, tuple: ['a', 1] }, [1]));
        const again = await scene.serve('left', left.port);
        await (await scene.space(again, 9)).out(['c']);
        assert.deepEqual(await one.take(['c']), ['c']);
    });

    play('kills under outs and takes', async (scene) => {
        let server = await scene.serve();
        const putter = await scene.space(server), taker = await scene.space(server, 8);
        const ids = [], jobs = [];
        const put = async () => { while (ids.length < 300) ids.push((await putter.out(['n', ids.length])).id); };
        const take = async () => { while (jobs.length < 300) jobs.push((await taker.take(['n', INT]))[1]); };
        const both = [put(), take()];
        for (let times = 0; times < 3; times += 1) {
            await sleep(50);
            server = await scene.restart(server);
        }
        await Promise.all(both);
        assert.deepEqual([ids, jobs.sort((a, b) => a - b)], [range(1, 301), range(0, 300)]);
        assert.equal(await taker.read(['n', ANY], { timeout: 50 }), null);
    });

    play('the last reply to an earlier life', async (scene) => {
        const server = await scene.serve();
        const first = await scene.space(server);
        assert.equal(await first.lastReply(), null);
        await first.out(['a', 1]);
        assert.deepEqual(await first.lastReply(), new Kept(0, 1, 'stored', 1, null));
        await first.take(['a', INT]);
        assert.deepEqual(await first.lastReply(), new Kept(0, 2, 'taken', 1, ['a', 1]));
        first.close();
        const again = await scene.restart(server);
        const second = await scene.space(again);
        assert.deepEqual(await second.lastReply(), new Kept(0, 2, 'taken', 1, ['a', 1]));
        assert.equal((await second.out(['b'])).id, 2);
        second.close();
        const peer = await Peer.connect(again.port);
        assert.equal(await peer.greet(7), 3n);
        assert.equal((await peer.ask(frames.accept(4, 1, 2))).kind, 'gone');
        peer.stream.destroy();
        const third = await scene.space(again);
        assert.deepEqual(await third.lastReply(), new Kept(0, 4, 'gone', null, null));
        assert.deepEqual(await third.take(['b']), ['b']);
        for (const wrong of [1, -1, '0']) await fails(third.lastReply(wrong), OutOfRange);
    });

    play('refused greetings', async (scene) => {
        const left = await scene.serve('left'), right = await scene.serve('right');
        const one = await scene.space([left, right], 7, { fresh: true });
        await one.out(['a']);
        const busy = { server: 0, reason: 'Busy', client: 7, detail: 0 };
        await fails(scene.space(right, 7, { fresh: true }), Refused, busy);
        one.close();
        const known = async () => {
            try {
                await scene.space([left, right], 7, { fresh: true });
            } catch (fault) {
                return fault.reason === 'Busy' ? known() : fault;
            }
            return null;
        };
        const { server, code, detail } = await known();
        assert.deepEqual([server, code, detail], [1, 2, 1]);
        assert.deepEqual(await (await scene.space([left, right])).out(['b']), new Stored(1, 2, ['b']));
    });

    play('Busy is tried again', async (scene) => {
        const server = await scene.serve();
        const peer = await Peer.connect(server.port);
        await peer.greet(7);
        const greeting = scene.space(server);
        await sleep(100);
        peer.stream.destroy();
        assert.equal((await (await greeting).out(['a'])).id, 1);
        for (let place = 2; place < 12; place += 1) {
            const next = await scene.space(server, 9);
            assert.equal((await next.out(['a'])).id, place);
            next.close();
        }
    });

    play('a number that is in use', async (scene) => {
        const server = await scene.serve();
        const one = await scene.space(server, 70);
        const fault = await failsAfter(2_000, scene.space(server, 70), Refused, { reason: 'Busy', client: 70 });
        assert.match(fault.message, /client number 70/);
        assert.equal((await one.out(['a'])).id, 1);
    });

    play('no connection', async (scene) => {
        const server = await scene.serve();
        const listener = net.createServer();
        await new Promise((resolve) => { listener.listen(0, '127.0.0.1', resolve); });
        const { port } = listener.address();
        await new Promise((resolve) => { listener.close(resolve); });
        const away = { server: 1, port, message: `server 1: no connection to port ${port}: refused` };
        await fails(Space.connect([server.port, port], { client: 7 }), NoConnection, away);
        assert.equal((await (await scene.space(server)).out(['a'])).id, 1);
        // Why not is said of each.
        const silent = await scene.fake(async (peer) => { await peer.expect(hello()); await peer.end(); });
        const none = path.join(scene.folder, 'no folder', 'socket'), own = () => { throw new Error('own'); };
        for (const [at, options, text] of [
            [none, {}, `${none}: no such file`], [silent.port, { patience: 100 }, `port ${silent.port}: timed out`],
            [port, { connect: own }, `port ${port}: own`],
        ]) {
            const fault = await fails(Space.connect([at], { client: 7, ...options }), NoConnection, { port: at });
            assert.equal(fault.message, `server 0: no connection to ${text}`);
        }
        await silent.end();
    });

    play('leaves', async (scene) => {
        const left = await scene.serve('left'), right = await scene.serve('right');
        const one = await scene.space([left, right]), other = await scene.space(left, 8);
        await one.out(['a', 1]);
        assert.equal((await one.out(['b'])).server, 0);
        const held = await one.hold(['b']);
        const taking = other.take(['b']);
        await one.leave();
        assert.deepEqual(await taking, ['b']);
        const calls = [
            () => one.out(['c']), () => one.take(['a']), () => one.lastReply(), () => one.leave(), () => one.abandon(),
        ];
        for (const call of calls) await fails(async () => call(), Left);
        await fails(one.again(), Idle);
        await fails(held.accept(), Left);
        one.close();
        await left.kill();
        await scene.serve('left', left.port);
        const again = await scene.space([left, right]);
        for (const server of [0, 1]) {
            assert.deepEqual(await again.lastReply(server), new Kept(server, 2, 'left', null, null));
        }
        await fails(again.out(['c']), Refused, { server: 1, reason: 'Left', detail: 2, pending: null });
        await fails(again.take(['a', INT]), Refused, { reason: 'Left', pending: null });
        assert.deepEqual([again.pending, again.abandon()], [null, []]);
        assert.deepEqual(await (await scene.space(right, 8)).take(['a', INT]), ['a', 1]);
    });

    play('a leave goes on in a later life', async (scene) => {
        const left = await scene.serve('left'), right = await scene.serve('right');
        const peer = await Peer.connect(left.port);
        await peer.greet(7);
        assert.equal((await peer.ask(frames.leave(1))).kind, 'left');
        peer.stream.destroy();
        const one = await scene.space([left, right]);
        await one.leave();
        one.close();
        const other = await Peer.connect(right.port);
        assert.equal(await other.greet(7), 1n);
        other.stream.destroy();
    });

    play('a leave is pending while a server is gone', async (scene) => {
        const left = await scene.serve('left'), right = await scene.serve('right');
        const one = await scene.space([left, right], 7, SHORT);
        await right.kill();
        await fails(one.leave(), NoConnection, { server: 1, pending: 'leave' });
        for (const call of [() => one.out(['a']), () => one.leave()]) await fails(call, Busy, { pending: 'leave' });
        assert.throws(() => one.abandon(), Idle);
        await scene.serve('right', right.port);
        assert.equal(await patient(() => one.again()), null);
        await fails(one.out(['a']), Left);
    });

    play('too many clients', async (scene) => {
        // A bank (docs/PROTOCOL.md): clients 0 to 65,534 have left with their number 1, and there is no tuple. Then a
        // closed gate.
        const row = (client) => Buffer.concat([number(client, 4), number(1), Buffer.of(4)]);
        const rows = range(0, MOST_CLIENTS - 1).map(row);
        const snapshot = Buffer.concat([number(1), number(0, 4), number(rows.length, 4), ...rows]);
        mkdirSync(path.join(scene.folder, 'one'));
        const head = [Buffer.from('\x01LND2'), number(1), number(snapshot.length, 4)];
        const bank = Buffer.concat([...head, snapshot, Buffer.of(0)]);
        writeFileSync(path.join(scene.folder, 'one', 'left.bank'), bank);
        const server = await scene.serve();
        const early = await scene.space(server, 100_000);
        assert.equal((await (await scene.space(server, 200_000)).out(['a'])).id, 1);
        await fails(scene.space(server, 300_000), Refused, { reason: 'TooManyClients', detail: MOST_CLIENTS });
        await fails(early.out(['b']), Refused, { code: 7, pending: null });
        await fails(early.choose([In('a').nack(3)]), Refused, { code: 7, pending: null });
        assert.deepEqual(early.abandon(), [3]);
    });

    play('another program uses the number', async (scene) => {
        const server = await scene.serve();
        const one = await scene.space(server);
        await one.out(['a']);
        const again = await scene.restart(server);
        const peer = await Peer.connect(again.port);
        await peer.greet(7);
        assert.equal((await peer.ask(frames.out(2, ['x']))).kind, 'stored');
        assert.equal((await peer.ask(frames.out(3, ['y']))).kind, 'stored');
        peer.stream.destroy();
        const text = 'server 0: number in use: another program uses client number 7 (its last number is 3, and 1 was expected)';
        const told = { server: 0, last: 3, answered: 1, client: 7, code: 'NumberInUse', message: text, pending: null };
        await fails(one.out(['b']), NumberInUse, told);
        for (const call of [() => one.out(['b']), () => one.take(['b']), () => one.lastReply(), () => one.leave()]) {
            await fails(call, NumberInUse, told);
        }
        assert.equal(one.pending, null);
    });

    play('goes on after a server was away too long', async (scene) => {
        let server = await scene.serve();
        const one = await scene.space(server, 7, SHORT);
        await one.out(['a', 0]);
        await server.kill();
        for (const call of [() => one.out(['a', 1]), () => one.again()]) {
            await failsAfter(1_500, call, NoConnection, { pending: 'out' });
        }
        for (const call of [() => one.out(['a', 2]), () => one.take(['a']), () => one.lastReply()]) {
            await fails(call, Busy);
        }
        assert.throws(() => one.abandon(), Idle);
        server = await scene.serve('one', server.port);
        assert.deepEqual(await patient(() => one.again()), new Stored(0, 2, ['a', 1]));
        await fails(one.again(), Idle);
        assert.deepEqual([await one.take(['a', 1]), await one.take(['a', 0])], [['a', 1], ['a', 0]]);
        assert.equal(await one.read(['a', ANY], { timeout: 50 }), null);
    });

    play('a take is over after an error', async (scene) => {
        const server = await scene.serve();
        const one = await scene.space(server, 7, SHORT), other = await scene.space(server, 8);
        await server.kill();
        await fails(one.choose([In('a').nack(3), Rd('b').nack(4)]), NoConnection, { pending: null });
        assert.deepEqual([one.pending, one.abandon()], [null, [3, 4]]);
        assert.throws(() => one.abandon(), Idle);
        await fails(one.again(), Idle);
        await scene.serve('one', server.port);
        await other.out(['a', 6]);
        assert.deepEqual(await other.take(['a', INT]), ['a', 6]);
        await other.out(['a', 7]);
        assert.deepEqual(await patient(() => one.take(['a', INT])), ['a', 7]);
    });

    play('values at their limits', async (scene) => {
        const one = await scene.space(await scene.serve());
        const least = -(2n ** 63n), most = 2n ** 63n - 1n;
        const values = [
            [least, most, 0, -1, true, false, '', 'x'.repeat(256), 'é'.repeat(2_047), '\u{1f600}'.repeat(1_023),
                '\0\n\t"\\', '\ufeff'],
            ['x'.repeat(4_095), ...new Array(32).fill('y'.repeat(4_095))],
            [2 ** 53 - 1, 2n ** 53n, -(2 ** 53 - 1)], [true], [0], [''],
        ];
        const formalOf = (item) => ({ string: TEXT, boolean: BOOL }[typeof item] ?? INT);
        for (const value of values) {
            await one.out(value);
            const formals = value.map((item, place) => (place === 0 ? item : formalOf(item)));
            assert.deepEqual([await one.read(value), await one.read(formals)], [value, value]);
            assert.deepEqual(await one.take([value[0], ...value.slice(1).map(() => ANY)]), value);
        }
        await one.out(['a', 5n, -0]);
        const [, five, zero] = await one.take(['a', 5, 0]);
        assert.deepEqual([five, Object.is(zero, 0)], [5, true]);
    });

    play('nothing is sent after a wrong value', async (scene) => {
        const one = await scene.space(await scene.serve());
        const wrong = [2n ** 63n, -(2n ** 63n) - 1n, 2 ** 53, 1.5, NaN, 'x'.repeat(4_096), 'é'.repeat(2_048), '\ud800',
            null, undefined, {}, ['a'], Symbol('a')];
        const names = ['out', 'take', 'read', 'look', 'hold'];
        const ports = [[], range(1, 18), [0], [65_536], ['7000'], [''], ['a/\0'], 'a/b', '7000', 7000];
        const clients = [-1, 2 ** 32, true, '7', [], [1, -1], null];
        const calls = [
            ...[...wrong, INT, ANY].map((tag) => () => one.out([tag])),
            ...[...wrong, INT].map((item) => () => one.out(['a', item])),
            ...names.slice(1).flatMap((name) => wrong.map((item) => () => one[name](['a', item]))),
            ...names.map((name) => () => one[name](['a', ...range(0, 33)])),
            ...names.flatMap((name) => ['a', []].map((tuple) => () => one[name](tuple))),
            ...names.map((name) => () => one[name](['a'], 5)),
            ...names.flatMap((name) => [-1, NaN, Infinity, '1'].map((timeout) => () => one[name](['a'], { timeout }))),
            () => one.take(['a'], { timout: 5 }), () => one.take(['a'], { signal: 5 }),
            () => one.sync(In('a'), { timeout: 5 }), () => one.sync(['in', 'a']),
            () => one.take([INT]), () => one.choose(['a']), () => one.choose(In('a')),
            () => Wrap(1, 'a'), () => Nack(1, null), () => Wrap(-1, Never()), () => Nack(2n ** 64n, Never()),
            () => Alarm(-1), () => Alarm(2n ** 64n), () => Always(2n ** 63n), () => one.after(-1),
            ...ports.map((list) => () => Space.connect(list, { client: 1 })),
            ...clients.map((client) => () => Space.connect([7000], { client })),
            ...[0, -1, '1', NaN].map((patience) => () => Space.connect([7000], { client: 7, patience })),
            () => one.leave({ timeout: -1 }), () => one.lastReply(0, { timeout: 'x' }),
        ];
        for (const call of calls) await fails(async () => call(), OutOfRange);
        assert.throws(() => new Space(), TypeError);
        assert.deepEqual([one.pending, await one.lastReply(), (await one.out(['a'])).id], [null, null, 1]);
    });

    play('holes in arrays', async (scene) => {
        const server = await scene.serve(), one = await scene.space(server), { port } = server;
        const hole = (items, place) => { delete items[place]; return items; };
        const fault = await fails(one.outMany(hole([['a'], ['a'], ['a']], 1)), OutOfRange, { pending: null });
        assert.match(fault.message, /^tuple 1: /);
        const wrong = range(0, 1_000).map((item) => ['a', item === 777 ? 1.5 : item]);
        assert.match((await fails(one.outMany(wrong), OutOfRange)).message, /^tuple 777: /);
        await fails(one.out(hole(['a', 1, 2], 1)), OutOfRange);
        assert.deepEqual([await one.look(['a']), one.pending], [null, null]);
        await fails(Space.connect(hole([port, port], 1), { client: 8 }), OutOfRange);
        for (const client of [new Array(3), hole([8, 9], 0)]) {
            const { message } = await fails(Space.connect([port], { client }), OutOfRange);
            assert.match(message, /^a client is an integer from 0 to 4294967295: undefined$/);
            assert.throws(() => new Pool([port], { client }), OutOfRange);
        }
        await fails(one.work(hole([In('job'), In('job')], 1), () => {}), OutOfRange);
        await one.out(['job', 1]);
        await assert.rejects(one.work(['job', INT], () => hole([['a'], ['a'], ['a']], 1)), TypeError);
        await fails(one.work(['job', INT], () => hole([['a'], ['a']], 0)), OutOfRange);
        assert.deepEqual([await one.look(['a']), await one.take(['job', INT])], [null, ['job', 1]]);
    });

    play('errors show any value', async (scene) => {
        const one = await scene.space(await scene.serve()), circle = [];
        circle.push(circle);
        const wrong = [Object.create(null), { toString() { throw new Error('own'); } }, circle, Symbol('a'), () => {}, new Array(2 ** 32 - 1),
            [['x'.repeat(9_999)]], { toString: () => 'x'.repeat(9_999) }, range(0, 9_999), 2n ** 99_999n];
        for (const value of wrong) {
            const { message } = await fails(one.out(['a', value]), OutOfRange, { pending: null });
            assert.ok(typeof value === 'bigint' || message.length < 260, message);
            await fails(one.choose([value]), OutOfRange);
            await fails(Space.connect(value), OutOfRange);
            await fails(Space.connect([value]), OutOfRange);
        }
        const { message } = await fails(one.out(['a', ['x', [1, true], 5n]]), OutOfRange);
        assert.ok(message.endsWith(': ["x", [1, true], 5n]'), message);
        assert.match((await fails(Space.connect(['sock']), OutOfRange)).message, /a unix socket, with a slash: "sock"$/);
    });

    play('events that are in another one many times', async (scene) => {
        const server = await scene.serve(), one = await scene.space(server), pool = new Pool([server.port], { client: 8 });
        scene.spaces.push(pool);
        const nested = (first, times, above) => range(0, times).reduce(above, first), twice = (event) => Choose(event, event);
        const empty = nested(Choose(), 60, twice), deep = nested(In('a'), 100_000, (event, label) => Wrap(label, event));
        const wrong = [nested(In('a'), 60, twice), nested(Never(), 60, twice), deep, nested(Nack(1, Choose()), 60, twice),
            nested(Choose(), 60, (event) => Nack(1, twice(event)))];
        for (const event of wrong) {
            for (const callee of [one, pool]) {
                await fails(callee.sync(event), OutOfRange, { pending: null });
                await fails(callee.choose([event], { timeout: 0 }), OutOfRange);
            }
        }
        assert.match((await fails(one.sync(deep), OutOfRange)).message, /under more than 64 nodes/);
        const leafless = nested(Choose(), 100_000, (event, label) => Wrap(label, event));
        for (const callee of [one, pool]) {
            const { kind, base, raised } = await callee.sync(Choose(empty, leafless, Nack(5, empty), Wrap(3, Nack(4, Always(1)))));
            assert.deepEqual([kind, base, raised], ['always', 0, [5]]);
        }
    });

    play('events at their limits', async (scene) => {
        const one = await scene.space(await scene.serve());
        await one.out(['a']);
        let deep = Rd('a');
        for (const label of range(0, 64)) deep = deep.wrap(label);
        assert.deepEqual((await one.sync(deep)).labels, range(0, 64));
        for (const event of [deep.wrap(64), deep.nack(1), Choose(deep), Choose(Always(1), deep.wrap(1))]) {
            assert.match((await fails(one.sync(event), OutOfRange)).message, /64 nodes/);
        }
        const many = (count, event) => new Array(count).fill(event);
        assert.equal((await one.choose([...many(62, In('b')), Rd('a')], { timeout: LONG })).base, 62);
        assert.equal((await one.choose([...many(64, In('b')), ...many(191, Never()), Alarm(0)])).base, 255);
        for (const event of [Choose(...many(65, Rd('a'))), Choose(Always(1), ...many(256, Never()))]) {
            assert.match((await fails(one.sync(event), OutOfRange)).message, /256 bases/);
        }
        let empty = Choose();
        for (let times = 0; times < 5_000; times += 1) empty = Choose(empty);
        assert.equal((await one.choose([empty, Rd('a')])).base, 0);
        assert.deepEqual(await one.take(['a']), ['a']);
        const most = 2n ** 64n - 1n, end = new AbortController();
        const call = fails(one.sync(Nack(most, Wrap(most, Alarm(most))), { signal: end.signal }), Aborted);
        while (one.pending === null) await turn();      // it has begun, however busy the machine is
        end.abort();
        await call;
        assert.deepEqual(one.abandon(), [most]);
    });

    play('a server is restored', async (scene) => {
        let server = await scene.serve();
        const one = await scene.space(server), other = await scene.space(server, 8);
        await one.out(['a', 1]);
        await server.kill();
        cpSync(server.folder, path.join(scene.folder, 'copy'), { recursive: true });
        server = await scene.serve('one', server.port);
        await one.out(['a', 2]);
        assert.deepEqual(await other.take(['a', 2]), ['a', 2]);
        await server.kill();
        server = await scene.serve('copy', server.port);
        await fails(one.take(['a', INT]), Restored, { server: 0, last: 1, answered: 2, pending: null });
        await fails(other.take(['a', INT]), Restored, { server: 0, last: 0, answered: 1 });
        const fresh = await scene.space(server, 9);
        assert.deepEqual([await fresh.take(['a', INT]), await fresh.look(['a', INT])], [['a', 1], null]);
    });

    play('numbers from a range', async (scene) => {
        const left = await scene.serve('left'), right = await scene.serve('right'), both = [left, right];
        const first = await scene.space(both, range(100, 103)), second = await scene.space(both, range(100, 103));
        await scene.space(left, 102);
        assert.deepEqual([first.client, second.client], [100, 101]);
        assert.match((await fails(scene.space(both, range(100, 103)), NoNumber)).message, /100 to 102 is to be had: .*; give more of them$/);
        assert.equal((await first.out(['a', 5])).id, 1);
        first.close();
        let found = 0;
        while (found !== 100) {
            const again = await scene.space(both, range(100, 120));
            found = again.client;
            again.close();
            await sleep(2);
        }
        await second.leave();
        second.close();
        await scene.space(left, 100);
        assert.equal((await scene.space(left, range(101, 110))).client, 103);
        assert.equal((await scene.space(left, range(100, 110), { fresh: true })).client, 104);
    });

    play('a program ends if it waits for no call', async (scene) => {
        const server = await scene.serve();
        const file = pathToFileURL(path.join(HERE, 'linda_space.mjs')).href;
        const program = `import { Space } from ${JSON.stringify(file)};
            const one = await Space.connect([${server.port}], { client: 7 });
            await one.out(['a']); await one.hold(['a']); console.log('over');`;
        const child = spawn(process.execPath, ['--input-type=module', '-e', program], PIPED);
        let told = '';
        child.stdout.on('data', (piece) => { told += piece; });
        assert.deepEqual(await once(child, 'close'), [0, null]);
        assert.equal(told, 'over\n');
        assert.deepEqual(await (await scene.space(server, 8)).take(['a']), ['a']);
    });
});

// ---- waits, and what an error leaves pending

beside('waits', () => {
    play('a Hello that is never answered', async (scene) => {
        const fake = await scene.fake((peer) => peer.expect(hello()).then(() => peer.end()));
        await failsAfter(1_500, Space.connect([fake.port], { client: 7, ...SHORT }), NoConnection, { server: 0 });
        await fake.end();
    });

    play('an out needs its own server only', async (scene) => {
        const left = await scene.serve('left'), right = await scene.serve('right');
        const one = await scene.space([left, right], 0, SHORT);
        await right.kill();
        await left.stop();
        const putting = one.out(['a']);
        await sleep(2_500);
        left.goOn();
        assert.deepEqual(await putting, new Stored(0, 1, ['a']));
    });

    play('the time of an out is up', async (scene) => {
        const server = await scene.serve();
        const one = await scene.space(server);
        await server.stop();
        await failsAfter(199, one.out(['a', 1], { timeout: 200 }), TimedOut, { servers: [0], pending: 'out' });
        await failsAfter(199, one.again({ timeout: 200 }), TimedOut, { pending: 'out' });
        const calls = [() => one.out(['b']), () => one.take(['a']), () => one.look(['a']), () => one.leave()];
        for (const call of [...calls, () => one.lastReply()]) await fails(call, Busy, { pending: 'out' });
        server.goOn();
        assert.deepEqual(await one.again(), new Stored(0, 1, ['a', 1]));
        assert.deepEqual([one.pending, await one.take(['a', INT]), await one.look(['a', INT])], [null, ['a', 1], null]);
        await server.stop();
        await fails(one.lastReply(0, { timeout: 100 }), TimedOut, { pending: 'lastReply' });
        server.goOn();
        assert.deepEqual(await one.again(), new Kept(0, 2, 'taken', 1, ['a', 1]));
        await server.stop();
        await fails(one.leave({ timeout: 100 }), TimedOut, { pending: 'leave' });
        server.goOn();
        assert.equal(await one.again(), null);
        await fails(one.out(['b']), Left);
    });

    play('null means that all servers were there', async (scene) => {
        const left = await scene.serve('left'), right = await scene.serve('right');
        const one = await scene.space([left, right]);
        for (const name of ['take', 'read', 'hold']) assert.equal(await one[name](['a'], { timeout: 50 }), null);
        await right.kill();
        const limits = { timeout: 300 };
        const calls = [() => one.take(['a'], limits), () => one.choose([In('a')], limits)];
        for (const call of [...calls, () => one.hold(['a'], limits)]) {
            await failsAfter(299, call, TimedOut, { servers: [1], pending: null });
        }
        assert.equal((await one.sync(Choose(In('a'), one.after(100)))).kind, 'alarm');
        await (await scene.space(left, 8)).out(['a']);
        assert.deepEqual(await one.take(['a'], { timeout: LONG }), ['a']);
        await scene.serve('right', right.port);
        assert.deepEqual([await one.look(['a']), await one.take(['a'], { timeout: 100 })], [null, null]);
    });

    play('a server that does not answer when the time is up', async (scene) => {
        const server = await scene.serve();
        const one = await scene.space(server, 7, SHORT);
        await server.stop();
        const soon = () => one.take(['a'], { timeout: 100 }), now = () => one.take(['a'], { timeout: 0 });
        for (const call of [soon, now, () => one.look(['a'])]) {
            await failsAfter(1_500, call, TimedOut, { servers: [0], pending: null });
        }
        await failsAfter(199, one.look(['a'], { timeout: 200 }), TimedOut, { servers: [0] });
        server.goOn();
        assert.equal(await (await scene.space(server, 8)).take(['a'], { timeout: 100 }), null);
    });

    play('a take without time takes what is there', async (scene) => {
        const one = await scene.space([await scene.serve('left'), await scene.serve('right')]);
        assert.equal(await one.take(['a', INT], { timeout: 0 }), null);
        for (const item of range(0, 3)) await one.out(['a', item]);
        const found = [];
        while (found.length < 3) found.push((await one.take(['a', INT], { timeout: 0 }))[1]);
        assert.deepEqual(found.sort(), [0, 1, 2]);
        const none = await one.choose([In('a', INT).nack(1), Rd('b').nack(2)], { timeout: 0 });
        assert.deepEqual(none, outcome(2, 'alarm', [], [1, 2]));
    });

    play('what is asked when the time is up', async (scene) => {
        // A message that is always answered is sent after the Asks; an offer before its answer is accepted, and one
        // after it is given back.
        const fake = await scene.fake(async (peer) => {
            await greets(peer, 0);
            await peer.expect(frames.ask(1, true, ['a', INT]), PROBE);
            peer.send(offer(1, 3, ['a', 8]), refusal(OLD, 0));
            await peer.expect(frames.accept(1, 1, 3));
            peer.send(gone(1));
            await peer.expect(frames.cancel(1), frames.out(2, ['b']));
            peer.send(offer(1, 4, ['a', 9]), stored(2, 5));
            await peer.expect(frames.cancel(1), frames.ask(2, true, ['a', INT]), PROBE);
            peer.send(offer(2, 4, ['a', 9]), refusal(OLD, 2));
            await peer.expect(frames.accept(3, 2, 4));
            peer.send(taken(3, 4, ['a', 9]));
            await peer.end();
        });
        const one = await scene.space(fake);
        assert.equal(await one.take(['a', INT], { timeout: 0 }), null);
        assert.equal((await one.out(['b'])).id, 5);
        assert.deepEqual(await one.take(['a', INT], { timeout: 0 }), ['a', 9]);
        one.close();
        await fake.end();
    });

    play('looks', async (scene) => {
        const left = await scene.serve('left'), right = await scene.serve('right');
        const one = await scene.space([left, right], 0, SHORT), other = await scene.space(right, 8);
        const look = (...template) => patient(() => one.look(template));
        assert.equal(await look('a', INT), null);
        await other.out(['a', 1]);
        assert.deepEqual([await look('a', INT), await look('a', 2)], [['a', 1], null]);
        const held = await other.hold(['a', INT]);
        assert.deepEqual(await look('a', INT), ['a', 1]);
        held.release();
        await right.kill();
        await one.out(['b']);
        assert.deepEqual(await look('b'), ['b']);
        await failsAfter(1_500, one.look(['c']), NoConnection, { server: 1 });
        await scene.serve('right', right.port);
        assert.deepEqual([await look('c'), await look('a', ANY)], [null, ['a', 1]]);
    });

    play('Busy after a lost connection', async (scene) => {
        const first = async (peer) => { await greets(peer, 4); await peer.expect(frames.out(5, ['a'])); };
        const busy = async (peer) => { await peer.expect(hello()); peer.send(refusal(BUSY, 0)); await peer.end(); };
        const last = async (peer) => {
            await greets(peer, 5);
            await peer.expect(frames.out(5, ['a']));
            peer.send(stored(5, 9));
            await peer.end();
        };
        const fake = await scene.fake(first, busy, busy, last);
        const one = await scene.space(fake);
        assert.equal((await one.out(['a'])).id, 9);
        one.close();
        await fake.end();
        const other = await scene.fake(first, ...new Array(60).fill(busy));
        const short = await scene.space(other, 7, SHORT);
        await failsAfter(1_500, short.out(['a']), Refused, { reason: 'Busy', pending: 'out' });
    });

    play('restored', async (scene) => {
        for (const call of [(one) => one.out(['b']), (one) => one.take(['b']), (one) => one.leave()]) {
            const first = async (peer) => {
                await greets(peer, 4);
                await peer.expect(frames.out(5, ['a']));
                peer.send(stored(5, 9));
            };
            const second = async (peer) => { await greets(peer, 3); await peer.end(); };
            const fake = await scene.fake(first, second);
            const one = await scene.space(fake);
            await one.out(['a']);
            await fails(call(one), Restored, { server: 0, last: 3, answered: 5, pending: null });
            const calls = [() => one.out(['b']), () => one.take(['b']), () => one.look(['b']), () => one.hold(['b'])];
            for (const later of calls) await fails(later, Restored, { last: 3, answered: 5 });
            await fails(one.again(), Idle);
            one.close();
            await fake.end();
        }
    });

    play('no frames of a server', async (scene) => {
        const item = [2, 0, 1, 97], held = [0x13, ...Buffer.alloc(16)];
        const tuples = [[...item, 0, 0], [4, 0], [3, 2, 0], [2, 0, 1, 0xff, 0], [2, 0x10, 0, ...Buffer.alloc(4_096), 0],
            [2, 0x10, 0], [2, 0], [2, 0, 2, 120], [...item, 33, ...Buffer.alloc(66, Buffer.of(3, 0))],
            [...item, 1, 7], item];
        const bodies = [[0x19], [0x01], [0x11, ...Buffer.alloc(7)], [0x11, ...Buffer.alloc(9)], [0x18],
            [0x18, ...Buffer.alloc(7)], [0x06, ...Buffer.alloc(8)], ...tuples.map((tuple) => [...held, ...tuple])];
        const whole = bodies.map((body) => framed(Buffer.from(body)));
        for (const data of [Buffer.alloc(4), Buffer.of(0, 4, 0, 1), Buffer.alloc(4, 0xff), ...whole]) {
            const fake = await scene.fake(async (peer) => {
                await greets(peer, 0);
                await peer.expect(frames.out(1, ['a']));
                peer.send(data);
                await peer.end();
            });
            const one = await scene.space(fake);
            await fails(one.out(['a']), BadReply, { server: 0, pending: 'out' });
            one.close();
            await fake.end();
        }
    });

    play('a bad reply ends the connection, and it goes on over another', async (scene) => {
        const talk = (reply) => async (peer) => {
            await greets(peer, 0);
            await peer.expect(frames.out(1, ['a']));
            peer.send(reply);
            await peer.end();
        };
        const fake = await scene.fake(talk(framed(0x19)), talk(stored(1, 9)));
        const one = await scene.space(fake);
        await fails(one.out(['a']), BadReply, { pending: 'out' });
        assert.deepEqual([await one.again(), one.pending], [new Stored(0, 9, ['a']), null]);
        one.close();
        await fake.end();
    });

    play('goes on after a refusal', async (scene) => {
        const fake = await scene.fake(async (peer) => {
            await greets(peer, 0);
            await peer.expect(frames.ask(1, false, ['a', ANY]), frames.ask(2, true, ['b']));
            peer.send(refusal(TOO_MANY_ASKS, 1));
            await peer.expect(frames.cancel(1), frames.cancel(2));
            peer.send(refusal(TOO_MANY_ASKS, 2), read(3, 3, ['a', true]));
            await peer.expect(frames.ask(3, false, ['a', ANY]), frames.cancel(3));
            await peer.end();
        });
        const one = await scene.space(fake);
        const refused = one.choose([Rd('a', ANY).nack(1), In('b').wrap(2).nack(5)]);
        await fails(refused, Refused, { reason: 'TooManyAsks', detail: 1, pending: null });
        assert.deepEqual(one.abandon(), [1, 5]);
        assert.deepEqual(await one.read(['a', ANY]), ['a', true]);
        one.close();
        await fake.end();
    });

    play('a refused out is put again under its number', async (scene) => {
        const fake = await scene.fake(async (peer) => {
            await greets(peer, 0);
            await peer.expect(frames.out(1, ['a']));
            peer.send(refusal(FULL, 0));
            await peer.expect(frames.out(1, ['b']));
            peer.send(stored(1, 9));
            await peer.end();
        });
        const one = await scene.space(fake);
        await fails(one.out(['a']), Refused, { reason: 'Full', code: FULL, pending: null });
        assert.equal((await one.out(['b'])).id, 9);
        one.close();
        await fake.end();
    });

    play('one call after another', async (scene) => {
        const server = await scene.serve();
        const one = await scene.space(server), other = await scene.space(server, 8);
        const order = [], note = (name) => () => order.push(name);
        const stored = await Promise.all(range(0, 100).map((item) => one.out(['n', item])));
        assert.deepEqual(stored.map(({ id }) => id), range(1, 101));
        const taking = one.take(['a']).then(note('take'));
        const later = [one.out(['b']).then(note('out')), one.look(['b']).then(note('look'))];
        while (one.pending !== 'sync') await sleep(5);
        await fails(one.out(['c'], { signal: AbortSignal.timeout(50) }), Aborted, { pending: 'sync' });
        assert.equal(await other.look(['b']), null);
        await other.out(['a']);
        await Promise.all([taking, ...later]);
        assert.deepEqual(order, ['take', 'out', 'look']);
        assert.equal(await other.look(['c']), null);
        // A time begins when those before have ended.
        const [none, soon] = [one.take(['a'], { timeout: 300 }), one.take(['n', 99], { timeout: 1 })];
        assert.deepEqual([await none, await soon], [null, ['n', 99]]);
    });

    play('a close wakes all calls', async (scene) => {
        const one = await scene.space(await scene.serve());
        const held = await one.out(['h']).then(() => one.hold(['h']));
        const calls = [one.take(['a']), one.out(['a']), one.hold(['a']), one.lastReply(), held.accept()];
        const ending = Promise.all(calls.map((call) => fails(call, Closed, { code: 'Closed' })));
        one.close();
        await ending;
        held.release();
        assert.equal(held.isHeld, false);
        assert.throws(() => held.renew(), Closed);
    });

    play('a failed call leaves those behind it as they are', async (scene) => {
        let server = await scene.serve();
        const one = await scene.space(server, 7, SHORT);
        await server.kill();
        const calls = [one.out(['a', 1]), one.out(['a', 2]), one.take(['a', INT])];
        await fails(calls[0], NoConnection, { pending: 'out' });
        for (const call of calls.slice(1)) await fails(call, Busy, { pending: 'out' });
        server = await scene.serve('one', server.port);
        const both = await Promise.all([patient(() => one.again()), one.out(['a', 3]).catch((fault) => fault.code)]);
        assert.deepEqual([both[0].tuple, both[1].tuple ?? both[1]], [['a', 1], ['a', 3]]);
    });

    // ---- a signal

    play('a take is aborted', async (scene) => {
        const server = await scene.serve();
        const one = await scene.space(server), other = await scene.space(server, 8);
        const taking = one.choose([In('a', INT).nack(3), In('b').nack(4)], { signal: AbortSignal.timeout(1_000) });
        const fault = await fails(taking, Aborted, { pending: null, name: 'AbortError' });
        assert.equal(fault.cause.name, 'TimeoutError');
        assert.deepEqual(one.abandon(), [3, 4]);
        await fails(one.out(['c'], { signal: AbortSignal.abort() }), Aborted, { pending: null });
        await other.out(['a', 1]);
        assert.deepEqual(await other.take(['a', INT], { timeout: LONG }), ['a', 1]);
        assert.equal((await one.out(['b'])).id, 2);
    });

    play('an out is aborted', async (scene) => {
        const server = await scene.serve();
        const one = await scene.space(server);
        await server.stop();
        await fails(one.out(['a', 1], { signal: AbortSignal.timeout(1_000) }), Aborted, { pending: 'out' });
        await fails(one.take(['a', INT]), Busy);
        server.goOn();
        assert.deepEqual([await one.again(), await one.take(['a', INT])], [new Stored(0, 1, ['a', 1]), ['a', 1]]);
    });

    // ---- an Accept that is not answered

    for (const isTaken of [true, false]) {
        play(`aborted while a tuple is ${isTaken ? 'taken' : 'not taken'}`, async (scene) => {
            const abort = new AbortController();
            const fake = await scene.fake(async (peer) => {
                await greets(peer, 0);
                await peer.expect(frames.ask(1, true, ['a', INT]));
                peer.send(offer(1, 3, ['a', 8]));
                await peer.expect(frames.accept(1, 1, 3));
                abort.abort();
            }, async (peer) => {
                await greets(peer, 1);
                await peer.expect(frames.accept(1, 1, 3));
                peer.send(isTaken ? taken(1, 3, ['a', 8]) : gone(1));
                await peer.expect(...isTaken ? [] : [frames.cancel(1)], frames.out(2, ['b']));
                peer.send(stored(2, 4));
                await peer.end();
            });
            const one = await scene.space(fake);
            await fails(one.take(['a', INT], { signal: abort.signal }), Aborted, { pending: 'sync' });
            assert.throws(() => one.abandon(), Busy);
            assert.equal((await one.out(['b'])).id, 4);
            if (isTaken) {
                assert.equal(one.pending, 'sync');
                const next = await one.choose([Rd('c'), In('a', 8).wrap(6).nack(1)], { timeout: 0 });
                assert.deepEqual(next, outcome(1, 'took', [6], [], { server: 0, id: 3, tuple: ['a', 8] }));
            }
            assert.equal(one.pending, null);
            one.close();
            await fake.end();
        });
    }

    play('what is pending comes before what was taken', async (scene) => {
        const abort = new AbortController();
        const fake = await scene.fake(async (peer) => {
            await greets(peer, 4);
            await peer.expect(frames.ask(1, true, ['a', INT]));
            peer.send(offer(1, 3, ['a', 8]));
            await peer.expect(frames.accept(5, 1, 3));
            abort.abort();
            await sleep(30);
            peer.send(taken(5, 3, ['a', 8]));
            await peer.expect(frames.out(6, ['b']), frames.out(6, ['b']));
            peer.send(stored(6, 4), stored(6, 4));
            await peer.end();
        });
        const one = await scene.space(fake);
        await fails(one.take(['a', INT], { signal: abort.signal }), Aborted, { pending: 'sync' });
        await fails(one.out(['b'], { timeout: 500 }), TimedOut, { pending: 'out' });
        assert.equal(one.pending, 'out');
        const { kind, id } = await one.again();
        assert.deepEqual([kind, id, one.pending], ['stored', 4, 'sync']);
        assert.deepEqual([(await one.again()).tuple, one.pending], [['a', 8], null]);
        await fails(one.again(), Idle);
        one.close();
        await fake.end();
    });

    play('aborted while a tuple is taken, which is refused', async (scene) => {
        const abort = new AbortController();
        const fake = await scene.fake(async (peer) => {
            await greets(peer, 0);
            await peer.expect(frames.ask(1, true, ['a', INT]));
            peer.send(offer(1, 3, ['a', 8]));
            await peer.expect(frames.accept(1, 1, 3));
            abort.abort();
            await sleep(50);
            peer.send(refusal(FULL, 0));
            await peer.expect(frames.cancel(1), frames.out(1, ['b']));
            peer.send(stored(1, 4));
            await peer.end();
        });
        const one = await scene.space(fake);
        await fails(one.take(['a', INT], { signal: abort.signal }), Aborted, { pending: 'sync' });
        assert.deepEqual([(await one.out(['b'])).id, one.pending], [4, null]);
        one.close();
        await fake.end();
    });

    play('the time is up while a tuple is taken', async (scene) => {
        let hand;
        const due = new Promise((resolve) => { hand = resolve; });
        const fake = await scene.fake(async (peer) => {
            await greets(peer, 0);
            await peer.expect(frames.ask(1, true, ['a', INT]));
            peer.send(offer(1, 3, ['a', 8]));
            await peer.expect(frames.accept(1, 1, 3));
            await due;
            peer.send(taken(1, 3, ['a', 8]));
            await peer.end();
        });
        const one = await scene.space(fake, 7, SHORT);
        await failsAfter(1_600, one.take(['a', INT], { timeout: 100 }), TimedOut, { pending: 'sync', servers: [0] });
        await failsAfter(99, one.again({ timeout: 100 }), TimedOut, { pending: 'sync' });
        hand();
        assert.deepEqual(await patient(() => one.take(['a', INT])), ['a', 8]);
        assert.equal(one.pending, null);
        one.close();
        await fake.end();
    });

    play('an Ask that was sent again is cancelled', async (scene) => {
        const fake = await scene.fake(async (peer) => {
            await greets(peer, 0);
            await peer.expect(frames.ask(1, true, ['a', INT]));
            peer.send(offer(1, 3, ['a', 8]));
            await peer.expect(frames.accept(1, 1, 3));
        }, async (peer) => {
            await greets(peer, 1);
            await peer.expect(frames.accept(1, 1, 3), frames.ask(1, true, ['a', INT]));
            peer.send(taken(1, 3, ['a', 8]));
            await peer.expect(frames.cancel(1));
            await peer.end();
        });
        const one = await scene.space(fake);
        assert.deepEqual(await one.take(['a', INT]), ['a', 8]);
        one.close();
        await fake.end();
    });

    play('nothing is held after a lost Taken', async (scene) => {
        const server = await scene.serve();
        let cuts = 0;
        /** A way to the server on which the first Taken is lost, with its connection. */
        const way = net.createServer((stream) => {
            const onward = net.connect({ port: server.port, host: '127.0.0.1' });
            let came = Buffer.alloc(0);
            stream.pipe(onward);
            onward.on('data', (piece) => {
                came = Buffer.concat([came, piece]);
                while (came.length >= 4 && came.length >= 4 + came.readUInt32BE()) {
                    const size = 4 + came.readUInt32BE();
                    if (cuts === 0 && came[4] === 0x15) {
                        cuts = 1;
                        stream.destroy();
                        onward.destroy();
                        return;
                    }
                    stream.write(came.subarray(0, size));
                    came = came.subarray(size);
                }
            });
            const end = () => { stream.destroy(); onward.destroy(); };
            for (const one of [stream, onward]) one.on('error', end).on('close', end);
        });
        await new Promise((resolve) => { way.listen(0, '127.0.0.1', resolve); });
        scene.closed.push(() => way.close());
        const one = await scene.space(way.address()), other = await scene.space(server, 8);
        await other.out(['a', 1]);
        assert.deepEqual([await one.take(['a', INT]), cuts], [['a', 1], 1]);
        await other.out(['a', 2]);
        assert.deepEqual(await other.take(['a', INT], { timeout: LONG }), ['a', 2]);
        assert.equal(await other.take(['a', INT], { timeout: 0 }), null);
    });

    // ---- what is held

    play('holds', async (scene) => {
        const servers = [await scene.serve('left'), await scene.serve('right')];
        const one = await scene.space(servers, 0), other = await scene.space(servers, 9);
        await other.out(['job', 1, 'x']);                               // at server 1
        const held = await one.hold(['job', INT, ANY], { timeout: LONG });
        assert.deepEqual([held.tuple, held.binds, held.server, held.id], [['job', 1, 'x'], [1], 1, 1]);
        assert.equal(held.isTaken, false);
        assert.equal(await other.take(['job', INT, ANY], { timeout: 100 }), null);
        assert.equal((await one.out(['done', 1])).id, 1);
        for (let times = 0; times < 2; times += 1) assert.deepEqual(await held.accept(), ['job', 1, 'x']);
        assert.equal(held.isTaken, true);
        held.release();
        assert.equal(await one.look(['job', INT, ANY]), null);
        assert.deepEqual(await one.lastReply(1), new Kept(1, 1, 'taken', 1, ['job', 1, 'x']));
        for (const timeout of [50, 0]) assert.equal(await one.hold(['job', INT, ANY], { timeout }), null);
    });

    play('what is not accepted is free again', async (scene) => {
        const server = await scene.serve();
        const one = await scene.space(server), other = await scene.space(server, 8);
        await other.out(['job', 1]);
        const held = await one.hold(['job', INT]);
        assert.equal(await other.take(['job', INT], { timeout: 0 }), null);
        held.release();
        assert.deepEqual(await other.take(['job', INT], { timeout: LONG }), ['job', 1]);
        await fails(held.accept(), Gone, { server: 0, pending: null });
        for (const item of [1, 2]) await one.out(['two', item]);
        const [first, second] = [await one.hold(['two', INT]), await one.hold(['two', INT])];
        assert.deepEqual([first.tuple, second.tuple, await second.accept()], [['two', 1], ['two', 2], ['two', 2]]);
        first.release();
        assert.deepEqual([await one.take(['two', INT]), await one.look(['two', INT])], [['two', 1], null]);
        await one.out(['last']);
        await one.hold(['last']);
        one.close();
        assert.deepEqual(await other.take(['last']), ['last']);
    });

    play('each call that waits goes on over a kill', async (scene) => {
        const server = await scene.serve();
        const waits = {
            take: (one, limits) => one.take(['take', INT], limits),
            read: (one, limits) => one.read(['read', INT], limits),
            hold: async (one, limits) => (await one.hold(['hold', INT], limits))?.accept(),
            choose: async (one, limits) => (await one.choose([In('choose', INT)], limits)).tuple,
        };
        const going = [];
        for (const [place, call] of Object.values(waits).entries()) going.push(call(await scene.space(server, 10 + place), { timeout: LONG / 2 }));
        await sleep(300);
        const putter = await scene.space(await scene.restart(server), 8);
        for (const name of Object.keys(waits)) await putter.out([name, 5]);
        assert.deepEqual(await Promise.all(going), Object.keys(waits).map((name) => [name, 5]));
    });

    play('a hold is lost with its server', async (scene) => {
        const server = await scene.serve();
        const one = await scene.space(server), other = await scene.space(server, 8);
        await other.out(['job', 1]);
        const held = await one.hold(['job', INT]);
        await scene.restart(server);
        assert.deepEqual(await other.take(['job', INT], { timeout: LONG }), ['job', 1]);
        for (let times = 0; times < 2; times += 1) await fails(held.accept(), Gone, { server: 0, pending: null });
        assert.equal((await one.out(['b'])).id, 2);
    });

    play('a hold is renewed', async (scene) => {
        const server = await scene.serve('one', 0, '--lease', '3');
        const one = await scene.space(server), other = await scene.space(server, 8);
        await one.out(['job', 1]);
        const held = await one.hold(['job', INT]);
        for (let times = 0; times < 16; times += 1) {           // at most 6 seconds pass before a lease of 3 seconds has run out
            await sleep(400);
            held.renew();
        }
        assert.equal(await other.take(['job', INT], { timeout: 0 }), null);
        assert.deepEqual(await other.take(['job', INT], { timeout: LONG }), ['job', 1]);
        await fails(held.accept(), Gone, { server: 0, pending: null });
        assert.throws(() => held.renew(), Gone);
        await one.out(['job', 2]);
        const released = await one.hold(['job', INT]);
        released.release();
        assert.throws(() => released.renew(), Gone);
        const taken = await one.hold(['job', INT]);
        await taken.accept();
        taken.renew();
    });

    play('an accept that is not answered', async (scene) => {
        const server = await scene.serve();
        const one = await scene.space(server);
        await one.out(['job', 1]);
        const held = await one.hold(['job', INT]);
        await server.stop();
        await fails(held.accept({ timeout: 200 }), TimedOut, { servers: [0], pending: 'accept' });
        held.release();
        await fails(one.out(['done', 1]), Busy);
        server.goOn();
        assert.deepEqual([await held.accept(), one.pending], [['job', 1], null]);
        await one.out(['job', 2]);
        const other = await one.hold(['job', INT]);
        await server.stop();
        await fails(other.accept({ timeout: 100 }), TimedOut);
        server.goOn();
        assert.deepEqual(await one.again(), outcome(0, 'took', [], [], { server: 0, id: 2, tuple: ['job', 2] }, [2]));
        assert.deepEqual([other.isTaken, await other.accept()], [true, ['job', 2]]);
    });

    play('a held tuple that is offered again', async (scene) => {
        // A repeat of the offer is no reason to give it back.
        const fake = await scene.fake(async (peer) => {
            await greets(peer, 0);
            await peer.expect(frames.ask(1, true, ['a']));
            peer.send(offer(1, 3, ['a']));
            await peer.expect(frames.out(1, ['b']));
            peer.send(offer(1, 3, ['a']), stored(1, 4));
            await peer.expect(frames.accept(2, 1, 3));
            peer.send(gone(2));
            await peer.expect(frames.cancel(1));
            await peer.end();
        });
        const one = await scene.space(fake);
        const held = await one.hold(['a']);
        await one.out(['b']);
        await fails(held.accept(), Gone);
        one.close();
        await fake.end();
    });

    play('no job is lost or done twice', async (scene) => {
        // Workers are aborted at random, in the middle of their calls, and servers are killed. Each does what the page
        // says.
        const servers = [await scene.serve('left'), await scene.serve('right')];
        let isOver = false;
        const ofSpace = (fault) => { assert.ok(fault instanceof SpaceError, fault); return null; };
        const finish = async (one) => {
            const isOpen = () => one.pending === 'out' || one.pending === 'accept';
            while (isOpen() && !isOver) await one.again({ timeout: 2_000 }).catch(ofSpace);
        };
        const work = async (one) => {
            const { client } = one;
            let seed = client * 7_919, count = 0;
            const draw = (most) => {
                seed = (seed * 1_103 + 12_345) % 2_147_483_647;
                return Math.floor(seed / 65_536) % most;
            };
            const signal = () => (draw(5) === 0 ? AbortSignal.timeout(draw(6)) : null);
            while (!isOver) {
                let job = null;
                if (client % 2 === 1) {
                    const limits = { timeout: [0, 100, 500][draw(3)], signal: signal() };
                    job = await one.take(['job', INT], limits).catch(ofSpace);
                } else {
                    const held = await one.hold(['job', INT], { timeout: 200, signal: signal() }).catch(ofSpace);
                    if (held !== null) {
                        await held.accept({ signal: signal() }).catch(ofSpace);
                        await finish(one);
                        held.release();
                        job = held.isTaken ? held.tuple : null;
                    }
                }
                let isPut = job === null;
                while (!isPut && !isOver) {
                    const done = await one.out(['done', job[1]], { signal: signal() }).catch(ofSpace);
                    isPut = done !== null || one.pending === 'out';
                    await finish(one);
                }
                count += job === null ? 0 : 1;
            }
            return count;
        };
        const boss = await scene.space(servers, 1, { patience: LONG });
        const spaces = [];
        for (const client of range(11, 15)) spaces.push(await scene.space(servers, client, { patience: 5_000 }));
        const workers = spaces.map(work), done = [];
        try {
            for (const job of range(0, 150)) {
                await boss.out(['job', job]);
                const place = Math.floor(job / 50) % 2;
                if (job % 50 === 25) servers[place] = await scene.restart(servers[place]);
            }
            while (done.length < 150) done.push((await boss.take(['done', INT]))[1]);
        } finally {
            isOver = true;
        }
        assert.deepEqual(done.sort((a, b) => a - b), range(0, 150));
        const counts = await Promise.all(workers);
        assert.equal(counts.reduce((sum, count) => sum + count, 0), 150);
        assert.deepEqual([await boss.look(['job', INT]), await boss.look(['done', INT])], [null, null]);
    });
});

// ---- what is held, and how its loss is reported

const RENEWAL = frames.cancel(2n ** 63n - 1n);
const GAP = 5;
/** Waits until an offer is known to be lost, or held no more. */
const untilLost = async (held) => { while (held.isHeld) await sleep(5); };
/** A hold that is lost, by a kill of its server, which is there again. */
const lostHold = async (scene, space, server, tag = 'job') => {
    await space.out([tag, 1]);
    const held = await space.hold([tag, INT]);
    const again = await scene.restart(server);
    await untilLost(held);
    return [held, again];
};

beside('holds', () => {
    play('isHeld', async (scene) => {
        let server = await scene.serve();
        const one = await scene.space(server);
        for (const item of range(0, 4)) await one.out(['job', item]);
        const [taken, released, lost] = [await one.hold(['job', 0]), await one.hold(['job', 1]), await one.hold(['job', 2])];
        assert.deepEqual([taken, released, lost].map((held) => held.isHeld), [true, true, true]);
        await taken.accept();
        released.release();
        assert.deepEqual([taken, released, lost].map((held) => held.isHeld), [false, false, true]);
        server = await scene.restart(server);
        await untilLost(lost);
        const closed = await (await scene.space(server, 9)).hold(['job', 3]);
        scene.spaces.at(-1).close();
        assert.equal(closed.isHeld, false);
        const left = await scene.space(server, 10);
        const last = await left.hold(['job', 3]);
        await left.leave();
        assert.equal(last.isHeld, false);
    });

    const calls = {
        out: (one) => one.out(['x']), take: (one) => one.take(['y']), read: (one) => one.read(['y']), look: (one) => one.look(['y']),
        choose: (one) => one.choose([In('y')]), sync: (one) => one.sync(In('y')), hold: (one) => one.hold(['y']),
        lastReply: (one) => one.lastReply(), leave: (one) => one.leave(), outMany: (one) => one.outMany([['x']]),
        takeMany: (one) => one.takeMany(['y'], { count: 1 }), purge: (one) => one.purge(['y']),
    };
    for (const [name, call] of Object.entries(calls)) {
        play(`the loss of two is said once, by ${name}`, async (scene) => {
            const server = await scene.serve(), one = await scene.space(server), other = await scene.space(server, 8);
            await other.out(['y']);
            await one.out(['job', 2]);
            const second = await one.hold(['job', 2]);
            const [first] = await lostHold(scene, one, server);
            const fault = await fails(call(one), Gone, { server: 0, code: 'Gone', pending: null, name: 'Gone' });
            assert.deepEqual([fault.offers, fault.offer], [[second, first], second]);
            assert.match(fault.message, /^server 0: the tuple \["job", 2\] is not held any more, and was not taken \(nor are 1 more\)$/);
            // Nothing was sent: the same call does all now, and did nothing before.
            assert.equal(await other.look(['x']), null);
            assert.deepEqual(await other.look(['y']), ['y']);
            await call(one);
            assert.deepEqual((await fails(first.accept(), name === 'leave' ? Left : Gone)).offers ?? [first], [first]);
        });
    }

    play('a call that waits says a loss at once', async (scene) => {
        const server = await scene.serve(), one = await scene.space(server);
        await one.out(['job', 1]);
        const held = await one.hold(['job', INT]);
        const failing = fails(one.choose([In('y').nack(3)]), Gone, { pending: null });
        while (one.pending !== 'sync') await sleep(10);
        const again = await scene.restart(server);
        assert.deepEqual((await failing).offers, [held]);
        assert.deepEqual(one.abandon(), [3]);
        // The call is over: what comes now is for others.
        await one.out(['y']);
        assert.deepEqual(await (await scene.space(again, 8)).take(['y'], { timeout: LONG }), ['y']);
        assert.deepEqual(await one.take(['job', INT]), ['job', 1]);
    });

    play('an out under way goes on, and the call after it says the loss', async (scene) => {
        const fake = await scene.fake(async (peer) => {
            await greets(peer, 0);
            await peer.expect(frames.ask(1, true, ['a']));
            peer.send(offer(1, 3, ['a']));
            await peer.expect(frames.out(1, ['b']));
        }, async (peer) => {
            await greets(peer, 1);
            await peer.expect(frames.out(1, ['b']));
            peer.send(stored(1, 4));
            await peer.expect(frames.ask(2, true, ['c']));
            peer.send(offer(2, 5, ['c']));
            await peer.expect(frames.accept(2, 2, 5));
            peer.send(taken(2, 5, ['c']));
            await peer.end();
        });
        const one = await scene.space(fake), held = await one.hold(['a']);
        assert.equal((await one.out(['b'])).id, 4);
        assert.deepEqual((await fails(one.take(['c']), Gone)).offers, [held]);
        assert.deepEqual(await one.take(['c']), ['c']);
        one.close();
        await fake.end();
    });

    play('an accept says only its own loss', async (scene) => {
        const left = await scene.serve('left'), right = await scene.serve('right');
        const one = await scene.space([left, right], 0);
        await one.outMany([['a'], ['b'], ['c'], ['d']]);            // at 0, 1, 0, 1
        const [first, lost, other, third] = [await one.hold(['a']), await one.hold(['b']), await one.hold(['d']), await one.hold(['c'])];
        await scene.restart(right);
        await untilLost(lost);
        assert.deepEqual(await first.accept(), ['a']);
        assert.deepEqual((await fails(other.accept(), Gone, { server: 1, pending: null })).offers, [other]);
        assert.deepEqual((await fails(one.look(['x']), Gone)).offers, [lost]);
        assert.deepEqual([await one.look(['x']), await third.accept()], [null, ['c']]);
    });

    play('a program that did nothing else for a while is not sent for', async (scene) => {
        const server = await scene.serve(), one = await scene.space(server);
        await one.out(['job', 1]);
        const held = await one.hold(['job', INT]);
        server.child.kill('SIGKILL');
        const end = performance.now() + 200;
        while (performance.now() < end);
        assert.equal(held.isHeld, true);                // (nothing was heard)
        assert.deepEqual((await fails(one.out(['x']), Gone)).offers, [held]);
        await scene.serve('one', server.port);
        assert.deepEqual([await one.look(['x']), await one.take(['job', INT])], [null, ['job', 1]]);
    });

    play('renew and release say a loss', async (scene) => {
        const server = await scene.serve(), one = await scene.space(server);
        const [held, again] = await lostHold(scene, one, server);
        assert.throws(() => held.renew(), (fault) => fault instanceof Gone && fault.offer === held);
        assert.equal(await one.look(['x']), null);
        const [other] = await lostHold(scene, one, again, 'more');
        other.release();
        other.release();
        assert.equal(await one.look(['x']), null);
    });

    play('what is held is renewed while a call waits', unlessLate(async (scene, folder) => {
        const server = await scene.serve(folder, 0, '--lease', '2');
        const one = await scene.space(server);
        await one.outMany([['job', 1], ['job', 2]]);
        const held = await one.hold(['job', 1]);
        assert.equal(await one.take(['x'], { timeout: 5_500 }), null);
        assert.deepEqual([held.isHeld, await held.accept()], [true, ['job', 1]]);
        // Not beside calls: the lease is over after 4 seconds at most.
        const other = await one.hold(['job', 2]);
        await sleep(5_500);
        assert.equal(other.isHeld, false);
        await fails(one.out(['x']), Gone);
    }));

    play('keep renews beside calls', unlessLate(async (scene, folder) => {
        const server = await scene.serve(folder, 0, '--lease', '2');
        const one = await scene.space(server);
        await one.out(['job', 1]);
        const held = await one.hold(['job', 1], { keep: 300 });
        await sleep(5_500);
        assert.deepEqual([held.isHeld, await held.accept()], [true, ['job', 1]]);
        for (const keep of [0, -1, '5', NaN]) await fails(one.hold(['job', 1], { keep }), OutOfRange);
    }));

    play('keep ends with the hold', async (scene) => {
        let isRenewed;
        const renewed = new Promise((resolve) => { isRenewed = resolve; });
        const fake = await scene.fake(async (peer) => {
            await greets(peer, 0);
            await peer.expect(frames.ask(1, true, ['a']));
            peer.send(offer(1, 3, ['a']));
            await peer.expect(RENEWAL, RENEWAL, RENEWAL);
            isRenewed();
            await peer.until(() => peer.came.includes(frames.cancel(1)));
            const rest = peer.came.subarray(peer.came.indexOf(frames.cancel(1)) + frames.cancel(1).length);
            peer.came = Buffer.from(rest);
            await peer.end();
        });
        const one = await scene.space(fake), held = await one.hold(['a'], { keep: 20 });
        await renewed;
        held.release();
        await sleep(200);
        one.close();
        await fake.end();
    });

    play('holding', async (scene) => {
        let server = await scene.serve();
        const one = await scene.space(server), other = await scene.space(server, 8);
        await one.out(['job', 1]);
        const inside = async (held) => [held.tuple, await other.take(['job', INT], { timeout: 0 }), (await one.out(['x'])).id];
        assert.deepEqual(await one.holding(['job', INT], {}, inside), [['job', 1], null, 2]);
        assert.deepEqual(await other.take(['job', INT], { timeout: LONG }), ['job', 1]);
        assert.equal(await one.holding(['job', INT], { timeout: 20 }, (held) => held), null);
        await one.out(['job', 2]);
        await one.holding(['job', INT], {}, (held) => held.accept());
        assert.equal(await one.look(['job', INT]), null);
        await one.out(['job', 3]);
        const own = new Error('own');
        await assert.rejects(one.holding(['job', INT], {}, async () => { throw own; }), own);
        const kill = async () => { server = await scene.restart(server); };
        await fails(one.holding(['job', 3], {}, async (held) => { await kill(); await untilLost(held); }), Gone);
        assert.equal(await one.look(['y']), null);
        // A program that works without a pause hears of the loss at the end of the block.
        await fails(one.holding(['job', 3], {}, () => {
            server.child.kill('SIGKILL');
            const end = performance.now() + 200;
            while (performance.now() < end);
        }), Gone);
        server = await scene.serve('one', server.port);
        const lost = async (held) => { await kill(); await untilLost(held); throw own; };
        await assert.rejects(one.holding(['job', 3], {}, lost), own);
        assert.equal(await one.look(['y']), null);
        const said = async (held) => { await kill(); await untilLost(held); await fails(one.look(['y']), Gone); return 5; };
        assert.equal(await one.holding(['job', 3], {}, said), 5);
        await fails(one.holding(['job', 3], {}), OutOfRange);
    });

    play('ends with a block', async (scene) => {
        const [dispose, asyncDispose] = [Symbol.dispose, Symbol.asyncDispose];
        if (dispose === undefined || asyncDispose === undefined) return;
        const server = await scene.serve();
        const one = await scene.space(server), other = await scene.space(server, 8);
        await one.outMany([['job', 1], ['job', 2], ['job', 3]]);
        (await one.hold(['job', 1]))[dispose]();
        await (await one.hold(['job', 2]))[asyncDispose]();
        assert.deepEqual(await other.takeMany(['job', INT], { count: 2 }), [['job', 1], ['job', 2]]);
        const held = await one.hold(['job', 3]);
        const again = await scene.restart(server);
        await untilLost(held);
        assert.throws(() => held[dispose](), Gone);
        held[dispose]();
        const later = await one.hold(['job', 3]);
        await scene.restart(again);
        await untilLost(later);
        await fails(() => later[asyncDispose](), Gone);
        assert.equal(await one.look(['x']), null);
        await one[asyncDispose]();
        await fails(one.out(['x']), Closed);
    });
});

// ---- another program under the same number

describe('a number in use', { concurrency: 4 }, () => {
    const talk = (asked, ...replies) => async (peer) => {
        await greets(peer, 4);
        await peer.expect(...asked);
        peer.send(...replies);
        await peer.end();
    };
    const ask = frames.ask(1, true, ['a', INT]), given = offer(1, 3, ['a', 8]);
    const cases = [
        ['an out, taken', [frames.out(5, ['b'])], [taken(5, 3, ['b'])], (one) => one.out(['b'])],
        ['an out, gone', [frames.out(5, ['b'])], [gone(5)], (one) => one.out(['b'])],
        ['an out, left', [frames.out(5, ['b'])], [framed(0x18, number(5))], (one) => one.out(['b'])],
        ['outs, taken', [frames.out(5, ['b']), frames.out(6, ['c'])], [stored(5, 1), taken(6, 3, ['c'])], (one) => one.outMany([['b'], ['c']])],
        ['a leave, stored', [frames.leave(5)], [stored(5, 1)], (one) => one.leave()],
        ['a leave, taken', [frames.leave(5)], [taken(5, 1, ['a'])], (one) => one.leave()],
        ['a leave, gone', [frames.leave(5)], [gone(5)], (one) => one.leave()],
    ];
    for (const [name, asked, replies, call] of cases) {
        play(name, async (scene) => {
            const fake = await scene.fake(talk(asked, ...replies));
            const one = await scene.space(fake);
            const number = name.startsWith('outs') ? 6 : 5;
            const told = { server: 0, last: number, answered: number - 1, client: 7, code: 'NumberInUse', pending: null };
            await fails(call(one), NumberInUse, told);
            for (const later of [() => one.out(['b']), () => one.look(['b']), () => one.purge(['b'])]) await fails(later, NumberInUse, told);
            await fails(one.again(), Idle);
            one.close();
            await fails(one.out(['b']), Closed);
            await fake.end();
        });
    }
    const replies = {
        stored: stored(5, 3), left: framed(0x18, number(5)), 'another id': taken(5, 4, ['a', 8]), 'another tuple': taken(5, 3, ['a', 'x']),
    };
    const takes = {
        take: (one) => one.take(['a', INT]), accept: async (one) => (await one.hold(['a', INT])).accept(),
        takeMany: (one) => one.takeMany(['a', INT], { count: 1 }),
    };
    for (const [name, call] of Object.entries(takes)) {
        for (const [how, reply] of Object.entries(replies)) {
            play(`${name}, ${how}`, async (scene) => {
                const fake = await scene.fake(async (peer) => {
                    await greets(peer, 4);
                    await peer.expect(ask, ...name === 'takeMany' ? [PROBE] : []);
                    peer.send(given);
                    await peer.expect(frames.accept(5, 1, 3));
                    peer.send(reply);
                    await peer.end();
                });
                const one = await scene.space(fake);
                await fails(call(one), NumberInUse, { last: 5, answered: 4, pending: null });
                one.close();
                await fake.end();
            });
        }
    }

    for (const [last, unanswered] of [[5, false], [6, true], [9, true]]) {
        play(`a Welcome with ${last}`, async (scene) => {
            const fake = await scene.fake(async (peer) => {
                await greets(peer, 4);
                if (unanswered) await peer.expect(frames.out(5, ['b']));
                else await peer.expect(frames.ask(1, true, ['a']));
            }, async (peer) => {
                await greets(peer, last);
                await peer.end();
            });
            const one = await scene.space(fake);
            await fails(unanswered ? one.out(['b']) : one.take(['a']), NumberInUse, { last, answered: 4, pending: null });
            one.close();
            await fake.end();
        });
    }

    play('a Welcome within what is under way is none', async (scene) => {
        const fake = await scene.fake(async (peer) => {
            await greets(peer, 4);
            await peer.expect(frames.out(5, ['b']), frames.out(6, ['c']));
        }, async (peer) => {
            await greets(peer, 7);
            await peer.end();
        });
        const one = await scene.space(fake);
        await fails(one.outMany([['b'], ['c']]), NumberInUse, { last: 7, answered: 4, pending: null });
        one.close();
        await fake.end();
    });

    for (const [name, last, call] of [['an out', 5, (one) => one.out(['b'])], ['outs', 6, (one) => one.outMany([['b'], ['c'], ['d']])]]) {
        play(`${name} over a connection that has ended, a Welcome with what was never sent`, async (scene) => {
            const fake = await scene.fake((peer) => greets(peer, 4), async (peer) => {
                await greets(peer, last);
                await peer.end();
            });
            const one = await scene.space(fake);
            await sleep(50);
            await fails(call(one), NumberInUse, { last, answered: 4, pending: null });
            one.close();
            await fake.end();
        });
    }

    play('a Welcome with what was refused', async (scene) => {
        const fake = await scene.fake(async (peer) => {
            await greets(peer, 4);
            await peer.expect(frames.out(5, ['b']));
            peer.send(refusal(FULL, 0));
        }, async (peer) => {
            await greets(peer, 5);
            await peer.end();
        });
        const one = await scene.space(fake);
        await fails(one.out(['b']), Refused, { reason: 'Full', pending: null });
        await sleep(50);
        await fails(one.out(['b']), NumberInUse, { last: 5, answered: 4, pending: null });
        one.close();
        await fake.end();
    });

    play('an end that is there already is heard before anything is sent', async (scene) => {
        const server = await scene.serve(), one = await scene.space(server, 7, { patience: LONG });
        await one.out(['a']);
        // Meanwhile this program does nothing else: the server is killed, and another program uses the number at the next one.
        const text = `import { spawn } from 'node:child_process';
            import { Space } from ${JSON.stringify(pathToFileURL(path.join(HERE, 'linda_space.mjs')).href)};
            process.kill(${server.child.pid}, 'SIGKILL');
            for (;;) {
                const words = ['serve', '--port', '${server.port}', '--dir', ${JSON.stringify(server.folder)}];
                const child = spawn(${JSON.stringify(PROGRAM)}, words, { stdio: ['ignore', 'pipe', 'ignore'] });
                const isReady = await new Promise((resolve) => {
                    child.stdout.once('data', () => resolve(true));
                    child.once('exit', () => resolve(false));
                });
                if (!isReady) continue;
                const other = await Space.connect([${server.port}], { client: 7, patience: ${LONG} });
                await other.out(['b']);
                child.kill('SIGKILL');
                break;
            }
            process.exit(0);`;
        const { status, stderr } = spawnSync(process.execPath, ['--input-type=module', '-e', text], { encoding: 'utf8' });
        const failing = fails(one.out(['c']), NumberInUse, { last: 2, answered: 1, pending: null });
        assert.equal(status, 0, stderr);
        await server.ended;
        const again = await scene.serve('one', server.port);
        await failing;
        assert.equal(await (await scene.space(again, 8)).look(['c']), null);
    });
});

// ---- several at once

beside('several at once', () => {
    play('outs and takes over two servers', async (scene) => {
        const servers = [await scene.serve('left'), await scene.serve('right')];
        const one = await scene.space(servers, 7), other = await scene.space(servers, 8);
        assert.deepEqual([await one.outMany([]), await one.takeMany(['n', INT], { count: 5 }), await one.purge(['n', INT])], [[], [], 0]);
        const stored = await one.outMany(range(0, 301).map((item) => ['n', item]));
        assert.deepEqual(stored, range(0, 301).map((item) => ({ server: (7 + item) % 2, id: Math.floor(item / 2) + 1 })));
        assert.deepEqual(await one.out(['m']), new Stored(0, 151, ['m']));      // the 302nd goes to the server of its place
        assert.deepEqual(await other.takeMany(['n', INT], { count: 0 }), []);
        const first = await other.takeMany(['n', INT], { count: 200 });
        // Server 0 first, by rising id.
        assert.deepEqual(first, [...range(0, 150).map((place) => ['n', 2 * place + 1]), ...range(0, 50).map((place) => ['n', 2 * place])]);
        assert.deepEqual((await one.takeMany(['n', INT], { count: 1_000 })).length, 101);
        assert.equal(await one.look(['n', INT]), null);
        await one.outMany(range(0, 130).map((item) => ['n', item]));
        assert.deepEqual([await one.purge(['n', 5]), await one.purge(['n', INT]), await one.purge(['n', INT])], [1, 129, 0]);
        assert.deepEqual(await one.take(['m']), ['m']);
        for (const count of [-1, 1.5, '1', undefined, Infinity]) await fails(one.takeMany(['n'], { count }), OutOfRange);
        await fails(one.takeMany(['n']), OutOfRange);
        for (const wrong of [5, [5], [[]], [['a', 1.5]], ['a']]) await fails(one.outMany(wrong), OutOfRange);
    });

    play('what others hold is not taken', async (scene) => {
        const server = await scene.serve(), one = await scene.space(server), other = await scene.space(server, 8);
        await one.outMany(range(0, 100).map((item) => ['n', item]));
        const held = [];
        for (const item of range(0, 60)) held.push(await one.hold(['n', item]));
        assert.equal(await other.purge(['n', INT]), 40);
        // What this client holds counts to the 64 that are open.
        await other.outMany(range(100, 120).map((item) => ['n', item]));
        assert.equal((await one.takeMany(['n', INT], { count: 1_000 })).length, 20);
        for (const offer of held) offer.release();
        assert.equal(await one.purge(['n', INT]), 60);
    });

    play('64 outs are under way', async (scene) => {
        const outs = range(1, 71).map((place) => frames.out(place, ['n', place]));
        const fake = await scene.fake(async (peer) => {
            await greets(peer, 0);
            await peer.expect(...outs.slice(0, 64));
            await sleep(50);
            assert.equal(peer.came.length, 0);
            peer.send(stored(1, 1), stored(2, 2));
            await peer.expect(...outs.slice(64, 66));
            await sleep(50);
            assert.equal(peer.came.length, 0);
            peer.send(...range(3, 71).map((place) => stored(place, place)));
            await peer.expect(...outs.slice(66));
            await peer.end();
        });
        const one = await scene.space(fake);
        const ends = await one.outMany(range(1, 71).map((place) => ['n', place]));
        assert.deepEqual(ends.map(({ id }) => id), range(1, 71));
        one.close();
        await fake.end();
    });

    // A loss after some were answered, and some more were done.
    for (const answered of range(0, 4)) {
        for (const done of range(answered, 5)) {
            play(`outs of which ${done} were done and ${answered} answered`, async (scene) => {
                const count = 4, place = (first) => range(first, count + 1);
                const again = done === answered ? answered + 1 : done;
                const fake = await scene.fake(async (peer) => {
                    await greets(peer, 10);
                    await peer.expect(...place(1).map((own) => frames.out(10 + own, ['n', own])));
                    peer.send(...range(1, answered + 1).map((own) => stored(10 + own, 100 + own)));
                    await sleep(20);
                }, async (peer) => {
                    await greets(peer, 10 + done);
                    await peer.expect(...place(again).map((own) => frames.out(10 + own, ['n', own])));
                    peer.send(...place(again).map((own) => stored(10 + own, 100 + own)));
                    await peer.expect(frames.out(15, ['m']));
                    peer.send(stored(15, 999));
                    await peer.end();
                });
                const one = await scene.space(fake);
                const ends = await one.outMany(place(1).map((own) => ['n', own]));
                const wanted = place(1).map((own) => ({ server: 0, id: own > answered && own < again ? null : 100 + own }));
                assert.deepEqual(ends, wanted);
                assert.equal((await one.out(['m'])).id, 999);
                one.close();
                await fake.end();
            });

            play(`takes of which ${done} were done and ${answered} answered`, async (scene) => {
                const place = (first, last = 4) => range(first, last + 1);
                const fake = await scene.fake(async (peer) => {
                    await greets(peer, 10);
                    await peer.expect(...place(1, 6).map((ticket) => frames.ask(ticket, true, ['n', INT])), PROBE);
                    peer.send(...place(1).map((own) => offer(own, 100 + own, ['n', own])), refusal(OLD, 10));
                    await peer.expect(...place(1).map((own) => frames.accept(10 + own, own, 100 + own)), frames.cancel(5), frames.cancel(6));
                    peer.send(...place(1, answered).map((own) => taken(10 + own, 100 + own, ['n', own])));
                    await sleep(20);
                }, async (peer) => {
                    await greets(peer, 10 + done);
                    // What was not taken is free again, and so it is asked for once more.
                    const again = done < 4 ? place(7, 12 - done) : [];
                    if (again.length > 0) {
                        await peer.expect(...again.map((ticket) => frames.ask(ticket, true, ['n', INT])), PROBE);
                        peer.send(refusal(OLD, 10 + done));
                        await peer.expect(...again.map((ticket) => frames.cancel(ticket)));
                    }
                    await peer.expect(frames.out(11 + done, ['m']));
                    peer.send(stored(11 + done, 999));
                    await peer.end();
                });
                const one = await scene.space(fake);
                assert.deepEqual(await one.takeMany(['n', INT], { count: 6 }), place(1, done).map((own) => ['n', own]));
                assert.equal((await one.out(['m'])).id, 999);
                one.close();
                await fake.end();
            });
        }
    }

    play('takes that are lost while they are asked for', async (scene) => {
        const fake = await scene.fake(async (peer) => {
            await greets(peer, 0);
            await peer.expect(...range(1, 4).map((ticket) => frames.ask(ticket, true, ['n', INT])), PROBE);
            peer.send(offer(1, 101, ['n', 1]));
            await peer.expect(frames.accept(1, 1, 101));
        }, async (peer) => {
            await greets(peer, 1);
            await peer.expect(frames.ask(4, true, ['n', INT]), frames.ask(5, true, ['n', INT]), PROBE);
            peer.send(offer(4, 102, ['n', 2]), offer(5, 103, ['n', 3]), refusal(OLD, 1));
            await peer.expect(frames.accept(2, 4, 102), frames.accept(3, 5, 103));
            peer.send(taken(2, 102, ['n', 2]), gone(3));
            // One was gone: it asks once more.
            await peer.expect(frames.ask(6, true, ['n', INT]), PROBE);
            peer.send(refusal(OLD, 3));
            await peer.expect(frames.cancel(6));
            await peer.end();
        });
        const one = await scene.space(fake);
        assert.deepEqual(await one.takeMany(['n', INT], { count: 3 }), [['n', 1], ['n', 2]]);
        one.close();
        await fake.end();
    });

    play('a refused out ends the rest', async (scene) => {
        const outs = range(1, 6).map((own) => frames.out(own, ['n', own]));
        const fake = await scene.fake(async (peer) => {
            await greets(peer, 0);
            await peer.expect(...outs);
            peer.send(stored(1, 101), refusal(FULL, 0), refusal(GAP, 1), refusal(GAP, 1), refusal(GAP, 1));
            await peer.expect(frames.out(2, ['m']));
            peer.send(stored(2, 102));
            await peer.end();
        });
        const one = await scene.space(fake);
        const fault = await fails(one.outMany(range(1, 6).map((own) => ['n', own])), Refused, { reason: 'Full', code: FULL, pending: null });
        assert.deepEqual(fault.stored, [{ server: 0, id: 101 }, null, null, null, null]);
        assert.equal((await one.out(['m'])).id, 102);
        one.close();
        await fake.end();
        // The connection is lost before the rest is refused; and at another server what is under way goes on.
        const left = await scene.fake(async (peer) => {
            await greets(peer, 0);
            await peer.expect(frames.out(1, ['n', 2]), frames.out(2, ['n', 4]));
        }, async (peer) => {
            await greets(peer, 1);
            await peer.expect(frames.out(1, ['n', 2]), frames.out(2, ['n', 4]));
            peer.send(stored(1, 201), stored(2, 202));
            await peer.end();
        });
        const right = await scene.fake(async (peer) => {
            await greets(peer, 0);
            await peer.expect(frames.out(1, ['n', 1]), frames.out(2, ['n', 3]), frames.out(3, ['n', 5]));
            peer.send(stored(1, 101), refusal(FULL, 0));
            await sleep(20);
        }, async (peer) => {
            await greets(peer, 1);
            await peer.end();
        });
        const two = await scene.space([left, right]);
        const other = await fails(two.outMany(range(1, 6).map((own) => ['n', own])), Refused, { server: 1, reason: 'Full', pending: null });
        const at = (server, id) => ({ server, id });
        assert.deepEqual(other.stored, [at(1, 101), at(0, 201), null, at(0, 202), null]);
        two.close();
        await Promise.all([left.end(), right.end()]);
    });

    play('a refused take ends the rest', async (scene) => {
        const fake = await scene.fake(async (peer) => {
            await greets(peer, 0);
            await peer.expect(...range(1, 4).map((ticket) => frames.ask(ticket, true, ['n', INT])), PROBE);
            peer.send(...range(1, 4).map((own) => offer(own, 100 + own, ['n', own])), refusal(OLD, 0));
            await peer.expect(...range(1, 4).map((own) => frames.accept(own, own, 100 + own)));
            peer.send(taken(1, 101, ['n', 1]), refusal(FULL, 0), refusal(GAP, 1));
            await peer.expect(frames.cancel(2), frames.cancel(3), frames.out(2, ['m']));
            peer.send(stored(2, 102));
            await peer.end();
        });
        const one = await scene.space(fake);
        await fails(one.takeMany(['n', INT], { count: 3 }), Refused, { reason: 'Full', taken: [['n', 1]], pending: null });
        assert.equal((await one.out(['m'])).id, 102);
        one.close();
        await fake.end();
    });

    play('outs and takes go on after an error', async (scene) => {
        const server = await scene.serve();
        const one = await scene.space(server, 7, SHORT);
        await server.stop();
        const tuples = range(0, 100).map((item) => ['n', item]);
        await failsAfter(200, one.outMany(tuples, { timeout: 200 }), TimedOut, { servers: [0], pending: 'outMany' });
        await fails(one.out(['b']), Busy, { pending: 'outMany' });
        server.goOn();
        assert.deepEqual((await patient(() => one.again())).map(({ id }) => id), range(1, 101));
        await server.stop();
        const fault = await failsAfter(200, one.takeMany(['n', INT], { count: 5, timeout: 200 }), TimedOut, { servers: [0] });
        assert.deepEqual([fault.pending, fault.taken], [null, []]);
        server.goOn();
        assert.deepEqual(await patient(() => one.takeMany(['n', INT], { count: 2 })), [['n', 0], ['n', 1]]);
        await server.kill();
        const [outs, takes] = [['out', 1], ['out', 2]];
        await fails(one.outMany([outs, takes]), NoConnection, { pending: 'outMany' });
        await scene.serve('one', server.port);
        assert.deepEqual((await patient(() => one.again())).map(({ id }) => id), [101, 102]);
        assert.equal(await patient(() => one.purge(['n', INT])), 98);
    });

    play('takes whose answers are late', async (scene) => {
        const abort = new AbortController(), { signal } = abort;
        const fake = await scene.fake(async (peer) => {
            await greets(peer, 0);
            await peer.expect(...range(1, 4).map((ticket) => frames.ask(ticket, true, ['n', INT])), PROBE);
            peer.send(offer(1, 101, ['n', 1]), offer(2, 102, ['n', 2]));
            await peer.expect(frames.accept(1, 1, 101), frames.accept(2, 2, 102));
            peer.send(taken(1, 101, ['n', 1]));
            await sleep(150);
            abort.abort();
            await peer.expect(frames.cancel(3));
        }, async (peer) => {
            await greets(peer, 2);
            await peer.expect(frames.ask(4, true, ['n', INT]), PROBE);
            peer.send(refusal(OLD, 2));
            await peer.expect(frames.cancel(4));
            await peer.end();
        });
        const one = await scene.space(fake);
        await fails(one.takeMany(['n', INT], { count: 3, signal }), Aborted, { pending: 'takeMany', taken: [['n', 1]] });
        await fails(one.out(['b']), Busy, { pending: 'takeMany' });
        assert.deepEqual(await one.again(), [['n', 1], ['n', 2]]);
        assert.deepEqual([one.pending, await one.takeMany(['n', INT], { count: 1 })], [null, []]);
        one.close();
        await fake.end();
    });

    play('kills under outs and takes', async (scene) => {
        let server = await scene.serve();
        const putter = await scene.space(server), taker = await scene.space(server, 8, { patience: LONG });
        let isOver = false;
        const found = [], stored = [];
        const put = async () => {
            for (const part of range(0, 10)) stored.push(...await putter.outMany(range(0, 300).map((item) => ['n', 300 * part + item])));
            isOver = true;
        };
        const take = async () => {
            for (let isLast = false; !isLast;) {
                isLast = isOver;
                for (const [, item] of await taker.takeMany(['n', INT], { count: 100 })) { found.push(item); isLast = false; }
            }
        };
        const both = [put(), take()];
        for (let times = 0; times < 4; times += 1) {
            await sleep(60);
            server = await scene.restart(server);
        }
        await Promise.all(both);
        assert.deepEqual(found.sort((a, b) => a - b), range(0, 3_000));
        const ids = stored.map(({ id }) => id).filter((id) => id !== null);
        assert.deepEqual([stored.length, new Set(ids).size], [3_000, ids.length]);
        assert.ok(ids.every((id) => id >= 1 && id <= 3_000) && ids.length > 2_000);
    });

    play('connections that are cut at any byte', async (scene) => {
        const server = await scene.serve();
        let seed = 20261128, cuts = 0, isCut = true;
        const draw = (most) => {
            seed = (seed * 1_103_515_245 + 12_345) % 2_147_483_648;
            return Math.floor(seed / 2_147_483_648 * most);
        };
        /** A way to the server on which each connection is cut after some bytes of one side. */
        const way = net.createServer((stream) => {
            const onward = net.connect({ port: server.port, host: '127.0.0.1', noDelay: true });
            const end = () => { stream.destroy(); onward.destroy(); };
            for (const [from, to] of [[stream, onward], [onward, stream]]) {
                let left = 200 + draw(6_000);
                from.on('data', (data) => {
                    const part = isCut ? data.subarray(0, left) : data;
                    to.write(part);
                    left -= part.length;
                    if (!isCut || left > 0) return;
                    cuts += 1;
                    from.destroy();
                    setTimeout(end, draw(5));
                });
                from.on('error', end).on('close', end);
            }
        });
        await new Promise((resolve) => { way.listen(0, '127.0.0.1', resolve); });
        scene.closed.push(() => way.close());
        const { port } = way.address(), more = { patience: LONG };
        const one = await scene.space({ port }, 7, more), other = await scene.space({ port }, 8, more);
        const puts = [], found = [];
        for (const part of range(0, 4)) puts.push(...await one.outMany(range(0, 500).map((item) => ['n', 500 * part + item])));
        const ids = puts.map(({ id }) => id).filter((id) => id !== null);
        assert.deepEqual([puts.length, new Set(ids).size], [2_000, ids.length]);
        while (found.length < 1_500) found.push(...await other.takeMany(['n', INT], { count: Math.min(150, 1_500 - found.length) }));
        assert.equal(await other.purge(['n', INT]), 500);
        assert.deepEqual(found.map(([, item]) => item).sort((a, b) => a - b), range(0, 1_500));
        const pool = new Pool([port], { client: range(100, 104), size: 4, ...more });
        scene.spaces.push(pool);
        await Promise.all(range(0, 100).map((item) => pool.out(['p', item])));
        const taken = await Promise.all(range(0, 100).map(() => pool.take(['p', INT])));
        assert.deepEqual(taken.map(([, item]) => item).sort((a, b) => a - b), range(0, 100));
        isCut = false;
        assert.ok(cuts > 50, `${cuts} cuts`);
    });

    play('one after another, as a loop', async (scene) => {
        const one = await scene.space(await scene.serve());
        await one.outMany([['n', 1], ['n', 2], ['n', 3], ['n', 4]]);
        const found = [];
        for await (const [, item] of one.takes(['n', INT], { timeout: 20 })) {
            found.push(item);
            if (item === 2) break;
        }
        assert.deepEqual(found, [1, 2]);
        for await (const [, item] of one.takes(['n', INT], { timeout: 20 })) found.push(item);
        assert.deepEqual(found, [1, 2, 3, 4]);
        const loop = async () => { for await (const tuple of one.takes(['n', INT], { signal: AbortSignal.timeout(50) })) assert.fail(tuple); };
        await fails(loop, Aborted);
    });
});

// ---- the loop of a worker

/** A program of this library, which prints what it says; ends with the test. */
class Program {
    constructor(scene, text, words = [], more = {}) {
        const file = path.join(scene.folder, `program${scene.servers.length}-${Math.random()}.mjs`);
        const library = pathToFileURL(path.join(HERE, 'linda_space.mjs')).href;
        writeFileSync(file, text.replace("'linda-space'", JSON.stringify(library)));
        this.file = file;
        this.said = '';
        this.child = spawn(process.execPath, [file, ...words.map(String)], { ...PIPED, ...more });
        // (not its `exit`, which may come before all that it wrote)
        this.ended = once(this.child, 'close');
        this.child.stdout.on('data', (piece) => { this.said += piece; });
        scene.closed.push(() => this.child.kill('SIGKILL'));
    }

    async until(text) {
        const end = performance.now() + LONG;
        while (!this.said.includes(text)) {
            assert.ok(performance.now() < end && this.child.exitCode === null, `${this.said} and not ${text}`);
            await sleep(5);
        }
    }
}

beside('work', () => {
    play('puts results', async (scene) => {
        const server = await scene.serve(), one = await scene.space(server), boss = await scene.space(server, 8);
        await boss.outMany([['job', 0], ['job', 1], ['job', 2], ['job', 3], ['job', 4]]);
        const results = [undefined, null, ['done', 2, true], [['done', 3], ['more', 'x']], []];
        const jobs = [];
        const count = await one.work(['job', INT], async (job) => { jobs.push(job); return results[job[1]]; }, { timeout: 100 });
        assert.deepEqual([count, jobs], [5, range(0, 5).map((item) => ['job', item])]);
        assert.deepEqual(await boss.take(['done', 2, BOOL]), ['done', 2, true]);
        assert.deepEqual(await boss.takeMany(['done', INT], { count: 9 }), [['done', 3]]);
        assert.deepEqual(await boss.take(['more', TEXT]), ['more', 'x']);
        assert.equal(await boss.look(['job', INT]), null);
        // The server does not keep the last job as taken.
        assert.equal((await one.lastReply()).kind, 'gone');
        assert.equal(await one.work(In('job', INT), () => assert.fail(), { timeout: 0 }), 0);
    });

    play('gives the first of several first', async (scene) => {
        const one = await scene.space(await scene.serve());
        await one.outMany(range(0, 6).map((item) => [item % 2 === 0 ? 'low' : 'high', item]));
        const jobs = [];
        assert.equal(await one.work([In('high', INT), In('low', INT)], (job) => { jobs.push(job[1]); }, { timeout: 0 }), 6);
        assert.deepEqual(jobs, [1, 3, 5, 0, 2, 4]);
    });

    play('has arguments', async (scene) => {
        const one = await scene.space(await scene.serve());
        const work = () => {}, wide = [...range(0, 31), TRIES];
        const wrong = [
            [['job', INT], null], [INT, work], [[], work], [['job', INT], work, { tris: 1 }], [['job', TRIES], work, { tries: 0 }],
            [['job', INT], work, { tries: 1 }], [['job'], work, { tries: 1 }], [['job', ANY], work, { tries: 1 }], [wide, work, { tries: 1 }],
            [['job', TRIES], work], [['job', TRIES, TRIES], work, { tries: 1 }], [[TRIES, TRIES], work, { tries: 1 }], [In('job', TRIES), work],
            [[In('job', TRIES), In('other', INT)], work, { tries: 1 }], [['job', INT], work, { limit: 0 }], [['job', INT], work, { limit: '5' }],
            [['job', INT], work, { grace: -1 }],
            [['job', INT], work, { delay: -1 }], [['job', INT], work, { stop: In('a') }], [['job', INT], work, { stop: ['a'] }],
            [['job', INT], work, { signal: 5 }], [['job', INT], work, { keep: 0 }], [['job', INT], work, { timeout: '5' }],
            [['job', INT], work, { onerror: 5 }], [['job', INT], work, { dead: 1.5 }], [Rd('job', INT), work], [['job', INT], work, 5],
            [[In('job', INT), Rd('job', INT)], work], [[In('job', INT), 'x'], work],
        ];
        for (const [template, call, options] of wrong) await fails(one.work(template, call, options), OutOfRange);
        assert.equal(await one.work([...range(0, 30), TRIES], work, { tries: 1, timeout: 0 }), 0);
    });

    play('TRIES is for a job of work with tries, and for nothing else', async (scene) => {
        const fake = await scene.fake(async (peer) => { await greets(peer, 0); await peer.end(); });
        const one = await scene.space(fake), template = ['job', TRIES, INT], pool = new Pool([fake.port], { client: 8 });
        const calls = [
            () => one.take(template), () => one.take(template, { timeout: 0 }), () => one.takes(template).next(), () => one.read(template),
            () => one.look(template), () => one.takeMany(template, { count: 1 }), () => one.purge(template), () => one.hold(template),
            () => one.holding(template, {}, () => {}), () => one.choose([In(...template)]), () => one.sync(In(...template)),
            () => one.choose([In('a'), Choose(Wrap(1, In(...template)))], { timeout: 0 }), async () => Rd(...template),
            async () => one.work(['job'], () => {}, { stop: Rd(...template) }), () => one.out(template), () => one.outMany([template]),
            () => one.work(template, () => {}), () => one.work(In(...template), () => {}), () => pool.take(template),
            () => pool.choose([In(...template)]), () => pool.sync(In(...template)), () => pool.takeMany(template, { count: 1 }),
        ];
        for (const call of calls) await fails(call, OutOfRange);
        assert.equal(one.pending, null);
        one.close();
        await fake.end();
    });

    play('the count has a place of its own', async (scene) => {
        const server = await scene.serve(), one = await scene.space(server), boss = await scene.space(server, 8);
        const no = () => { throw new Error('no'); }, letters = async (...fields) => boss.takeMany(['dead', ...fields, TEXT], { count: 9 });
        // Two kinds of jobs, of which the letters differ.
        await boss.outMany([['email', 5, 0], ['sms', 5, 0]]);
        assert.equal(await one.work([In('email', INT, TRIES), In('sms', INT, TRIES)], no, { tries: 1, timeout: 0 }), 0);
        assert.deepEqual(await letters(TEXT, INT, INT), [['dead', 'email', 5, 1, 'Error: no'], ['dead', 'sms', 5, 1, 'Error: no']]);
        // In front of a field, below 0, and in a job with as many fields as there may be.
        const seen = [], fields = range(1, 30);
        await boss.outMany([['job', -7, 9], ['job', 1, 8]]);
        await one.work(['job', TRIES, INT], (job) => { seen.push(job); throw new Error(`no ${job[2]}`); }, { tries: 2, delay: 1, timeout: 0 });
        assert.deepEqual(seen.filter((job) => job[2] === 9), [['job', -7, 9], ['job', 1, 9]]);
        assert.deepEqual(seen.filter((job) => job[2] === 8), [['job', 1, 8]]);
        assert.deepEqual((await letters('job', INT, INT)).sort(), [['dead', 'job', 2, 8, 'Error: no 8'], ['dead', 'job', 2, 9, 'Error: no 9']]);
        await boss.out(['wide', 0, ...fields]);
        await one.work(['wide', TRIES, ...fields], no, { tries: 1, timeout: 0 });
        assert.deepEqual(await letters('wide', INT, ...fields), [['dead', 'wide', 1, ...fields, 'Error: no']]);
        // A number that is no count stays as it is.
        await boss.outMany([['plain', 1, 0], ['plain', 9, 0], ['plain', 4, 0]]);
        const failed = new Set(), square = ([, n]) => {
            if (n !== 4 && !failed.has(n)) { failed.add(n); throw new Error('a passing fault'); }
            return ['square', n, n * n];
        };
        assert.equal(await one.work(['plain', INT, TRIES], square, { tries: 3, delay: 10, timeout: 50 }), 3);
        assert.deepEqual((await boss.takeMany(['square', INT, INT], { count: 9 })).map(([, ...rest]) => rest).sort(), [[1, 1], [4, 16], [9, 81]]);
        assert.deepEqual(await letters(ANY, ANY, ANY), []);
    });

    const NONE = [5, 'done', { a: 1 }, true, [['done'], 5], new Map(), ['done', 1.5], [['done', 1], ['done', 'x'.repeat(4_096)]], ['done', null]];
    play('a result that is none is an error of the function', async (scene) => {
        const server = await scene.serve(), one = await scene.space(server), boss = await scene.space(server, 8);
        for (const [place, result] of NONE.entries()) {
            await boss.out(['job', 0]);
            await assert.rejects(one.work(['job', INT], () => result), place < 6 ? TypeError : OutOfRange);
            assert.deepEqual(await boss.take(['job', INT], { timeout: LONG }), ['job', 0]);
        }
        // With tries it counts, and ends nothing.
        await boss.outMany([...NONE.map((_, place) => ['job', place, 0]), ['job', 99, 0]]);
        let calls = 0;
        const call = ([, place]) => { calls += 1; return place === 99 ? ['fine', 99] : NONE[place]; };
        assert.equal(await one.work(['job', INT, TRIES], call, { tries: 2, delay: 1, timeout: 50 }), 1);
        assert.equal(calls, 2 * NONE.length + 1);
        const dead = (await boss.takeMany(['dead', 'job', INT, 2, TEXT], { count: 99 })).sort((a, b) => a[2] - b[2]);
        assert.deepEqual(dead.map(([, , place]) => place), range(0, NONE.length));
        for (const [, , place, , text] of dead) assert.match(text, place < 6 ? /^TypeError: a worker's function returns nothing, a tuple/ : /^OutOfRange: a /);
        assert.deepEqual([await boss.take(['fine', INT]), await boss.look(['done', ANY]), await boss.look(['job', ANY, ANY])], [['fine', 99], null, null]);
    });

    play('an error ends it without tries', async (scene) => {
        const server = await scene.serve(), one = await scene.space(server), boss = await scene.space(server, 8);
        const own = new Error('own');
        await boss.out(['job', 5]);
        await assert.rejects(one.work(['job', INT], async () => { throw own; }), own);
        await fails(one.work(['job', INT], () => ['done', 1.5]), OutOfRange);
        assert.deepEqual(await boss.take(['job', INT], { timeout: LONG }), ['job', 5]);
    });

    play('tries with pauses, and dead letters', async (scene) => {
        const server = await scene.serve(), one = await scene.space(server), boss = await scene.space(server, 8);
        await boss.outMany([['job', 'bad', 0], ['job', 'late', 0], ['job', 'good', 0], ['job', 'fourth', 3], ['job', 'wrong', 0]]);
        const times = [], text = `${'é'.repeat(600)}\ud800`;
        const call = async ([, name, failed]) => {
            times.push([name, failed, performance.now()]);
            if (name === 'late' && failed < 2 || name === 'fourth') throw new RangeError('not now');
            if (name === 'bad') throw new Error(text);
            return name === 'wrong' ? ['done', 'x'.repeat(5_000)] : ['done', name, failed];
        };
        assert.equal(await one.work(['job', TEXT, TRIES], call, { tries: 3, delay: 100, timeout: 50 }), 2);
        assert.deepEqual((await boss.takeMany(['done', TEXT, INT], { count: 9 })).map(([, ...rest]) => rest).sort(), [['good', 0], ['late', 2]]);
        const dead = new Map((await boss.takeMany(['dead', 'job', TEXT, INT, TEXT], { count: 9 })).map(([, , name, ...rest]) => [name, rest]));
        assert.deepEqual([...dead.keys()].sort(), ['bad', 'fourth', 'wrong']);
        assert.deepEqual(dead.get('fourth'), [4, 'RangeError: not now']);
        assert.deepEqual(dead.get('bad'), [3, `Error: ${'é'.repeat(496)}`]);
        assert.match(dead.get('wrong')[1], /^OutOfRange: a text has 5000 bytes/);
        assert.equal(await boss.look(['job', TEXT, INT]), null);
        for (const name of ['bad', 'late']) {
            const [first, second, third] = times.filter((time) => time[0] === name);
            assert.deepEqual([first[1], second[1], third[1]], [0, 1, 2]);
            assert.ok(second[2] - first[2] >= 99 && third[2] - second[2] >= 199, `${name}: ${times}`);
        }
        // Others were done meanwhile.
        assert.deepEqual(times.slice(0, 5).map(([name]) => name), ['bad', 'late', 'good', 'fourth', 'wrong']);
        await boss.out(['job', 'bad', 0]);
        await one.work(['job', TEXT, TRIES], call, { tries: 1, dead: 'grave', timeout: 0 });
        assert.deepEqual((await boss.take(['grave', 'job', TEXT, INT, TEXT])).slice(2, 4), ['bad', 1]);
    });

    play('a job that waits for its next try is held, and at most 32 are', async (scene) => {
        const server = await scene.serve(), one = await scene.space(server), boss = await scene.space(server, 8);
        // On a busy machine the first job may be due before the last one was tried: then the delay is longer.
        for (const delay of [3_000, 20_000]) {
            await boss.outMany(range(0, 34).map((item) => ['job', item, 0]));
            const seen = [], begin = performance.now();
            const call = async ([, item, failed]) => { seen.push([item, failed]); if (failed === 0) throw new Error('once'); };
            const working = one.work(['job', INT, TRIES], call, { tries: 2, delay, timeout: 0 });
            while (seen.length < 32 && performance.now() < begin + LONG) await sleep(5);
            await sleep(100);
            const soFar = [...seen], rest = await boss.takeMany(['job', INT, INT], { count: 99 });
            if (delay < 20_000 && performance.now() > begin + delay) {
                await working;
                continue;
            }
            assert.deepEqual(soFar, range(0, 32).map((item) => [item, 0]));
            assert.deepEqual(rest, [['job', 32, 0], ['job', 33, 0]]);
            assert.equal(await working, 32);
            assert.deepEqual(seen.slice(32).sort(([a], [b]) => a - b), range(0, 32).map((item) => [item, 1]));
            break;
        }
    });

    play('keeps a job for as long as its function runs', async (scene) => {
        const server = await scene.serve('one', 0, '--lease', '3');
        const one = await scene.space(server), other = await scene.space(server, 8);
        await other.out(['job', 1]);
        const working = one.work(['job', INT], async ([, item]) => { await sleep(7_000); return ['done', item]; }, { timeout: 0 });
        await sleep(200);
        assert.equal(await other.take(['job', INT], { timeout: 6_500 }), null);
        assert.deepEqual([await working, await other.take(['done', INT])], [1, ['done', 1]]);
    });

    play('stops', async (scene) => {
        const server = await scene.serve(), one = await scene.space(server), boss = await scene.space(server, 8);
        await boss.outMany([['job', 1], ['stop']]);
        assert.equal(await one.work(['job', INT], () => assert.fail(), { stop: Rd('stop') }), 0);
        await boss.take(['stop']);
        const working = one.work(['job', INT], ([, item]) => ['done', item], { stop: Rd('stop') });
        assert.deepEqual(await boss.take(['done', INT]), ['done', 1]);
        await boss.out(['stop']);
        assert.equal(await working, 1);
        const abort = new AbortController(), { signal } = abort;
        const soon = one.work(['job', INT], () => {}, { signal });
        await sleep(30);
        abort.abort();
        assert.deepEqual([await soon, await one.work(['job', INT], () => {}, { signal })], [0, 0]);
        // The job in hand is finished, one that waits for its next try is put back with its count, and others stay.
        await boss.outMany([['job', 'bad', 0], ['job', 'good', 0], ['job', 'other', 0]]);
        const later = new AbortController();
        const call = async ([, name]) => {
            if (name === 'bad') throw new Error('bad');
            later.abort();
            await sleep(50);
            return ['done', name];
        };
        assert.equal(await one.work(['job', TEXT, TRIES], call, { tries: 5, delay: 60_000, signal: later.signal }), 1);
        assert.deepEqual(await boss.takeMany(['job', TEXT, INT], { count: 9 }), [['job', 'other', 0], ['job', 'bad', 1]]);
        assert.deepEqual(await boss.take(['done', TEXT]), ['done', 'good']);
    });

    play('is closed', async (scene) => {
        const one = await scene.space(await scene.serve());
        const ending = fails(one.work(['job', INT], () => {}), Closed);
        await sleep(30);
        one.close();
        await ending;
    });

    play('SIGTERM ends it in order', async (scene) => {
        const server = await scene.serve(), boss = await scene.space(server, 8);
        const text = `import { INT, Space, TEXT, TRIES } from 'linda-space';
            import { setTimeout as sleep } from 'node:timers/promises';
            const space = await Space.connect([${server.port}], { client: 7 });
            const call = async ([, name]) => {
                if (name === 'bad') throw new Error(name);
                console.log('at', name); await sleep(2_000); return ['done', name];
            };
            await space.work(['none', INT], () => {}, { timeout: 0 });
            console.log('ready', process.listenerCount('SIGTERM'));
            const working = space.work(['job', TEXT, TRIES], call, { tries: 5, delay: 60_000 });
            while (process.listenerCount('SIGTERM') === 0) await sleep(5);
            console.log('listens');
            console.log('count', await working);
            console.log(process.listenerCount('SIGTERM'));
            space.close();`;
        await boss.outMany([['job', 'bad', 0], ['job', 'good', 0], ['job', 'other', 0]]);
        const program = new Program(scene, text);
        await program.until('at good');
        program.child.kill('SIGTERM');
        assert.deepEqual(await program.ended, [0, null]);
        assert.equal(program.said.replace('listens\n', ''), 'ready 0\nat good\ncount 1\n0\n');
        assert.deepEqual(await boss.takeMany(['job', TEXT, INT], { count: 9 }), [['job', 'other', 0], ['job', 'bad', 1]]);
        assert.deepEqual(await boss.take(['done', TEXT]), ['done', 'good']);
        // While it waits, too.
        const idle = new Program(scene, text);
        await idle.until('listens');
        await sleep(100);
        idle.child.kill('SIGTERM');
        assert.deepEqual([await idle.ended, idle.said], [[0, null], 'ready 0\nlistens\ncount 0\n0\n']);
    });

    play('SIGTERM gives a job free that does not end, and a second one ends the program', async (scene) => {
        const server = await scene.serve(), boss = await scene.space(server, 8);
        const text = `import { INT, Space, TRIES } from 'linda-space';
            const space = await Space.connect([${server.port}], { client: 7 });
            let late;
            const call = ([, item]) => { console.log('at', item); return item === 1 ? ['done', 1] : new Promise((resolve) => { late = resolve; }); };
            const hung = setInterval(() => {}, 1_000);
            console.log('count', await space.work(['job', INT, TRIES], call, { tries: 3, grace: Number(process.argv[2]) }));
            late(['done', 2]);
            await space.out(['after']);
            clearInterval(hung);`;
        await boss.outMany([['job', 1, 0], ['job', 2, 1]]);
        const program = new Program(scene, text, [200]);
        await program.until('at 2');
        program.child.kill('SIGTERM');
        assert.deepEqual([await program.ended, program.said], [[0, null], 'at 1\nat 2\ncount 1\n']);
        assert.deepEqual(await boss.take(['after']), ['after']);
        // It is free, and was not counted; what came late was not put.
        assert.deepEqual(await boss.takeMany(['done', INT], { count: 9 }), [['done', 1]]);
        assert.deepEqual(readFileSync(noteOf(server, 7), 'utf8').trim(), '');
        assert.deepEqual(await boss.take(['job', INT, INT], { timeout: LONG }), ['job', 2, 1]);
        await boss.out(['job', 3, 0]);
        const second = new Program(scene, text, [600_000]);
        await second.until('at 3');
        second.child.kill('SIGTERM');
        const twice = setInterval(() => second.child.kill('SIGTERM'), 200);
        assert.deepEqual([await second.ended, second.said], [[null, 'SIGTERM'], 'at 3\n']);
        clearInterval(twice);
        assert.deepEqual(await boss.take(['job', INT, INT], { timeout: LONG }), ['job', 3, 0]);
    });

    play('a function has a limit', async (scene) => {
        const server = await scene.serve(), one = await scene.space(server), boss = await scene.space(server, 8), ends = [];
        const call = ([, item]) => (item === 0 ? ['done', 0] : new Promise((resolve, reject) => ends.push(item === 1 ? resolve : reject)));
        await boss.outMany([['job', 1, 0], ['job', 2, 1], ['job', 0, 0]]);
        assert.equal(await one.work(['job', INT, TRIES], call, { tries: 2, delay: 1, limit: 250, timeout: 50 }), 1);
        assert.deepEqual((await boss.takeMany(['dead', 'job', INT, INT, TEXT], { count: 9 })).sort((a, b) => a[2] - b[2]), [
            ['dead', 'job', 1, 2, 'the limit of 0.25 s'], ['dead', 'job', 2, 2, 'the limit of 0.25 s']]);
        // What it comes to later does not matter any more.
        assert.equal(ends.length, 3);
        for (const end of ends) end(['done', 5]);
        await sleep(20);
        assert.deepEqual([await boss.takeMany(['done', INT], { count: 9 }), await boss.look(['job', ANY, ANY])], [[['done', 0]], null]);
        // Without tries it is thrown, and the job is free.
        await boss.out(['job', 1]);
        await assert.rejects(one.work(['job', INT], call, { limit: 5 }), { message: 'the limit of 0.005 s' });
        assert.deepEqual(await boss.take(['job', INT], { timeout: LONG }), ['job', 1]);
        await boss.out(['job', 0]);
        assert.equal(await one.work(['job', INT], call, { limit: 60_000, timeout: 0 }), 1);
    });

    play('kills of workers and of servers lose nothing', async (scene) => {
        let server = await scene.serve();
        const { port } = server, boss = await scene.space(server, 8, { patience: LONG });
        const text = `import { INT, range, Space, TRIES } from 'linda-space';
            const space = await Space.connect([${port}], { client: range(100, 140), patience: 60_000 });
            await space.work(['job', INT, TRIES], async ([, item, failed]) => {
                if (item % 10 === 0 && failed === 0) throw new Error('once');
                return ['done', item];
            }, { tries: 99, delay: 5 });`;
        const workers = range(0, 3).map(() => new Program(scene, text));
        const jobs = range(0, 600);
        let isOver = false;
        const killing = (async () => {
            for (let times = 0; times < 25 && !isOver; times += 1) {
                await sleep(60);
                const place = times % 3;
                workers[place].child.kill('SIGKILL');
                workers[place] = new Program(scene, text);
                if (times % 8 === 7) server = await scene.restart(server);
            }
        })();
        const done = new Set();
        for (const part of range(0, 12)) {
            await boss.outMany(jobs.slice(50 * part, 50 * part + 50).map((item) => ['job', item, 0]));
            await sleep(80);
        }
        while (done.size < jobs.length) {
            const next = await boss.take(['done', INT], { timeout: 20_000 });
            assert.notEqual(next, null, `${done.size} are done`);
            done.add(next[1]);
        }
        isOver = true;
        await killing;
        for (const { child } of workers) child.kill('SIGTERM');
        for (const { ended } of workers) await ended;
        assert.deepEqual([...done].sort((a, b) => a - b), jobs);
        assert.equal(await boss.look(['dead', ANY, ANY, ANY, ANY]), null);
        assert.equal(await boss.look(['job', ANY, ANY]), null);
    });

    play('goes on while a server is away', async (scene) => {
        let server = await scene.serve();
        const one = await scene.space(server, 7, SHORT), boss = await scene.space(server, 8, { patience: LONG });
        const faults = [];
        const working = one.work(['job', INT], ([, item]) => ['done', item], { stop: Rd('stop'), onerror: (fault) => faults.push(fault) });
        await boss.out(['job', 1]);
        assert.deepEqual(await boss.take(['done', INT]), ['done', 1]);
        await server.kill();
        await sleep(2_500);
        server = await scene.serve('one', server.port);
        await boss.outMany([['job', 2], ['job', 3]]);
        assert.deepEqual([await boss.take(['done', 2]), await boss.take(['done', 3])], [['done', 2], ['done', 3]]);
        await boss.out(['stop']);
        assert.equal(await working, 3);
        assert.ok(faults.length >= 1 && faults.every((fault) => fault instanceof NoConnection), faults);
    });

    play('goes on while another connection has its number', async (scene) => {
        let server = await scene.serve(), isAway = false;
        const faults = [], connect = (port) => {
            if (isAway) throw new Error('away');
            return net.connect({ port, host: '127.0.0.1', noDelay: true });
        };
        const one = await patient(() => scene.space(server, 7, { connect, patience: 300 }));
        const options = { stop: Rd('stop'), onerror: (fault) => faults.push(fault) };
        const working = one.work(['job', INT], (job) => ['done', job[1]], options);
        await sleep(50);
        isAway = true;
        server = await scene.restart(server);
        const other = await Peer.connect(server.port);
        await other.greet(7);
        isAway = false;
        const isBusy = () => faults.some((fault) => fault instanceof Refused && fault.reason === 'Busy');
        const over = working.then(() => 'over', (fault) => fault);
        while (!isBusy()) assert.equal(await Promise.race([over, sleep(10)]), undefined);
        other.stream.destroy();
        const boss = await scene.space(server, 8);
        await boss.out(['job', 1]);
        assert.deepEqual(await boss.take(['done', INT], { timeout: LONG }), ['done', 1]);
        await boss.out(['stop']);
        assert.equal(await working, 1);
    });

    play('many at once, and a count at its limit', async (scene) => {
        const server = await scene.serve(), heard = [], hear = ({ name, message }) => heard.push(`${name}: ${message}`);
        process.on('warning', hear);
        scene.closed.push(() => process.off('warning', hear));
        const spaces = await Promise.all(range(20, 32).map((client) => scene.space(server, client)));
        await Promise.all(spaces.map((one) => one.work(['none', INT], () => {}, { timeout: 100 })));
        await turn();
        assert.deepEqual(heard.filter((text) => text.startsWith('MaxListeners')), []);
        const [one] = spaces, most = 2n ** 63n - 1n;
        await one.out(['job', most]);
        await one.work(['job', TRIES], () => { throw new Error('own'); }, { tries: 3, timeout: 100 });
        assert.deepEqual(await one.take(['dead', 'job', INT, TEXT]), ['dead', 'job', most, 'Error: own']);
    });

    play('goes on after a server had no room, and finishes what is unanswered', async (scene) => {
        const isRenewal = (peer) => { while (peer.came.subarray(0, 13).equals(RENEWAL)) peer.came = peer.came.subarray(13); };
        const hears = async (peer, data) => {
            for (;;) {
                await peer.until(() => peer.came.length >= data.length || peer.came.length >= 13);
                isRenewal(peer);
                if (peer.came.length >= data.length) break;
                await sleep(1);
            }
            await peer.expect(data);
        };
        const fake = await scene.fake(async (peer) => {
            await greets(peer, 0);
            await peer.expect(frames.ask(1, true, ['job', INT]));
            peer.send(offer(1, 3, ['job', 8]));
            await hears(peer, frames.out(1, ['done', 8]));
            peer.send(refusal(FULL, 0));
            await hears(peer, frames.out(1, ['done', 8]));
            peer.send(stored(1, 4));
            await hears(peer, frames.accept(2, 1, 3));
            peer.send(refusal(FULL, 0));
            await hears(peer, frames.accept(2, 1, 3));
            peer.send(taken(2, 3, ['job', 8]));
            await hears(peer, frames.ask(2, true, ['job', INT]));
            await hears(peer, PROBE);
            peer.send(refusal(OLD, 2));
            await hears(peer, frames.cancel(2));
            // The kept reply is a Taken: an Accept of nothing.
            await hears(peer, frames.accept(3, 0, 0));
            peer.send(gone(3));
            await peer.end();
        });
        const one = await scene.space(fake), faults = [];
        const options = { timeout: 100, keep: 60_000, onerror: (fault) => faults.push(fault.reason) };
        assert.equal(await one.work(['job', INT], ([, item]) => ['done', item], options), 1);
        assert.deepEqual(faults, ['Full', 'Full']);
        one.close();
        await fake.end();
    });
});

// ---- a pool

// ---- jobs that end their worker

const sumOf = (data) => createHash('sha256').update(data).digest('hex').slice(0, 32);
/** The file for the job that a number has in hand, of one server. */
const noteOf = (server, client) => path.join(STATE, `${sumOf(`ports ${server.port}`)}-${client}.job`);
/** What is noted of the tuple ['job', item, failed], by its bytes: a text of three bytes, two fields, two integers. */
const notedOf = (id, item, port, failed = 0) => (
    `${id} ${sumOf(Buffer.concat([Buffer.from('0200036a6f6202', 'hex'), Buffer.of(1), number(item), Buffer.of(1), number(failed)]))} ${port}`);

beside('jobs that end their worker', () => {
    play('are counted by the next one', async (scene) => {
        const server = await scene.serve(), boss = await scene.space(server, 8), file = noteOf(server, 7);
        const text = (template, options) => `import { INT, Space, TRIES } from 'linda-space';
            const space = await Space.connect([${server.port}], { client: 7 });
            const call = ([, item, failed]) => {
                console.log('at', item, failed);
                if (item === 7) process.exit(9);
                return ['done', item];
            };
            console.log('count', await space.work(${template}, call, { delay: 50, timeout: 200, ${options} }));`;
        const run = async (...words) => {
            const program = new Program(scene, text(...words)), [code] = await program.ended;
            return [code, program.said];
        };
        await boss.outMany([['job', 7, 0], ['job', 8, 0]]);
        assert.deepEqual(await run("['job', INT, INT]", ''), [9, 'at 7 0\n']);
        assert.equal(existsSync(file), false);
        const words = ["['job', INT, TRIES]", 'tries: 2'];
        assert.deepEqual(await run(...words), [9, 'at 7 0\n']);
        assert.equal(readFileSync(file, 'utf8').trimEnd(), notedOf(1, 7, server.port));
        // Others are done while it waits for its next try.
        assert.deepEqual(await run(...words), [9, 'at 8 0\nat 7 1\n']);
        const notes = [3, 4].map((id) => notedOf(id, 7, server.port, 1));       // it was put again before the result of 8, or after that
        assert.ok(notes.includes(readFileSync(file, 'utf8').trim()), readFileSync(file, 'utf8'));
        assert.deepEqual(await run(...words), [0, 'count 0\n']);
        assert.deepEqual(await boss.takeMany(['dead', 'job', INT, INT, TEXT], { count: 9 }), [['dead', 'job', 7, 2, 'the worker ended']]);
        assert.deepEqual([await boss.takeMany(['done', INT], { count: 9 }), await boss.look(['job', ANY, ANY])], [[['done', 8]], null]);
        assert.equal(readFileSync(file, 'utf8').trim(), '');
    });

    play('in turn are counted each', async (scene) => {
        const server = await scene.serve(), boss = await scene.space(server, 8), { port } = server;
        const text = `import { INT, Space, TRIES } from 'linda-space';
            const space = await Space.connect([${port}], { client: 7 });
            const call = ([, item]) => { console.log('at', item); process.exit(9); };
            await space.work(['job', INT, TRIES], call, { tries: Number(process.argv[2]), delay: 600_000, timeout: 0 });
            space.close();`;
        const run = async (tries) => {
            const program = new Program(scene, text, [tries]);
            await program.ended;
            return [program.said, readFileSync(noteOf(server, 7), 'utf8').split('\n').filter((line) => line !== '')];
        };
        await boss.outMany([['job', 1, 0], ['job', 2, 0], ['job', 3, 0]]);
        const notes = [1, 2, 3].map((item) => notedOf(item, item, port));
        assert.deepEqual(await run(9), ['at 1\n', notes.slice(0, 1)]);
        // Those that wait for their next try in a life that ends are counted by the next one.
        assert.deepEqual(await run(9), ['at 2\n', notes.slice(0, 2)]);
        assert.deepEqual(await run(9), ['at 3\n', notes]);
        assert.deepEqual(await run(1), ['', []]);
        const letters = await boss.takeMany(['dead', 'job', INT, 1, 'the worker ended'], { count: 9 });
        assert.deepEqual(letters.map(([, , item]) => item).sort(), [1, 2, 3]);
    });

    play('do not stop the other jobs', async (scene) => {
        const server = await scene.serve(), boss = await scene.space(server, 8);
        const text = `import { INT, Rd, Space, TRIES } from 'linda-space';
            const [client, ...bad] = process.argv.slice(2).map(Number), space = await Space.connect([${server.port}], { client });
            const call = async ([, item]) => {
                if (bad.includes(item)) process.kill(process.pid, 'SIGKILL');
                await new Promise((resolve) => setTimeout(resolve, 5));
                return ['done', item];
            };
            await space.work(['job', INT, TRIES], call, { tries: 3, delay: 100, stop: Rd('stop') });`;
        const played = async (items, bad) => {
            await boss.takeMany(['stop'], { count: 1 });
            await boss.outMany(items.map((item) => ['job', item, 0]));
            let crashes = 0;
            const lives = range(100, 103).map(async (client) => {
                for (let code = null; code === null;) {
                    [code] = await new Program(scene, text, [client, ...bad]).ended;
                    if (code === null) crashes += 1;
                    await sleep(20);
                }
            });
            const letters = [], done = new Set(), good = items.filter((item) => !bad.includes(item));
            while (letters.length < bad.length) letters.push(await boss.take(['dead', 'job', INT, INT, TEXT], { timeout: LONG }));
            while (done.size < good.length) done.add((await boss.take(['done', INT], { timeout: LONG }))?.[1]);
            await boss.out(['stop']);
            await Promise.all(lives);
            assert.deepEqual(letters.sort((a, b) => a[2] - b[2]), bad.map((item) => ['dead', 'job', item, 3, 'the worker ended']));
            assert.deepEqual([...done].sort((a, b) => a - b), good);
            assert.deepEqual([await boss.look(['job', ANY, ANY]), await boss.look(['dead', ANY, ANY, ANY, ANY])], [null, null]);
            return crashes;
        };
        // Each of three workers ends at most once in a job with one count: then it counts it.
        const crashes = await played(range(7, 107), [7]);
        assert.ok(crashes >= 3 && crashes <= 9, `${crashes} crashes`);
        await played(range(200, 230), [205, 215]);
    });

    play('only the noted one counts', async (scene) => {
        const server = await scene.serve(), boss = await scene.space(server, 8), { port } = server;
        const play = async (client, item, text) => {
            const seen = [], one = await scene.space(server, client);
            writeFileSync(noteOf(server, client), text);
            const count = await one.work(['job', INT, TRIES], (job) => { seen.push(job[1]); }, { tries: 1, timeout: 0 });
            assert.equal(readFileSync(noteOf(server, client), 'utf8').trim(), '');
            const dead = await boss.takeMany(['dead', 'job', item, 1, 'the worker ended'], { count: 9 });
            assert.deepEqual([count, seen], dead.length > 0 ? [0, []] : [1, [item]]);
            return dead.length;
        };
        const found = [];
        for (const [place, spell] of [
            (note) => `${note}\n`, (note) => `${note}\n`.padEnd(256), (note) => `0000${note}   \n\0\0`, (note) => `\n\nsome\n${note}\n\n`,
            (_, id, item) => `${notedOf(id, item + 1, port)}\n`, (_, id, item) => `${notedOf(id + 1, item, port)}\n`,
            (_, id, item) => `${notedOf(id, item, port + 1)}\n`, (note) => note.slice(0, -1), (note) => note.slice(0, 20), (note) => `-${note}`,
            () => '', () => '\n\n', () => '\xff\0 5\n', (note) => note.toUpperCase().replace(/[0-9]/g, ''),
        ].entries()) {
            const { id } = await boss.out(['job', place, 0]);
            found.push(await play(100 + place, place, spell(notedOf(id, place, port), id, place)));
        }
        assert.deepEqual(found, [1, 1, 1, 1, ...new Array(10).fill(0)]);
    });

    play('of two servers, with others before them', async (scene) => {
        const left = await scene.serve('left'), right = await scene.serve('right'), boss = await scene.space([left, right], 8);
        // The client 8 puts the first at the left.
        await boss.outMany(range(0, 8).map((item) => ['job', item, 0]));
        const ports = [left.port, right.port].sort((one, other) => one - other).join(' ');
        const file = path.join(STATE, `${sumOf(`ports ${ports}`)}-7.job`), one = await scene.space([left, right], 7), seen = [];
        writeFileSync(file, `${notedOf(3, 4, left.port)}\n${notedOf(4, 7, right.port)}\n${notedOf(3, 5, left.port)}\n`);
        const call = ([, item]) => {
            if (seen.length === 0) assert.equal(readFileSync(file, 'utf8').match(/[0-9a-f]{32}/g).length, 1);      // its own, and no other
            seen.push(item);
        };
        assert.equal(await one.work(['job', INT, TRIES], call, { tries: 1, timeout: 0 }), 6);
        assert.deepEqual(seen.sort(), [0, 1, 2, 3, 5, 6]);
        assert.deepEqual((await boss.takeMany(['dead', 'job', INT, 1, 'the worker ended'], { count: 9 })).map(([, , item]) => item).sort(), [4, 7]);
    });

    play('that somebody else has are counted when they come back', async (scene) => {
        const server = await scene.serve(), one = await scene.space(server), boss = await scene.space(server, 8), file = noteOf(server, 7);
        await boss.out(['job', 5, 0]);
        const held = await boss.hold(['job', INT, INT]);
        writeFileSync(file, `${notedOf(1, 5, server.port)}\n`);
        await boss.out(['job', 6, 0]);
        const seen = [], working = one.work(['job', INT, TRIES], (job) => { seen.push(job[1]); return ['done']; }, { tries: 1, stop: Rd('stop') });
        await boss.take(['done']);
        assert.equal(readFileSync(file, 'utf8').trim(), '');
        held.release();
        assert.deepEqual(await boss.take(['dead', 'job', INT, INT, TEXT], { timeout: LONG }), ['dead', 'job', 5, 1, 'the worker ended']);
        await boss.out(['stop']);
        assert.deepEqual([await working, seen], [1, [6]]);
        // One that somebody else has done is not there any more.
        await boss.out(['job', 5, 0]);
        await boss.take(['job', INT, INT]);
        await boss.take(['stop']);
        writeFileSync(file, `${notedOf(6, 5, server.port)}\n`);
        await boss.out(['job', 5, 0]);
        one.close();
        const next = await scene.space(server, 7);
        assert.equal(await next.work(['job', INT, TRIES], () => {}, { tries: 1, timeout: 0 }), 1);
    });

    play('are not counted without a folder', async (scene) => {
        const server = await scene.serve(), boss = await scene.space(server, 8);
        await boss.outMany([['job', 1, 0], ['job', 2, 0]]);
        const text = `import { INT, Space, TRIES } from 'linda-space';
            process.on('warning', ({ name, message }) => console.log(name, message));
            for (const client of [7, 9]) {
                const space = await Space.connect([${server.port}], { client });
                await space.work(['job', INT, TRIES], ([, item]) => ['done', item], { tries: 2, timeout: 0 });
                await space.out(['job', 3, 0]);
                space.close();
            }`;
        const program = new Program(scene, text, [], { env: { ...process.env, LINDA_STATE: '/proc/none', NODE_NO_WARNINGS: '1' } });
        assert.deepEqual(await program.ended, [0, null]);
        assert.match(program.said, /^linda-space a job that ends its worker is not counted: \/proc\/none\/\w{32}-7\.job: ENOENT.*\n$/);
        assert.deepEqual((await boss.takeMany(['done', INT], { count: 9 })).map(([, item]) => item), [1, 2, 3]);
    });
});

/** By itself: it holds the event loop, and tests beside it would miss their times. */
beside('programs that end, and timers', () => {
    const BEGIN = `
        import { INT, Pool, Space } from 'linda-space';
        const port = Number(process.argv[2]);
        const timers = () => process.getActiveResourcesInfo().filter((name) => name === 'Timeout').length;
        process.on('warning', ({ name }) => console.log(name));
        const space = await Space.connect([port]), pool = new Pool([port], { client: [100, 101], size: 1 });
        await space.outMany([['held', 1], ['held', 2], ['job', 1], ['job', 2]]);
    `;
    /** What a program says that ends by itself once it has nothing to do: this text after those lines, with the port of a server. */
    const said = async (scene, text) => {
        const server = await scene.serve();
        const program = new Program(scene, BEGIN + text, [server.port], { env: { ...process.env, LINDA_STATE: path.join(scene.folder, 'state') } });
        const end = setTimeout(() => program.child.kill('SIGKILL'), LONG / 2);
        const [status, signal] = await program.ended;
        clearTimeout(end);
        assert.deepEqual([status, signal], [0, null], `it is there after ${LONG / 2000} s: ${program.said}`);
        return program.said;
    };

    play('no timer is left of a call that has ended', async (scene) => {
        assert.equal(await said(scene, `
            await space.take(['job', INT], { timeout: 3_600_000 });
            await pool.take(['job', INT], { timeout: 3_600_000 });
            const offer = await pool.hold(['held', 1]);
            const late = pool.look(['never'], { timeout: 3_600_000 });
            offer.release();
            await late;
            console.log(timers());
        `), '0\n');
    });

    // (its number is one of a file, which a lock of this program keeps)
    play('a program ends that has a number, holds tuples and keeps one', async (scene) => {
        assert.equal(await said(scene, `
            await space.hold(['held', 1], { keep: 50 });
            await space.hold(['held', 2]);
            await pool.hold(['job', 1], { keep: 50 });
            console.log('at its end');
        `), 'at its end\n');
    });

    play('a time of more than 24 days is no time of a millisecond', async (scene) => {
        assert.equal(await said(scene, `
            const long = 40 * 24 * 3_600_000, over = new AbortController();
            const waits = [space.take(['never'], { timeout: long, signal: over.signal })];
            const offer = await pool.hold(['held', 1], { keep: long });
            waits.push(pool.take(['never'], { timeout: long, signal: over.signal }));
            await new Promise((done) => { setTimeout(done, 100); });
            over.abort();
            console.log((await Promise.allSettled(waits)).map(({ reason }) => reason.name).join());
            await space.work(['job', INT], () => new Promise((done) => { setTimeout(done, 20); }), { limit: long, grace: long, timeout: 0 });
            console.log('at its end');
        `), 'AbortError,AbortError\nat its end\n');
    });
});

describe('work that holds the event loop', () => {
    play('a function that is late has failed', async (scene) => {
        const server = await scene.serve(), one = await scene.space(server);
        await one.out(['job', 0]);
        const call = () => { for (const end = performance.now() + 60; performance.now() < end;); return ['done']; };
        assert.equal(await one.work(['job', TRIES], call, { tries: 1, limit: 50, timeout: 0 }), 0);
        assert.deepEqual([await one.look(['done']), await one.take(['dead', 'job', INT, TEXT])], [null, ['dead', 'job', 1, 'the limit of 0.05 s']]);
    });

    play('a hold that was lost puts nothing', async (scene) => {
        const server = await scene.serve('one', 0, '--lease', '1');
        const one = await scene.space(server), other = await scene.space(server, 8);
        await other.out(['job', 1]);
        let calls = 0;
        const call = async ([, item]) => {
            calls += 1;
            if (calls > 1) return ['done', item];
            // This program does nothing for so long that another one gets the job, and gives it back.
            const end = performance.now() + 3_500;
            while (performance.now() < end);
            return ['never', item];
        };
        assert.equal(await one.work(['job', INT], call, { timeout: 300 }), 1);
        assert.deepEqual([calls, await other.look(['never', INT]), await other.take(['done', INT])], [2, null, ['done', 1]]);
    });
});

beside('a pool', () => {
    play('one signal for many calls', async (scene) => {
        const heard = [], hear = ({ name }) => { if (name === 'MaxListenersExceededWarning') heard.push(name); };
        process.on('warning', hear);
        scene.closed.push(() => process.off('warning', hear));
        const pool = new Pool([(await scene.serve()).port], { client: range(100, 120), size: 2 }), end = new AbortController();
        scene.spaces.push(pool);
        const calls = range(0, 20).map(() => fails(pool.take(['none'], { signal: end.signal }), Aborted));
        await sleep(20);
        end.abort();
        await Promise.all(calls);
        assert.deepEqual(heard, []);
    });

    play('a web server, 200 requests at once', async (scene) => {
        const servers = [await scene.serve('left'), await scene.serve('right')];
        const pool = new Pool(servers.map(({ port }) => port), { client: range(100, 116) });
        scene.spaces.push(pool);
        const web = http.createServer(async (request, response) => {
            try {
                const stored = await pool.out(['request', Number(request.url.slice(1))]);
                response.end(`${stored.server} ${stored.id}`);
            } catch (fault) {
                response.statusCode = 500;
                response.end(fault.stack);
            }
        });
        await new Promise((resolve) => { web.listen(0, '127.0.0.1', resolve); });
        scene.closed.push(() => web.close());
        const ask = async (place) => {
            const response = await fetch(`http://127.0.0.1:${web.address().port}/${place}`);
            return [response.status, await response.text()];
        };
        const answers = await Promise.all(range(0, 200).map(ask));
        assert.deepEqual(new Set(answers.map(([status]) => status)), new Set([200]));
        assert.equal(new Set(answers.map(([, text]) => text)).size, 200);
        assert.ok(pool.size > 1 && pool.size <= 16);
        const found = await pool.takeMany(['request', INT], { count: 1_000 });
        assert.deepEqual(found.map(([, place]) => place).sort((a, b) => a - b), range(0, 200));
    });

    play('calls', async (scene) => {
        const server = await scene.serve();
        const pool = new Pool([server.port], { client: range(100, 110), size: 4 });
        scene.spaces.push(pool);
        assert.equal(pool.size, 0);
        assert.equal((await pool.out(['a', 1])).id, 1);
        assert.equal(pool.size, 1);
        assert.deepEqual([await pool.look(['a', INT]), await pool.read(['a', INT])], [['a', 1], ['a', 1]]);
        assert.equal((await pool.choose([In('a', INT).wrap(5)])).labels[0], 5);
        await pool.outMany([['a', 2], ['a', 3], ['a', 4]]);
        assert.equal((await pool.sync(In('a', 2))).kind, 'took');
        assert.deepEqual([await pool.take(['a', 3]), await pool.purge(['a', INT])], [['a', 3], 1]);
        assert.equal(pool.size, 1);
        // What waits for long makes no other call wait, up to the size.
        const waiting = range(0, 3).map(() => pool.take(['b', INT]));
        await pool.outMany([['b', 1], ['b', 2], ['b', 3]]);
        assert.deepEqual((await Promise.all(waiting)).map(([, item]) => item).sort(), [1, 2, 3]);
        assert.equal(pool.size, 4);
        const all = range(0, 6).map(() => pool.take(['c']));
        await (await scene.space(server, 8)).outMany(range(0, 6).map(() => ['c']));
        await Promise.all(all);
        assert.equal(pool.size, 4);
        await pool.outMany([['d', 1], ['d', 2]]);
        const found = [];
        for await (const [, item] of pool.takes(['d', INT], { timeout: 10 })) found.push(item);
        assert.deepEqual(found, [1, 2]);
        pool.close();
        await fails(pool.out(['a']), Closed);
    });

    play('a hold keeps its member', async (scene) => {
        const server = await scene.serve();
        const pool = new Pool([server.port], { client: range(100, 110), size: 2 });
        scene.spaces.push(pool);
        await pool.outMany(range(0, 6).map((item) => ['job', item]));
        const [first, second] = [await pool.hold(['job', 0]), await pool.hold(['job', 1])];
        const waiting = pool.look(['job', 0]);
        const isDone = async () => Promise.race([waiting.then(() => true), sleep(50).then(() => false)]);
        assert.equal(await isDone(), false);
        await first.accept();
        assert.equal(await waiting, null);
        second.release();
        second.release();
        assert.equal(await pool.hold(['none'], { timeout: 5 }), null);
        await fails(pool.hold(['none'], { signal: AbortSignal.timeout(20) }), Aborted);
        const held = await pool.holding(['job', 1], { keep: 100 }, async (offer) => {
            assert.deepEqual(await pool.holding(['job', 2], {}, (inner) => inner.accept()), ['job', 2]);
            return offer.accept();
        });
        assert.deepEqual([held, await Promise.all(range(3, 6).map((item) => pool.take(['job', item])))],
            [['job', 1], range(3, 6).map((item) => ['job', item])]);
        assert.equal(pool.size, 2);
        const last = await pool.out(['job', 9]).then(() => pool.hold(['job', 9]));
        await scene.restart(server);
        await untilLost(last);
        await fails(last.accept(), Gone);
        const both = range(0, 2).map(() => pool.take(['job', 9], { timeout: 2_000 }));
        assert.deepEqual((await Promise.all(both)).filter((tuple) => tuple !== null), [['job', 9]]);
    });

    play('numbers and arguments', async (scene) => {
        const server = await scene.serve(), { port } = server;
        const few = new Pool([port], { client: range(100, 103) });
        scene.spaces.push(few);
        const stored = await Promise.all(range(0, 50).map((item) => few.out(['a', item])));
        assert.deepEqual(stored.map(({ id }) => id).sort((a, b) => a - b), range(1, 51));
        assert.equal(few.size, 3);
        await fails(new Pool([port], { client: range(100, 103) }).out(['a']), NoNumber);
        const one = new Pool([port], { client: 7 });
        scene.spaces.push(one);
        await Promise.all(range(0, 5).map(() => one.out(['b'])));
        assert.equal(one.size, 1);
        for (const options of [{ client: 7, size: 2 }, { size: 0 }, { sise: 1 }, 5, null]) {
            assert.throws(() => new Pool([port], options), OutOfRange);
        }
        assert.throws(() => new Pool([], {}), OutOfRange);
        await server.kill();
        const lost = new Pool([port], { client: range(200, 205) });
        const faults = await Promise.all(range(0, 5).map(() => lost.out(['a']).catch((fault) => fault.code)));
        assert.deepEqual(faults, range(0, 5).map(() => 'NoConnection'));
    });

    play('a call leaves the pool, or all do', async (scene) => {
        const server = await scene.serve();
        const pool = new Pool([server.port], { client: range(100, 110), size: 1 });
        const taking = fails(pool.take(['a']), Closed);
        await sleep(30);
        await fails(pool.out(['b'], { signal: AbortSignal.timeout(30) }), Aborted);
        await fails(pool.out(['b'], { signal: AbortSignal.abort() }), Aborted);
        const behind = fails(pool.out(['b']), Closed);
        pool.close();
        await Promise.all([taking, behind]);
        assert.equal(await (await scene.space(server, 8)).look(['b']), null);
    });

    play('a member is finished after an error', async (scene) => {
        const server = await scene.serve();
        const pool = new Pool([server.port], { client: range(100, 110), size: 1, ...SHORT });
        scene.spaces.push(pool);
        await pool.out(['a', 0]);
        await server.stop();
        await fails(pool.out(['a', 1], { timeout: 100 }), TimedOut, { pending: 'out' });
        await fails(pool.outMany([['a', 2], ['a', 3]], { timeout: 100 }), TimedOut);     // (the member is not there)
        server.goOn();
        assert.equal((await patient(() => pool.out(['a', 4]))).id, 3);
        assert.deepEqual(await pool.takeMany(['a', INT], { count: 9 }), [['a', 0], ['a', 1], ['a', 4]]);
    });

    play('a tuple that was just being taken goes to the next take', async (scene) => {
        const abort = new AbortController();
        const fake = await scene.fake(async (peer) => {
            await peer.expect(hello(100));
            peer.send(welcome(0));
            await peer.expect(frames.ask(1, true, ['a', INT]));
            peer.send(offer(1, 3, ['a', 8]));
            await peer.expect(frames.accept(1, 1, 3));
            abort.abort();
            await sleep(30);
            peer.send(taken(1, 3, ['a', 8]));
            await peer.expect(frames.out(2, ['b']));
            peer.send(stored(2, 4));
            await peer.end();
        });
        const pool = new Pool([fake.port], { client: range(100, 101), size: 1 });
        await fails(pool.take(['a', INT], { signal: abort.signal }), Aborted);
        assert.equal((await pool.out(['b'])).id, 4);
        assert.deepEqual(await pool.take(['a', INT]), ['a', 8]);
        pool.close();
        await fake.end();
    });

    play('a tuple that was just being taken is not left with a member', async (scene) => {
        const abort = new AbortController();
        const fake = await scene.fake(async (peer) => {
            await peer.expect(hello(100));
            peer.send(welcome(0));
            await peer.expect(frames.ask(1, true, ['a', INT]));
            peer.send(offer(1, 3, ['a', 8]));
            await peer.expect(frames.accept(1, 1, 3));
            abort.abort();
            await sleep(200);
            peer.send(taken(1, 3, ['a', 8]));
            await peer.expect(frames.ask(2, true, ['c']));
            peer.send(offer(2, 7, ['c']));
            await peer.expect(frames.accept(2, 2, 7));
            peer.send(taken(2, 7, ['c']));
            await peer.end();
        }, async (peer) => {
            // The first member has looked whether this number may have a job unfinished.
            await peer.expect(hello(101));
            peer.send(welcome(0));
            await peer.end();
        }, async (peer) => {
            await peer.expect(hello(101));
            peer.send(welcome(0));
            await peer.expect(frames.out(1, ['b', 1]));
            peer.send(stored(1, 4));
            await peer.end();
        });
        const pool = new Pool([fake.port], { client: range(100, 102), size: 2 });
        await fails(pool.take(['a', INT], { signal: abort.signal }), Aborted);
        // One that has nothing pending puts; the one that may have taken it takes.
        assert.equal((await pool.out(['b', 1])).id, 4);
        assert.deepEqual([await pool.take(['a', INT]), pool.size], [['a', 8], 2]);
        assert.deepEqual(await pool.take(['c']), ['c']);
        pool.close();
        await fake.end();
    });

    play('takes of which answers were late go to the next take', async (scene) => {
        const stop = new AbortController();
        const fake = await scene.fake(async (peer) => {
            await peer.expect(hello(100));
            peer.send(welcome(0));
            await peer.expect(frames.ask(1, true, ['a', INT]), frames.ask(2, true, ['a', INT]), PROBE);
            peer.send(offer(1, 3, ['a', 8]), offer(2, 4, ['a', 9]));
            await peer.expect(frames.accept(1, 1, 3), frames.accept(2, 2, 4));
            peer.send(taken(1, 3, ['a', 8]));
            await sleep(200);
            stop.abort();
            await sleep(200);
            peer.send(taken(2, 4, ['a', 9]));
            await peer.end();
        });
        const pool = new Pool([fake.port], { client: range(100, 101), size: 1 });
        scene.spaces.push(pool);
        await fails(pool.takeMany(['a', INT], { count: 2, signal: stop.signal }), Aborted, { taken: [['a', 8]], pending: 'takeMany' });
        assert.deepEqual(await pool.take(['a', INT]), ['a', 9]);
        pool.close();
        await fake.end();
    });

    play('a pool that is closed warns of what it took', async (scene) => {
        const abort = new AbortController();
        let isAccepted = () => {};
        const accepted = new Promise((resolve) => { isAccepted = resolve; });
        const fake = await scene.fake(async (peer) => {
            await peer.expect(hello(140));
            peer.send(welcome(0));
            await peer.expect(frames.ask(1, true, ['warned', INT]));
            peer.send(offer(1, 3, ['warned', 8]));
            await peer.expect(frames.accept(1, 1, 3));
            abort.abort();
            await sleep(30);
            peer.send(taken(1, 3, ['warned', 8]));
            await peer.expect(frames.out(2, ['b']));
            peer.send(stored(2, 4));
            await peer.expect(frames.ask(2, true, ['c']));
            peer.send(offer(2, 5, ['c']));
            await peer.expect(frames.accept(3, 2, 5));
            isAccepted();
            await peer.end();
        });
        const heard = [warnings(scene, 'warned'), warnings(scene, 'client 140')];
        const pool = new Pool([fake.port], { client: range(140, 141), size: 1 });
        await fails(pool.take(['warned', INT], { signal: abort.signal }), Aborted);
        await pool.out(['b']);
        const taking = fails(pool.take(['c']), Closed);
        await accepted;
        pool.close();
        pool.close();
        await taking;
        await turn();
        await turn();
        assert.deepEqual(heard.map((messages) => messages.length), [1, 1], heard.join());
        assert.match(heard[0][0], /^a pool is closed with a tuple that it took: /);
        assert.match(heard[1][0], /^a pool closes client 140, which has sync pending: /);
        await fake.end();
        // Nothing is said of a call that waits.
        const server = await scene.serve(), other = warnings(scene, 'client 141'), pools = new Pool([server.port], { client: range(141, 143), size: 2 });
        await pools.out(['a']);
        const waiting = fails(pools.take(['never']), Closed);
        await sleep(50);
        pools.close();
        await waiting;
        await turn();
        await turn();
        assert.deepEqual(other, []);
    });

    play('the time of a call counts from its beginning', async (scene) => {
        const server = await scene.serve();
        const pool = new Pool([server.port], { client: range(100, 102), size: 2 });
        scene.spaces.push(pool);
        const unserved = { servers: [], pending: null, message: 'no member of the pool was free in time; nothing was sent for this call' };
        await pool.outMany([['job', 1], ['job', 2], ['job', 3]]);
        const holds = [await pool.hold(['job', INT]), await pool.hold(['job', INT])];
        // All members are lent.
        await failsAfter(200, pool.out(['late'], { timeout: 200 }), TimedOut, unserved);
        const calls = [
            (timeout) => pool.outMany([['late']], { timeout }), (timeout) => pool.take(['job', INT], { timeout }),
            (timeout) => pool.takeMany(['job', INT], { count: 1, timeout }), (timeout) => pool.purge(['job', INT], { timeout }),
            (timeout) => pool.read(['job', INT], { timeout }), (timeout) => pool.look(['job', INT], { timeout }),
            (timeout) => pool.choose([In('job', INT)], { timeout }), (timeout) => pool.hold(['job', INT], { timeout }),
            (timeout) => pool.holding(['job', INT], { timeout }, () => assert.fail()),
        ];
        await Promise.all(calls.map((call) => fails(call(100), TimedOut, unserved)));
        for (const call of calls) await fails(call(0), TimedOut, unserved);
        for (const wrong of [-1, '5', NaN]) await fails(pool.out(['late'], { timeout: wrong }), OutOfRange);
        // What is left of its time is the call's on its member.
        const { choose } = Space.prototype, hour = 3_600_000;
        const left = new Promise((resolve) => {
            Space.prototype.choose = function seen(branches, limits) {
                if (branches[0]?.template?.[0] === 'counted') resolve(limits.timeout);
                return choose.call(this, branches, limits);
            };
        });
        scene.closed.push(() => { Space.prototype.choose = choose; });
        const abort = new AbortController();
        const waiting = fails(pool.choose([In('counted')], { timeout: hour, signal: abort.signal }), Aborted);
        // (after it began and before it has a member, however late each line comes)
        const begin = performance.now();
        await sleep(100);
        const waited = performance.now() - begin;
        holds[0].release();
        const time = await left;
        assert.ok(time > 0 && time <= hour - waited + 1, `${time} ms after ${waited} ms`);
        abort.abort();
        await waiting;
        assert.deepEqual(await pool.take(['job', INT], { timeout: 0 }), ['job', 1]);
        holds[1].release();
        assert.equal(await pool.look(['late']), null);
        // Each block has a member, and puts by another one: none is free.
        const blocks = range(2, 4).map((item) => pool.holding(['job', item], {}, () => pool.out(['done', item], { timeout: 200 })));
        // (once the first has failed its member is free, so that the other one may wait for its server)
        const faults = (await Promise.allSettled(blocks)).filter(({ status }) => status === 'rejected').map(({ reason }) => reason);
        assert.ok(faults.some((fault) => fault instanceof TimedOut && fault.message === unserved.message), faults.map(String).join());
        assert.equal(await pool.purge(['job', INT]), 2);
    });

    play('calls fail at once, not one after another, while a server does not answer', async (scene) => {
        const server = await scene.serve(), patience = 2_000;
        // How often a member was gone on with, or made: for a call each, if they fail one after another.
        let sent = 0;
        const connect = (port) => {
            const stream = net.connect({ port, host: '127.0.0.1', noDelay: true }), { write } = stream;
            stream.write = (...words) => { sent += 1; return write.apply(stream, words); };
            return stream;
        };
        const pool = new Pool([server.port], { client: range(100, 102), size: 2, patience, connect });
        scene.spaces.push(pool);
        await patient(() => Promise.all([pool.out(['a']), pool.out(['a'])]));
        const abort = new AbortController(), waiting = fails(pool.take(['none'], { signal: abort.signal }), Aborted);
        await patient(() => pool.out(['a']));
        assert.equal(pool.size, 2);
        await server.stop();
        await fails(pool.out(['b'], { timeout: 50 }), TimedOut, { pending: 'out' });
        // One member is lent, and the other one cannot be finished: a call ends at its time.
        await Promise.all(range(0, 5).map(() => fails(pool.out(['c'], { timeout: 300 }), TimedOut, { servers: [], pending: null })));
        abort.abort();
        await waiting;
        await fails(pool.out(['b'], { timeout: 50 }), TimedOut);
        // All members have something pending: calls without a time fail after a patience or two, all of them.
        sent = 0;
        await Promise.all(range(0, 40).map(() => fails(pool.out(['c']), SpaceError, { pending: null })));
        assert.ok(sent <= 20, `${sent} times`);
        // So do those of a pool that cannot make its first member.
        const other = new Pool([server.port], { client: range(110, 120), patience, connect });
        scene.spaces.push(other);
        sent = 0;
        const calls = range(0, 40).map((place) => (place % 2 === 0
            ? fails(other.out(['c']), NoConnection, { pending: null }) : fails(other.out(['c'], { timeout: 100 }), SpaceError, { pending: null })));
        for (const fault of await Promise.all(calls)) {
            assert.ok(fault instanceof NoConnection || fault instanceof TimedOut && fault.servers.length === 0, fault.stack);
            assert.match(fault.message, /; nothing was sent for this call$/);
        }
        assert.ok(sent <= 10, `${sent} times`);
        server.goOn();
        assert.equal((await patient(() => other.out(['d']))).server, 0);
        assert.equal(await patient(() => pool.purge(['c'])), 0);
    });

    play('calls that were never sent say so', async (scene) => {
        const server = await scene.serve(), pool = new Pool([server.port], { client: 100 });
        scene.spaces.push(pool);
        await pool.out(['a']);
        await server.stop();
        const sent = await fails(pool.out(['b'], { timeout: 50 }), TimedOut, { pending: 'out', servers: [0] });
        assert.doesNotMatch(sent.message, /nothing was sent/);
        const { message } = await fails(pool.out(['c'], { timeout: 50 }), SpaceError, { pending: null });
        assert.match(message, /; nothing was sent for this call$/);
        await server.kill();
        const other = new Pool([server.port], { client: 101 });
        scene.spaces.push(other);
        const away = `server 0: no connection to port ${server.port}: refused; nothing was sent for this call`;
        await fails(other.out(['c']), NoConnection, { pending: null, message: away });
        scene.servers.push(await Server.start(server.folder, server.port));
        assert.deepEqual([await patient(() => pool.take(['b'], { timeout: LONG })), await pool.look(['c'])], [['b'], null]);
    });

    play('a call whose time is over ends, however late its timer is', async (scene) => {
        const server = await scene.serve();
        const text = `import { Pool, range } from 'linda-space';
            const pool = new Pool([${server.port}], { client: range(100, 102), size: 2, patience: 60_000 });
            await Promise.all([pool.out(['a']), pool.out(['a'])]);
            pool.take(['none']).catch(() => {});
            await pool.out(['a']);
            console.log('ready');
            process.kill(process.pid, 'SIGSTOP');
            const pending = await pool.out(['b'], { timeout: 50 }).catch((fault) => fault.pending);
            // The timer of the call is later than that of the member that is finished for it.
            const { setTimeout } = globalThis;
            globalThis.setTimeout = (call, time, ...more) => setTimeout(call, time > 1_500 && time <= 2_000 ? time + 500 : time, ...more);
            console.log(pending, await pool.out(['c'], { timeout: 300 }).catch((fault) => fault.code));
            process.exit();`;
        const program = new Program(scene, text, [], { stdio: ['ignore', 'pipe', 'ignore'] });
        await program.until('ready');
        await server.kill();
        const going = setInterval(() => program.child.kill('SIGCONT'), 50);
        await program.until('out TimedOut');
        clearInterval(going);
    });

    play('calls that wait and are aborted', async (scene) => {
        const server = await scene.serve(), pool = new Pool([server.port], { client: 100 }), one = await scene.space(server);
        scene.spaces.push(pool);
        for (const callee of [pool, one]) {
            const stop = new AbortController(), first = fails(callee.take(['none'], { signal: stop.signal }), Aborted);
            await sleep(50);
            const before = callee.out(['before']), aborts = range(0, 2_000).map(() => new AbortController());
            const waiting = aborts.map(({ signal }) => callee.out(['never'], { signal }).catch((fault) => fault.code));
            const after = callee.out(['after']);
            for (const [place, abort] of aborts.entries()) if (place % 2 === 0) abort.abort();
            for (const abort of aborts.reverse()) abort.abort();
            assert.deepEqual(new Set(await Promise.all(waiting)), new Set(['Aborted']));
            stop.abort();
            await first;
            const ids = [await before, await after].map(({ id }) => id);
            assert.ok(ids[0] < ids[1], 'first in, first out');
            assert.equal(await callee.look(['never']), null);
        }
    });

    play('kills under a pool', async (scene) => {
        let server = await scene.serve();
        const pool = new Pool([server.port], { client: range(100, 108), size: 8, patience: LONG });
        scene.spaces.push(pool);
        const jobs = range(0, 400);
        await pool.look(['n', INT]);
        const putting = Promise.all(jobs.map((item) => pool.out(['n', item])));
        for (let times = 0; times < 3; times += 1) {
            await sleep(30);
            server = await scene.restart(server);
        }
        await putting;
        const found = await Promise.all(jobs.map(() => pool.take(['n', INT])));
        assert.deepEqual(found.map(([, item]) => item).sort((a, b) => a - b), jobs);
    });
});

// ---- client numbers

beside('client numbers', () => {
    play('ports as texts', async (scene) => {
        const { port } = await scene.serve();
        for (const [place, text] of [`localhost:${port}`, `127.0.0.1:${port}`].entries()) {
            const one = await Space.connect([text], { client: place });
            assert.equal((await one.out(['a'])).id, place + 1);
            one.close();
        }
        for (const wrong of ['localhost', 'localhost:', 'localhost:0', 'localhost:65536', `localhost:${port}x`, `0.0.0.0:${port}`, `:${port}`]) {
            await fails(Space.connect([wrong], { client: 7 }), OutOfRange);
        }
    });

    play('one that may have a job unfinished is first', async (scene) => {
        const left = await scene.serve('left'), right = await scene.serve('right'), both = [left, right];
        const use = async (client, call) => {
            const one = await scene.space(both, client);
            await call(one);
            one.close();
            await scene.space(both, client).then((again) => again.close());      // (the servers have seen its end)
        };
        await use(9, (one) => one.outMany([['job', 1], ['job', 2]]));
        await use(100, (one) => one.leave());
        await use(101, (one) => one.out(['a']));
        await use(102, (one) => one.out(['a']));
        await use(103, (one) => one.take(['job', 1]));
        const found = async (numbers, more) => {
            const one = await scene.space(both, numbers, more);
            one.close();
            await scene.space(both, one.client).then((again) => again.close());
            return one.client;
        };
        assert.equal(await found(range(100, 120)), 103);
        // Also behind numbers that were never used.
        assert.equal(await found([101, 110, 103]), 103);
        assert.equal(await found([110, 103]), 103);
        assert.equal(await found([110, 101, 102]), 110);
        assert.equal(await found([100, 102, 103], { fresh: false }), 103);
        assert.equal(await found(range(100, 120), { fresh: true }), 104);
        const one = await scene.space(both, 103);
        assert.deepEqual((await one.lastReply(0) ?? await one.lastReply(1)).tuple, ['job', 1]);
        // Work that ends in order leaves no such number.
        await use(105, async (worker) => assert.equal(await worker.work(['job', INT], () => {}, { timeout: 0 }), 1));
        assert.equal(await found([101, 105]), 101);
    });

    play('a file of numbers', async (scene) => {
        const server = await scene.serve(), { port } = server;
        const file = path.join(scene.folder, 'state', 'some', 'numbers');
        const lines = () => readFileSync(file, 'utf8').split('\n');
        const connect = async (more) => {
            const one = await Space.connect([port], { numbers: file, ...more });
            scene.spaces.push(one);
            return one;
        };
        const seen = async (one) => { one.close(); await scene.space(server, one.client).then((again) => again.close()); };
        const one = await connect();
        assert.ok(one.client >= 2 ** 31 && one.client < 2 ** 32);
        assert.deepEqual(lines(), [`${one.client}`, '']);
        const two = await connect();
        assert.notEqual(two.client, one.client);
        assert.deepEqual(lines(), [`${one.client}`, `${two.client}`, '']);
        await one.out(['job', 1]);
        await seen(one);
        assert.equal((await connect()).client, one.client);
        await two.take(['job', INT]);
        await Promise.all(scene.spaces.map(seen));
        // All are looked at, for one that may have a job unfinished.
        const again = await connect();
        assert.equal(again.client, two.client);
        await seen(again);
        writeFileSync(file, `777\n${one.client}\n${two.client}\n`);
        assert.equal((await connect()).client, two.client);
        writeFileSync(file, `${one.client}\n${two.client}\n`);
        const third = await connect({ fresh: true });
        assert.equal((await third.out(['x'])).id, 2);
        assert.deepEqual(lines(), [`${one.client}`, `${two.client}`, `${third.client}`, '']);
        writeFileSync(file, `x\n-1\n4294967296\n${third.client}\n 55 \n`);
        assert.equal((await connect()).client, 55);
        writeFileSync(path.join(scene.folder, 'plain'), '');
        for (const wrong of [path.join(scene.folder, 'plain', 'numbers'), scene.folder, '/proc/none/numbers']) {
            const fault = await fails(Space.connect([port], { numbers: wrong }), NoNumber, { code: 'NoNumber' });
            assert.ok(fault.message.includes(wrong) && /ENOTDIR|EISDIR|ENOENT|EACCES/.test(fault.message), fault.message);
        }
        for (const wrong of ['', 5, null, 'a\0']) await fails(Space.connect([port], { numbers: wrong }), OutOfRange);
        await fails(Space.connect([port], { numbers: file, client: 7 }), OutOfRange);
    });

    play('a file of numbers that was cut', async (scene) => {
        const server = await scene.serve(), { port } = server;
        const file = path.join(scene.folder, 'numbers'), lines = () => readFileSync(file, 'utf8').split('\n');
        const heard = warnings(scene, file);
        const connect = async () => {
            const one = await Space.connect([port], { numbers: file });
            scene.spaces.push(one);
            return one.client;
        };
        writeFileSync(file, '78\n4242');
        assert.equal(await connect(), 78);
        assert.deepEqual(lines(), ['78', '4242']);
        const second = await connect();
        assert.deepEqual(lines(), ['78', '4242x', `${second}`, '']);
        writeFileSync(file, '4243');
        const third = await connect();
        assert.deepEqual(lines(), ['4243x', `${third}`, '']);
        await turn();
        assert.equal(heard.length, 3);
        assert.ok(heard.every((message) => /: 424[23]$/.test(message)), heard.join());
        writeFileSync(file, '42x\n90\nx\n91\n');                         // two programs have ended it at once
        assert.equal(await connect(), 90);
        // A write that is cut is an error, and what is left of it no number.
        const { constructor: { prototype } } = await open(scene.folder).then(async (handle) => { await handle.close(); return handle; });
        const { write } = prototype;
        prototype.write = function some(data, ...more) {
            return write.call(this, readlinkSync(`/proc/self/fd/${this.fd}`) === file ? data.subarray(0, 3) : data, ...more);
        };
        scene.closed.push(() => { prototype.write = write; });
        rmSync(file);
        await fails(connect(), NoNumber, { code: 'NoNumber' });
        prototype.write = write;
        const [part] = lines(), last = await connect();
        assert.deepEqual([part.length, lines()], [3, [`${part}x`, `${last}`, '']]);
    });

    const skip = process.platform === 'linux' ? false : 'there are no such sockets';
    test('a number stays with its space while its server is away', { skip: skip || isLeftOut('a number stays with its space while its server is away'), timeout: LIMIT }, async (context) => {
        const scene = new Scene(context), ports = [];
        let left = await scene.serve('left'), right = await scene.serve('right');
        ports.push(left.port, right.port);
        const file = path.join(scene.folder, 'some', 'numbers');
        const connect = async (more) => {
            const one = await Space.connect(ports, more);
            scene.spaces.push(one);
            return one;
        };
        for (const more of [{ numbers: file }, { client: range(100, 103) }]) {
            const one = await connect(more);
            await one.outMany([['a'], ['a']]);
            left = await scene.restart(left);
            right = await scene.restart(right);
            const two = await connect(more);
            assert.notEqual(two.client, one.client);
            assert.deepEqual((await two.outMany([['b'], ['b']])).map(({ server }) => server).sort(), [0, 1]);
            await one.outMany([['c'], ['c']]);
            assert.equal(await one.purge(['c']), 2);
            // Once it is closed the number is free again, in this program too, when the servers have seen it.
            one.close();
            for (let next = await connect(more); next.client !== one.client; next = await connect(more)) {
                next.close();
                await sleep(20);
            }
        }
        const only = await connect({ client: [200] });
        left = await scene.restart(left);
        await fails(connect({ client: [200] }), NoNumber);
        only.close();
        // The names are those of the library for Python.
        const sum = (text) => createHash('sha256').update(text).digest('hex').slice(0, 32);
        const bind = (text, number) => new Promise((resolve, reject) => {
            const listener = net.createServer().once('listening', resolve).once('error', reject);
            scene.closed.push(() => listener.close());
            listener.listen({ path: `\0linda_space/${sum(text)}/${number}`.padEnd(108, '\0'), exclusive: true });
        });
        await bind(`ports ${[...ports].sort((one, other) => one - other).join(' ')}`, 300);
        assert.equal((await connect({ client: [300, 301] })).client, 301);
        ports.reverse();                        // whatever order a program names them in
        assert.equal((await connect({ client: [300, 302] })).client, 302);
        assert.equal(keyOfPorts([10_000, 7000]), sum('ports 7000 10000'));
        mkdirSync(path.join(scene.folder, 'real'));
        symlinkSync(path.join(scene.folder, 'real'), path.join(scene.folder, 'link'));
        const real = path.join(realpathSync(scene.folder), 'real', 'numbers');
        writeFileSync(real, '400\n401\n');
        const keys = [real, path.relative('.', real), path.join(scene.folder, 'link', 'numbers')].map((one) => keyOfPorts([one, 7000]));
        assert.deepEqual(keys, new Array(3).fill(sum(`ports 7000 ${real}`)));
        await bind(real, 400);
        for (const spelled of [real, path.join(scene.folder, 'link', 'numbers'), path.join(scene.folder, 'link', '..', 'real', 'numbers')]) {
            writeFileSync(real, readFileSync(real, 'utf8').replace(/40[1-9]/, (number) => `${Number(number) + 1}`));
            const one = await connect({ numbers: spelled });
            assert.ok(one.client > 400 && one.client < 410, `${one.client}`);
        }
    });

    /** The port of a server that answers the first message of each connection with this, and says no more. */
    const answering = async (scene, answer) => {
        const listener = net.createServer((stream) => { stream.once('data', (data) => answer(stream, data)); });
        await new Promise((resolve) => { listener.listen(0, '127.0.0.1', resolve); });
        scene.closed.push(() => listener.close());
        return listener.address().port;
    };

    play('a server that answers the Hello and no more', async (scene) => {
        const streams = [], port = await answering(scene, (stream) => { streams.push(stream.resume()); stream.write(welcome(3)); });
        await failsAfter(1_500, Space.connect([port], { client: range(7, 9), ...SHORT }), NoConnection, { server: 0 });
        assert.equal(streams.length, 1);
    });

    play('a server without a place for a new number', async (scene) => {
        // It knows 101, to which it has answered Stored.
        const port = await answering(scene, (stream, data) => {
            const isKnown = data.equals(frames.hello(101, false));
            stream.on('error', () => {}).on('data', () => stream.write(stored(3, 9)));
            stream.write(isKnown ? welcome(3) : refusal(7, MOST_CLIENTS));
        });
        const one = await Space.connect([port], { client: range(100, 103) });
        scene.spaces.push(one);
        assert.deepEqual([one.client, (await one.lastReply()).kind], [101, 'stored']);
        for (const client of [102, range(102, 104)]) {
            await fails(Space.connect([port], { client }), Refused, { reason: 'TooManyClients', message: 'server 0: refused TooManyClients, detail 65536, '
                + 'it keeps as many client numbers as it can: use one again, of a range or of a file that stays' });
        }
    });

    play('several numbers are greeted once each', async (scene) => {
        const { port } = await scene.serve();
        let greeted = 0;
        const connect = () => { greeted += 1; return net.connect({ port, host: '127.0.0.1', noDelay: true }); };
        const counted = async (client, more = {}) => {
            greeted = 0;
            const one = await Space.connect([port], { client, connect, ...more });
            scene.spaces.push(one);
            return [one.client, greeted];
        };
        assert.deepEqual(await counted(range(100, 120)), [100, 20]);
        assert.deepEqual(await counted(range(200, 220), { fresh: true }), [200, 1]);
    });

    play('a number of a file that a server says is in use still', async (scene) => {
        const { port } = await scene.serve(), file = path.join(scene.folder, 'numbers'), looker = await Peer.connect(port);
        writeFileSync(file, '1000\n1001\n');
        await looker.greet(1001);
        let greeted = 0;
        const connect = () => {
            greeted += 1;
            if (greeted === 3) looker.stream.destroy();
            return net.connect({ port, host: '127.0.0.1', noDelay: true });
        };
        const one = await Space.connect([port], { numbers: file }), two = await Space.connect([port], { numbers: file, connect });
        scene.spaces.push(one, two);
        assert.deepEqual([one.client, two.client, readFileSync(file, 'utf8')], [1000, 1001, '1000\n1001\n']);
        // One that a program of this machine has is not waited for.
        const third = await Space.connect([port], { numbers: file });
        scene.spaces.push(third);
        assert.equal(readFileSync(file, 'utf8'), `1000\n1001\n${third.client}\n`);
    });

    play('a fresh number that was used', async (scene) => {
        // The first connection is lost before its Welcome, and the next Hello is not fresh.
        const first = (peer) => peer.expect(frames.hello(7, true)), second = (last) => (peer) => greets(peer, last);
        const fake = await scene.fake(first, second(3)), other = await scene.fake(first, second(0));
        await fails(scene.space(fake, 7, { fresh: true }), Refused, { reason: 'Known', detail: 3, server: 0 });
        await scene.space(other, 7, { fresh: true });
    });

    play('no new number is to be had', async (scene) => {
        let count = 0;
        const port = await answering(scene, (stream) => { count += 1; stream.end(refusal(2, 1)); });
        await fails(Space.connect([port], { numbers: path.join(scene.folder, 'numbers') }), NoNumber);
        assert.equal(count, 64);
    });

    play('a server that is there twice, and a stream that is none', async () => {
        for (const port of [7000, 'localhost:7000']) await fails(Space.connect([7000, port]), OutOfRange);
        for (const connect of [() => undefined, async () => { throw new Error('not heard'); }]) {
            await fails(Space.connect([7000], { client: 7, connect }), OutOfRange);
        }
    });

    play('no number at all', async (scene) => {
        const { port } = await scene.serve();
        const text = `import { Pool, Space } from 'linda-space';
            const space = await Space.connect([${port}]);
            const pool = new Pool([${port}], { size: 3 });
            await Promise.all([1, 2, 3, 4, 5].map((item) => pool.out(['a', item])));
            console.log(space.client, pool.size); space.close(); pool.close();`;
        const state = path.join(scene.folder, 'state');
        const folders = [[{ LINDA_STATE: state }, state], [{ XDG_STATE_HOME: state, LINDA_STATE: '' }, path.join(state, 'linda')],
            [{ HOME: state, XDG_STATE_HOME: '', LINDA_STATE: '' }, path.join(state, '.local/state/linda')]];
        for (const [env, folder] of folders) {
            const program = new Program(scene, text, [], { env: { ...process.env, ...env } });
            assert.deepEqual(await program.ended, [0, null]);
            const sum = createHash('sha256').update(program.file).digest('hex').slice(0, 12);
            const file = path.join(folder, `${path.parse(program.file).name}-${sum}.numbers`);
            const numbers = readFileSync(file, 'utf8').trim().split('\n');
            const [client, size] = program.said.trim().split(' ');
            assert.equal(numbers[0], client);
            // (a member may have had its number, and not come to its place by then)
            assert.ok(numbers.length > Number(size) && numbers.length <= 4, `${numbers.length} numbers, ${size} members`);
        }
    });
});

// ---- the package

test('the package has all its files', () => {
    const { files, exports } = JSON.parse(readFileSync(path.join(HERE, 'package.json'), 'utf8'));
    assert.deepEqual(files, ['linda_space.mjs', 'lib', 'types']);
    assert.ok(readFileSync(path.join(HERE, exports['.'].default), 'utf8').length > 0);
});

// ---- JSON values as fields

describe('packed values', () => {
    test('come back', () => {
        const values = [null, true, 0, -1.5, '', 'é\u{1f600}"\\\n', '\ud800', [], {}, { a: [1, { b: null }] },
            range(0, 20_000), 'x'.repeat(122_848)];
        for (const value of values) {
            const fields = pack(value);
            assert.deepEqual([fields.length, unpack(fields)], [30, value]);
            assert.ok(fields.every((text) => Buffer.byteLength(text) <= 4_095));
        }
        assert.deepEqual(pack({ a: [1, 'é'] }, 2), ['{"a":[1,"é"]}', '']);
        assert.deepEqual(unpack(['[1', ',2]']), [1, 2]);
    });

    test('have limits', async () => {
        // Each has two quotes more. ASCII fills each field; 'é', of two bytes, leaves one free after 'x' and a quote.
        assert.deepEqual(pack('x'.repeat(8_188), 2).map((text) => text.length), [4_095, 4_095]);
        assert.deepEqual(pack(`x${'é'.repeat(4_093)}`, 2).map((text) => Buffer.byteLength(text)), [4_094, 4_095]);
        assert.equal(Buffer.byteLength(pack('\u{1f600}'.repeat(30_690)).join('')), 122_762);
        const loop = [];
        loop.push(loop);
        const wrong = [['x'.repeat(8_189), 2], ['x'.repeat(122_849)], [`x${'é'.repeat(4_094)}`, 2],
            ['\u{1f600}'.repeat(30_691)], [undefined], [5n], [NaN], [[Infinity]], [loop], [1, 0], [1, 33], [1, -1],
            [1, true], [1, '2']];
        for (const [value, count] of wrong) await fails(async () => pack(value, count), OutOfRange);
        for (const fields of [[1], ['{'], [''], [null]]) await fails(async () => unpack(fields), OutOfRange);
    });

    play('go through a space', async (scene) => {
        const one = await scene.space(await scene.serve());
        const value = { text: 'é'.repeat(50_000), list: range(0, 1_000) };
        await one.out(['doc', 7, ...pack(value)]);
        assert.deepEqual(unpack((await one.take(['doc', 7, ...PACKED])).slice(2)), value);
        await one.out(['note', ...pack([1, 'x'], 1)]);
        assert.deepEqual(unpack((await one.read(['note', TEXT])).slice(1)), [1, 'x']);
    });
});

// ---- all

describe('beside each other', { concurrency: 2 }, () => {
    for (const [name, work] of GROUPS) describe(name, { concurrency: 4 }, work);
});
