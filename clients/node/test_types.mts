// What TypeScript has to let pass, and what it has to refuse: tsc says so of each line after an @ts-expect-error without an error.
import {
    ANY, BOOL, Gone, In, INT, NumberInUse, Offer, pack, PACKED, Pool, range, Rd, Refused, Space, SpaceError, TEXT, TRIES, type Tuple, type Value,
} from 'linda-space';

type Same<A, B> = (<T>() => T extends A ? 1 : 2) extends (<T>() => T extends B ? 1 : 2) ? true : false;
const is = <T extends true>(_?: T): void => {};

export async function passes(): Promise<void> {
    const space = await Space.connect([7000, 'localhost:7001', '/run/linda'], { client: range(1, 3), patience: 500 });
    const stored = await space.out(['job', 1, 2n, 'x', true]);
    is<Same<typeof stored.id, number | bigint>>();
    const job = await space.take(['job', INT, TEXT, BOOL, ANY, 5]);
    is<Same<typeof job, readonly ['job', number | bigint, string, boolean, Value, 5]>>();
    const soon = await space.take(['job', INT], { timeout: 10 });
    is<Same<typeof soon, readonly ['job', number | bigint] | null>>();
    const late = await space.read(['job', TEXT], { signal: new AbortController().signal });
    is<Same<typeof late, readonly ['job', string]>>();
    const seen = await space.look(['job', TEXT]);
    is<Same<typeof seen, readonly ['job', string] | null>>();
    const limits: { timeout?: number } = {};
    const unknown = await space.take(['job', TEXT], limits);
    is<Same<typeof unknown, readonly ['job', string] | null>>();
    const many = await space.takeMany(['job', INT], { count: 5 });
    is<Same<typeof many, (readonly ['job', number | bigint])[]>>();
    const count: number = await space.purge(['job', INT]);
    const held = await space.hold(['job', INT], { keep: 500 });
    const n: number | bigint = held.tuple[1], isHeld: boolean = held.isHeld, taken: 'job' = (await held.accept())[0];
    const maybe = await space.hold(['job', TEXT], { timeout: 5 });
    if (maybe !== null) { const text: string = (await maybe.accept())[1]; console.log(text); }
    const length: number = await space.holding(['job', TEXT], {}, async (offer) => offer.tuple[1].length);
    const none: string | undefined = await space.holding(['job', TEXT], { timeout: 5 }, (offer) => offer?.tuple[1]);
    for await (const [tag, text] of space.takes(['job', TEXT], { timeout: 5 })) { const both: string = tag + text; console.log(both); }
    const won = await space.choose([In('a', INT), Rd('b').nack(1)], { timeout: 5 });
    if (won.kind === 'took' || won.kind === 'read') console.log(won.tuple[1], won.server + 1);
    else { const nothing: null = won.tuple; console.log(nothing); }
    const puts = await space.outMany([['a', 1], ['b', 'x', true]]);
    const id: number | bigint | null = puts[0].id;
    const rows: Value[][] = [['a', 1]], row: Tuple = ['a', 1], number: number = 1;
    await space.outMany(rows);
    await space.out(row);
    await space.out(['doc', 7, number, ...pack({}, 3)]);
    const doc: Tuple = await space.take(['doc', 7, ...PACKED]);
    const done: number = await space.work(['job', TRIES, INT], ([, , i]) => ['done', i], {
        tries: 3, delay: 10, limit: 500, grace: 0, stop: Rd('stop'), onerror: console.error,
    });
    await space.work([In('urgent', INT), In('job', INT)], () => null);
    await space.work(In('job', INT), async (tuple) => [['done', 1], ['more', 'x']]);
    const pool = new Pool([7000], { size: 4 });
    const pooled = await pool.take(['job', TEXT]);
    is<Same<typeof pooled, readonly ['job', string]>>();
    const offer: Offer<readonly ['job', string]> | null = await pool.hold(['job', TEXT], { timeout: 5 });
    const text: string = await pool.holding(['job', TEXT], {}, (own) => own.tuple[1]);
    pool.close();
    try { await space.leave(); } catch (fault) {
        if (fault instanceof Gone) console.log(fault.offer.tuple, fault.offers.length, fault.code);
        if (fault instanceof NumberInUse) console.log(fault.last, fault.answered, fault.client);
        if (fault instanceof Refused) console.log(fault.reason, fault.detail);
        if (fault instanceof SpaceError) console.log(fault.pending, fault.code);
    }
    console.log(count, n, isHeld, taken, length, none, id, doc, done, offer, text);
    const other = await Space.connect([7000]);
    other.close();
}

export async function fails(space: Space, pool: Pool): Promise<void> {
    // @ts-expect-error
    await space.out(['job', 1.5]);
    // @ts-expect-error
    await space.out(['job', null]);
    // @ts-expect-error
    await space.out('job');
    // @ts-expect-error
    await space.out(['job', INT]);
    // @ts-expect-error
    await space.out(['job'], { timeuot: 3 });
    // @ts-expect-error
    await space.outMany([['job', 1.5]]);
    // @ts-expect-error
    await space.take(['job', 2.5]);
    // @ts-expect-error
    await space.take(['job', INT], { timeuot: 3 });
    // @ts-expect-error
    await space.take(['job', INT], { timeout: 3, signl: null });
    // @ts-expect-error
    await space.take(['job', INT], { timeout: '3' });
    // @ts-expect-error
    await space.take(['job', {}]);
    // @ts-expect-error
    (await space.take(['job', TEXT], { timeout: 3 }))[1];
    // @ts-expect-error
    (await space.take(['job', INT]))[1] as string;
    // @ts-expect-error
    (await space.take(['job', INT]))[2];
    // @ts-expect-error
    await (await space.hold(['job'], { timeout: 3 })).accept();
    // @ts-expect-error
    await space.hold(['job'], { kep: 3 });
    // @ts-expect-error
    await space.takeMany(['job']);
    // @ts-expect-error
    await space.takeMany(['job'], {});
    // @ts-expect-error
    await space.choose(['job']);
    // @ts-expect-error
    await space.choose([In('a')], { timeuot: 3 });
    // @ts-expect-error
    await space.work(['job', INT], () => [], { tris: 3 });
    // @ts-expect-error
    await Space.connect([7000], { cleint: 3 });
    // @ts-expect-error
    await Space.connect(7000);
    // @ts-expect-error
    await pool.out(['job', 1.5]);
    // @ts-expect-error
    await pool.take(['job', INT], { timeuot: 3 });
    // @ts-expect-error
    new Pool([7000], { sise: 3 });
    // @ts-expect-error
    new Refused();
}
