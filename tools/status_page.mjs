// Runs the script of the status page without a browser, for tools/status: standard input is one object of JSON, with the `page` and with `answers`,
// each a time in milliseconds and what /status.json says then, or null if nothing answers. It prints, after each answer, what the page shows: a line of
// JSON with the `text` of each element that has one, in order, the `label` of each list with its value, and the places of the points of each chart.

import { readFileSync } from 'node:fs';
import { createContext, runInContext } from 'node:vm';

const { page, answers } = JSON.parse(readFileSync(0, 'utf8'));
const script = page.match(/<script>([\s\S]*)<\/script>/)[1];

class Element {
    constructor(name) {
        Object.assign(this, { name, children: [], attributes: {}, textContent: '', className: '' });
    }

    appendChild(child) {
        this.children.push(child);
        return child;
    }

    replaceChildren() {
        this.children = [];
    }

    setAttribute(name, value) {
        this.attributes[name] = value;
    }

    all() {
        return [this, ...this.children.flatMap((child) => child.all())];
    }
}

const places = Object.fromEntries([...page.matchAll(/ id="([a-z]+)"/g)].map(([, id]) => [id, new Element(id)]));
let at = 0, now = null, turn = null;
const document = { getElementById: (id) => places[id], createElement: (name) => new Element(name), createElementNS: (_, name) => new Element(name), title: '' };
const lists = { '/tags?limit=10': { tags: [], whole: true }, '/longest?limit=10': { waits: [], holds: [] } };

async function fetch(path) {
    if (now === null) throw new Error('no answer');
    const found = path === '/status.json' ? { ...now } : lists[path];
    return { ok: found !== undefined, statusText: path, json: async () => found };
}

function shown() {
    const all = places.charts.all().concat(places.lists.all());
    const labels = all.flatMap((it, place) => it.name === 'dt' && all[place + 1]?.name === 'dd' ? [[it.textContent, all[place + 1].textContent]] : []);
    const points = all.flatMap((it) => it.name === 'path' && !it.attributes.d?.endsWith('Z') ? [it.attributes.d] : []);
    return { state: places.state.textContent, texts: all.map((it) => it.textContent).filter((text) => text !== ''), labels: Object.fromEntries(labels), points };
}

const settled = async () => { for (let step = 0; step < 50; step += 1) await null; };
[at, now] = answers[0];
runInContext(script, createContext({ document, fetch, performance: { now: () => at }, setTimeout: (next) => { turn = next; } }));
for (const [time, answer] of answers) {
    if (time !== answers[0][0]) {
        [at, now] = [time, answer];
        turn();
    }
    await settled();
    console.log(JSON.stringify(shown()));
}
