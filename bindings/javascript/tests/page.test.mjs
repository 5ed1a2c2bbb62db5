// docs/demo in a browser, as a visitor uses it, and the package in that page, isolated from other origins and not.
import assert from 'node:assert/strict';
import { after, before, describe, test } from 'node:test';
import { setTimeout as sleep } from 'node:timers/promises';
import * as argon2 from 'proved-argon2';
import * as browsers from './browsers.mjs';
import { hashesOf } from './hashes.mjs';

const { BROWSER, PAGE, VECTORS } = process.env;
const { BrowserEnded, [BROWSER]: Browser } = browsers;
const WORKERS = 8;
const MIB = 2 ** 20;
const CALLS = 300;
const AT_ONCE = 10;
/** In KiB. The larger one is as much as a worker's memory may take. */
const MEMORIES = [4096, 16384];
/** A browser may grow by its workers' code and heaps. */
const BESIDES = 64 * MIB;
/** Workers end after 5 seconds without work. */
const IDLE = { tries: 40, pause: 500 };
/** The page's widths on a screen, and on a phone. */
const WIDTHS = [1040, 390];

const MEASURED = `document.getElementById('estimate').textContent.startsWith('A hash takes')`;

/** Finds the texts that do not fit into their places. */
const TOO_WIDE = `[...document.querySelectorAll('form, p')]
    .filter((element) => element.scrollWidth > element.clientWidth).map((element) => element.textContent)`;

const literal = (value) => JSON.stringify(value);
const of = (form, part) => `document.querySelector('#${form} ${part}')`;

/** Sets what a visitor would type or drag. */
const set = (browser, id, value) => browser.evaluate(`(() => {
    const element = document.getElementById(${literal(id)});
    element.value = ${literal(value)};
    element.dispatchEvent(new Event('input'));
})()`);

const press = (browser, form, part) => browser.evaluate(`${of(form, part)}.click()`);
const textOf = (browser, form) => browser.evaluate(`${of(form, '[role=status]')}.textContent`);

async function statusOf(browser, form) {
    await browser.until(`!${of(form, '[type=submit]')}.disabled`);
    return textOf(browser, form);
}

async function submit(browser, form) {
    await press(browser, form, '[type=submit]');
    return statusOf(browser, form);
}

/** Imports the package into a page with this many processors. */
const IMPORTED = `
    Object.defineProperty(navigator, 'hardwareConcurrency', { value: ${WORKERS}, configurable: true });
    const argon2 = await import('/proved-argon2/index.js');`;

/** Calls of one and four lanes and two sizes, one after another. */
const mixedCalls = (from, to) => `${IMPORTED}
    for (let call = ${from}; call < ${to}; call++) {
        const memoryCost = ${literal(MEMORIES)}[(call >> 1) % 2];
        await argon2.hash('password', { memoryCost, timeCost: 1, parallelism: call % 2 === 0 ? 1 : 4 });
    }
    return true;`;

/** Hashes, computed in the page. */
const computedInPage = (hashes) => `${IMPORTED}
    const bytes = ({ data }) => Uint8Array.from(data);
    const hex = (tag) => [...tag].map((byte) => byte.toString(16).padStart(2, '0')).join('');
    const wrong = [];
    for (const { line, settings, salt, inputs, expected } of ${literal(hashes)}) {
        const [password, secret, associatedData] = Object.values(inputs).map(bytes);
        const others = { salt: bytes(salt), secret, associatedData, raw: true };
        const tag = await argon2.hash(password, { ...settings, ...others })
            .then(hex, (error) => 'ERR ' + error.message);
        if (tag !== expected) wrong.push([line, tag]);
    }
    return { wrong, isIsolated: crossOriginIsolated };`;

const REFUSED_IN_PAGE = `
    const argon2 = await import('/proved-argon2/index.js');
    const names = [];
    const tried = [
        () => argon2.hash('password', { memoryCost: 4294967295 }),
        () => argon2.hash('password', { memoryCost: 4294967295, parallelism: 4 }),
        () => argon2.hash('password', { memoryCost: 4294967295, worker: false }),
        () => argon2.hash('password', { timeCost: 0 }),
        () => argon2.verify('$argon2id$v=19$m=4294967295,t=1,p=1$c29tZXNhbHQ$nf65EOgLrQM', 'password'),
        () => argon2.hash('password', { signal: AbortSignal.abort() }),
    ];
    const line = new argon2.Line({ memoryCost: 1024, waiting: 0 });
    const busy = Array.from({ length: line.concurrency + 1 }, () => argon2.hash('password', { line }));
    tried.push(() => Promise.resolve(line.concurrency === navigator.hardwareConcurrency), () => Promise.all(busy));
    for (const call of tried) names.push(await call().then(String, (error) => error.name));
    return names;`;

/** A page in a browser, which is started anew, once, if it ends by itself. */
class Page {
    #restarts = 1;

    constructor(isIsolated) {
        this.isIsolated = isIsolated;
    }

    async open() {
        this.browser = await new Browser().open(PAGE, { isIsolated: this.isIsolated });
        await this.browser.until(MEASURED);
    }

    async run(call, context) {
        try {
            await call(this.browser, this.isIsolated);
        } catch (error) {
            if (!(error instanceof BrowserEnded) || this.#restarts === 0) {
                throw error;
            }
            this.#restarts -= 1;
            context.diagnostic(error.message);
            await this.browser.close();
            await this.open();
            await call(this.browser, this.isIsolated);
        }
    }
}

async function takesLittleMemory(browser) {
    const start = browser.memoryInUse();
    let most = 0;
    for (let call = 0; call < CALLS; call += AT_ONCE) {
        await browser.resultOf(mixedCalls(call, call + AT_ONCE));
        most = Math.max(most, browser.memoryInUse() - start);
    }
    const limit = WORKERS * MEMORIES[1] * 1024 + BESIDES;
    assert.ok(most <= limit, `${most / MIB} MiB above the start, and ${limit / MIB} MiB is the limit`);
    for (let tries = IDLE.tries; tries > 0 && browser.memoryInUse() - start > BESIDES; tries--) {
        await sleep(IDLE.pause);
    }
    assert.ok(browser.memoryInUse() - start <= BESIDES, `${(browser.memoryInUse() - start) / MIB} MiB stay`);
}

async function outsideHashes(browser, isIsolated) {
    const hashes = hashesOf(`${VECTORS}/raw.txt`, 240);
    assert.deepEqual(await browser.resultOf(computedInPage(hashes)), { wrong: [], isIsolated });
}

async function namedErrors(browser) {
    assert.deepEqual(await browser.resultOf(REFUSED_IN_PAGE),
        [...Array(3).fill('OutOfMemory'), 'TimeTooSmall', 'TooCostly', 'AbortError', 'true', 'BusyError']);
}

async function visitorHashes(browser) {
    await set(browser, 'password', 'pässwörd');
    await set(browser, 'memory', '12');
    await set(browser, 'lanes', '3');
    assert.match(await submit(browser, 'hashing'), /^Hashed in /);
    const encoded = await browser.evaluate(`document.getElementById('encoded').value`);
    assert.match(encoded, /^\$argon2id\$v=19\$m=4096,t=2,p=3\$/);
    assert.equal(await argon2.verify(encoded, 'pässwörd'), true);
    assert.equal(await browser.evaluate(`${of('hashing', 'progress')}.value`), 1);
    assert.equal(await browser.evaluate(`document.getElementById('made').value`), encoded);
    assert.match(await submit(browser, 'verifying'), /^The password is right /);
    await set(browser, 'guess', 'password');
    assert.match(await submit(browser, 'verifying'), /^The password is wrong /);
    await set(browser, 'encoded', encoded.slice(1));
    assert.match(await submit(browser, 'verifying'), /^This is no encoded hash of Argon2/);
    await set(browser, 'encoded', encoded.replace('m=4096', 'm=4294967295'));
    assert.match(await submit(browser, 'verifying'), /^This encoded hash is above a limit of the page: /);
    await set(browser, 'passes', argon2.defaultLimits.timeCost + 1);
    assert.match(await submit(browser, 'hashing'), /^Hashed in .* It is above the limits for verifying\.$/);
    assert.match(await submit(browser, 'verifying'), /: 2 GiB, 10 passes, 16 lanes, 4 GiB filled in all passes/);
    await set(browser, 'encoded', ' ');
    assert.equal(await submit(browser, 'verifying'), 'Enter an encoded hash first.');
}

async function isHeard(browser) {
    await set(browser, 'memory', '14');
    await set(browser, 'passes', '1');
    const shown = await browser.evaluate(`[...document.querySelectorAll('[type=range]')].map((element) =>
        element.getAttribute('aria-valuetext')).join()`);
    assert.equal(shown, '16 MiB,1 pass,3 lanes');
    const named = await browser.evaluate(`[...document.querySelectorAll('input, textarea, select, progress')].map(
        (element) => element.labels?.[0]?.firstChild.textContent.trim() || element.getAttribute('aria-label'))
        .join('; ')`);
    assert.equal(named.split('; ').filter(Boolean).length, 10, named);
    assert.equal(new Set(named.split('; ')).size, 10, named);
    await browser.evaluate(`document.getElementById('copy').click()`);
    await browser.until(`document.getElementById('copied').textContent !== ''`);
    assert.match(await browser.evaluate(`document.getElementById('copied').textContent`), /^(Copied|Selected)\./);
}

async function visitorCancels(browser) {
    await set(browser, 'memory', '17');
    await set(browser, 'passes', '20');
    await press(browser, 'hashing', '[type=submit]');
    await browser.until(`${of('hashing', 'progress')}.value > 0`);
    await set(browser, 'passes', '1');
    assert.equal(await browser.evaluate(`document.getElementById('passes-shown').value`), '1 pass');
    await browser.evaluate(`${of('hashing', '.cancel')}.focus()`);
    await press(browser, 'hashing', '.cancel');
    assert.match(await textOf(browser, 'hashing'), /^(Stopping|Cancelled)/);
    assert.equal(await statusOf(browser, 'hashing'), 'Cancelled. The memory is overwritten.');
    assert.equal(await browser.evaluate(`document.activeElement === ${of('hashing', '[type=submit]')}`), true);
    assert.equal(await browser.evaluate(`${of('hashing', '[role=status]')}.className`), 'quiet');
    await set(browser, 'memory', '10');
    assert.match(await submit(browser, 'hashing'), /^Hashed in /);
}

async function fits(browser) {
    await set(browser, 'memory', '14');
    await submit(browser, 'hashing');
    await set(browser, 'encoded', '$argon2id$');
    await submit(browser, 'verifying');
    for (const width of WIDTHS) {
        await browser.evaluate(`frame.width = ${width}`);
        assert.deepEqual(await browser.evaluate(TOO_WIDE), [], `${width} pixels`);
    }
}

/** Each test of a page: what is expected, and the function that tries it. */
const TESTS = [
    ['300 calls of several kinds take at most one memory a worker, and an idle browser takes none', takesLittleMemory],
    ['the outside hashes', outsideHashes],
    ['errors have their names', namedErrors],
    ['a visitor hashes and verifies', visitorHashes],
    ['assistive technology gets what is shown', isHeard],
    ['a visitor cancels, and the page responds meanwhile', visitorCancels],
    ['the page fits on a screen and on a phone', fits],
];

test('when a browser ends, what waits for it fails', async () => {
    const browser = await new Browser().open(PAGE);
    const waiting = browser.evaluate('new Promise(() => {})');
    setTimeout(() => browser.kill(), 200);
    await assert.rejects(waiting, BrowserEnded);
    await assert.rejects(browser.evaluate('1'), BrowserEnded);
    await browser.close();
});

for (const isIsolated of [true, false]) {
    describe(BROWSER, () => {
        const page = new Page(isIsolated);
        before(() => page.open());
        after(() => page.browser.close());
        for (const [what, call] of TESTS) {
            test(`${isIsolated ? 'isolated' : 'not isolated'}: ${what}`, (context) => page.run(call, context));
        }
    });
}
