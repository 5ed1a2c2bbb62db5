// The package with bundlers, module systems and content security policies, as docs/JAVASCRIPT.md describes.
import assert from 'node:assert/strict';
import { execFile } from 'node:child_process';
import { mkdtempSync, readFileSync, writeFileSync } from 'node:fs';
import { dirname, join } from 'node:path';
import { test } from 'node:test';
import { fileURLToPath } from 'node:url';
import { promisify } from 'node:util';
import { gzipSync } from 'node:zlib';
import { Chromium, isThere } from './browsers.mjs';

const RIGHT = 'true false';
const PAGE = '<!doctype html><meta charset="utf-8"><title>page</title><script type="module" src="bundle.js"></script>';
const INLINE_POLICY = "default-src 'none'; script-src 'self' 'wasm-unsafe-eval'; worker-src blob:";
const FILES_POLICY = "default-src 'none'; script-src 'self' 'wasm-unsafe-eval'; connect-src 'self'";
const sources = dirname(fileURLToPath(import.meta.resolve('proved-argon2')));

/** A program that prints two verdicts, with these import lines. It is for Node and pages. */
const programOf = (imports) => `${imports}
async function tell() {
    const encoded = await hash('password', { memoryCost: 256, parallelism: 2 });
    return [await verify(encoded, 'password'), await verify(encoded, 'passwort')].join(' ');
}
tell().catch(String).then((outcome) => {
    if (globalThis.document) {
        document.documentElement.dataset.outcome = outcome;
    } else {
        console.log(outcome);
    }
});
`;

const INLINE = programOf("import { hash, verify } from 'proved-argon2/inline';");
const FILES = programOf("import { hash, verify } from 'proved-argon2';");
const SERVED = programOf("import { hash, verify } from './proved-argon2/index.js';");
const REQUIRED = programOf("const { hash, verify } = require('proved-argon2');");
const ROLLED = INLINE.replace('proved-argon2/inline', join(sources, 'inline.js'));
const WEBPACK = 'webpack ./app.mjs --mode=production --output-path=. --output-filename=bundle';

/** A name, a program, the command that bundles it, and where it runs: a file in Node, or in pages with this policy. */
const MADE = [
    ['esbuild for Node, esm', INLINE, 'esbuild app.mjs --bundle --platform=node --format=esm --outfile=a.mjs', 'a.mjs'],
    ['esbuild for Node, cjs', INLINE, 'esbuild app.mjs --bundle --platform=node --format=cjs --outfile=a.cjs', 'a.cjs'],
    ['esbuild for pages', INLINE, 'esbuild app.mjs --bundle --minify --outfile=bundle.js', INLINE_POLICY],
    ['esbuild for pages: worker and modules as files', FILES, 'esbuild bundle=app.mjs worker=proved-argon2/worker.js '
        + '--bundle --format=esm --outdir=. && cp ../node_modules/proved-argon2/src/*.wasm .', FILES_POLICY],
    ['webpack for Node', INLINE, `${WEBPACK}.cjs --target=node20`, 'bundle.cjs'],
    ['webpack for pages', INLINE, `${WEBPACK}.js --target=web`, INLINE_POLICY],
    ['webpack for pages: worker and modules as files', FILES, `${WEBPACK}.js --target=web`, FILES_POLICY],
    ['rollup for Node', ROLLED, 'rollup app.mjs --format=es --file=a.mjs', 'a.mjs'],
    ['rollup for pages', ROLLED, 'rollup app.mjs --format=es --file=bundle.js', INLINE_POLICY],
    ['pages without a bundler', SERVED, 'cp app.mjs bundle.js', FILES_POLICY],
    ['CommonJS', REQUIRED, 'cp app.mjs app.cjs', 'app.cjs'],
];

/** A folder of the site with a program in it. */
function folderWith(program, name = 'app.mjs') {
    const folder = mkdtempSync(join(import.meta.dirname, 'app-'));
    writeFileSync(join(folder, name), program);
    return folder;
}

// Debian's programs then find what they need, even in a Node that is not Debian's.
const NODE_OPTIONS = `--require=${join(import.meta.dirname, 'debian.cjs')}`;
const env = { ...process.env, NODE_PATH: '/usr/share/nodejs', NODE_OPTIONS };
const run = (folder, command, ...words) => promisify(execFile)(command, words, { cwd: folder, env });

/** Checks the output of a folder's page, whose program is bundle.js. */
async function runsInPage(folder, policy, isIsolated) {
    writeFileSync(join(folder, 'index.html'), PAGE);
    const browser = await new Chromium().open(folder, { isIsolated, policy });
    try {
        await browser.until('document.documentElement.dataset.outcome !== undefined');
        assert.equal(await browser.evaluate('document.documentElement.dataset.outcome'), RIGHT);
    } finally {
        await browser.close();
    }
}

/** Returns the reason to skip a test if a program that it needs is missing. */
function lacks(...programs) {
    const lacking = programs.find((program) => !isThere(program));
    return lacking === undefined ? false : `there is no ${lacking}`;
}

for (const [what, program, command, where] of MADE) {
    const isPage = where.includes('script-src');
    test(what, { skip: lacks(command.split(' ')[0], ...(isPage ? ['chromium'] : [])) }, async () => {
        const folder = folderWith(program);
        await run(folder, 'sh', '-c', command);
        if (isPage) {
            await runsInPage(folder, where, false);
            await runsInPage(folder, where, true);
        } else {
            assert.equal((await run(folder, process.execPath, where)).stdout.trim(), RIGHT);
        }
    });
}

test('the files are as large as the page says', () => {
    const page = readFileSync(join(process.env.PAGE, '../JAVASCRIPT.md'), 'utf8').replace(/\s+/g, ' ');
    const [, ...stated] = page.match(/This file, of (\d+) KB \((\d+) KB gzipped\).* module only, of (\d+) KB by gzip/);
    const [single, module] = ['inline.js', 'proved_argon2.wasm'].map((name) => readFileSync(join(sources, name)));
    const sizes = [single, gzipSync(single), gzipSync(module)].map((bytes) => bytes.length / 1000);
    for (const [i, size] of sizes.entries()) {
        assert.ok(Math.abs(size - stated[i]) < 1 + size / 50, `${size} KB, and ${stated[i]} are told`);
    }
});

test('jest runs a test that uses the package, and ends', { skip: lacks('jest') }, async () => {
    const folder = folderWith(`const { hash, verify } = require('proved-argon2');
test('a hash', async () => {
    expect(await verify(await hash('password', { memoryCost: 256, parallelism: 2 }), 'password')).toBe(true);
});
`, 'app.test.js');
    writeFileSync(join(folder, 'package.json'), '{}');
    const { stderr } = await run(folder, 'jest', '--rootDir=.');
    assert.match(stderr, /^Tests: +1 passed, 1 total$/m);
});

test('a call under a policy that allows no worker is WorkerRefused', { skip: lacks('chromium') }, async () => {
    const folder = folderWith(SERVED, 'bundle.js');
    const policy = `${FILES_POLICY}; worker-src 'none'`;
    const outcome = await runsInPage(folder, policy, false).catch((error) => error.actual);
    assert.match(outcome, /^WorkerRefused: A worker was refused: \w.*$/);
});
