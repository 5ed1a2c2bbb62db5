// Chromium, Firefox and WebKit without a window, each with a folder's page and the installed package. This needs no
// browser protocol: the page is in a frame, and the page around it asks a server here what to do.
import { spawn, spawnSync } from 'node:child_process';
import { EventEmitter, once } from 'node:events';
import { createReadStream, existsSync, mkdtempSync, rmSync, writeFileSync } from 'node:fs';
import { createServer } from 'node:http';
import { tmpdir } from 'node:os';
import { dirname, extname, join, normalize } from 'node:path';
import { PassThrough } from 'node:stream';
import { json } from 'node:stream/consumers';
import { fileURLToPath } from 'node:url';

/** Returns whether a program exists, such as a browser. */
export const isThere = (program) => spawnSync('sh', ['-c', `command -v ${program}`]).status === 0;

/** A browser, or its page, has ended while something waited for it. */
export class BrowserEnded extends Error {}

/** The timeout of a browser's steps, in milliseconds: nothing waits for ever. */
const LONGEST_WAIT = 3600000;
const TYPES = { '.html': 'text/html', '.css': 'text/css', '.js': 'text/javascript', '.wasm': 'application/wasm' };
/** These isolate a page from other origins, so that its workers can share a memory. */
const ISOLATED = { 'Cross-Origin-Opener-Policy': 'same-origin', 'Cross-Origin-Embedder-Policy': 'require-corp' };

/** The page around a page: it reports the values of expressions with the page's document and frame. */
const AROUND = `<!doctype html><meta charset="utf-8"><title>A page in a frame</title><body><script>
const frame = Object.assign(document.createElement('iframe'), { src: '/', width: 1040, height: 700 });
async function answer({ data }) {
    const { number, expression } = JSON.parse(data);
    const evaluate = new Function('document', 'frame', 'return (async () => (' + expression + '))()');
    const outcome = await evaluate(frame.contentDocument, frame)
        .then((value) => ({ value }), (error) => ({ error: error + ' ' + error.stack }));
    fetch('/answered', { method: 'POST', body: JSON.stringify({ number, ...outcome }) });
}
frame.addEventListener('load', () => { new EventSource('/asked').onmessage = answer; }, { once: true });
document.body.append(frame);
</script>`;

/** The bytes that a process and its children have written and keep, without mapped files. */
function memoryBelow(first) {
    const command = 'grep -sE "^(PPid|RssAnon|RssShmem):" /proc/[0-9]*/status';
    const { stdout } = spawnSync('sh', ['-c', command], { encoding: 'utf8' });
    const all = new Map();
    for (const [, number, name, value] of stdout.matchAll(/(\d+)\/status:(\w+):\s+(\d+)/g)) {
        all.set(+number, { RssAnon: 0, RssShmem: 0, ...all.get(+number), [name]: +value });
    }
    const isBelow = (number) => all.has(number) && (number === first || isBelow(all.get(number).PPid));
    return [...all].filter(([number]) => isBelow(number))
        .reduce((bytes, [, { RssAnon, RssShmem }]) => bytes + 1024 * (RssAnon + RssShmem), 0);
}

/** Sends the file of a path; the package's files are the installed ones. */
function sendFile(path, folder, response, headers) {
    const installed = dirname(fileURLToPath(import.meta.resolve('proved-argon2')));
    const [, inPackage] = path.match(/^\/proved-argon2\/(.*)/) ?? [];
    const file = inPackage ? join(installed, inPackage) : join(folder, path === '/' ? 'index.html' : path);
    if (existsSync(file)) {
        response.writeHead(200, { 'Content-Type': TYPES[extname(file)] ?? 'text/plain', ...headers });
        createReadStream(file).pipe(response);
    } else {
        response.writeHead(404).end();
    }
}

/** A browser with its own profile and server, which end with it. */
class Browser {
    profile = mkdtempSync(join(tmpdir(), 'browser-'));
    #asked = new PassThrough();
    #answers = new EventEmitter();
    #last = 0;
    #ending = new AbortController();
    #server;
    #process;
    #ended;
    #beats;

    /** Opens the page of a folder, isolated from other origins or not, with this content security policy, if any. */
    async open(folder, { isIsolated = true, policy } = {}) {
        const isolated = isIsolated ? ISOLATED : {};
        const headers = policy ? { ...isolated, 'Content-Security-Policy': policy } : isolated;
        this.#server = createServer((request, response) => {
            const path = normalize(new URL(request.url, 'http://localhost').pathname);
            if (!this.#converse(path, request, response, isolated)) {
                sendFile(path, folder, response, headers);
            }
        });
        await once(this.#server.listen(0, '127.0.0.1'), 'listening');
        this.#start(`http://127.0.0.1:${this.#server.address().port}/around`);
        await this.evaluate('true');
        return this;
    }

    /** Answers the page around the frame, if it asks. Its request lasts until that page has ended. */
    #converse(path, request, response, isolated) {
        const type = { '/around': 'text/html', '/asked': 'text/event-stream', '/answered': 'text/plain' }[path];
        if (type === undefined) {
            return false;
        }
        response.writeHead(200, { 'Content-Type': type, ...isolated });
        if (path === '/asked') {
            // When its page crashed, Firefox closes the request at the next write.
            this.#beats = setInterval(() => this.#asked.write(':\n\n'), 1000);
            this.#asked.pipe(response).once('close', () => this.#end('its page has ended'));
        } else {
            response.end(path === '/around' ? AROUND : '');
        }
        if (path === '/answered') {
            json(request).then(({ number, ...outcome }) => this.#answers.emit(number, outcome));
        }
        return true;
    }

    #start(url) {
        const { command: [program, ...words], variables } = this.constructor;
        const env = { ...process.env, HOME: this.profile, TMPDIR: this.profile, ...variables };
        this.#process = spawn(program, [...words, ...this.options, url], { stdio: 'ignore', env, detached: true });
        this.#ended = once(this.#process, 'exit').then((how) => this.#end(`it has ended by itself: ${how}`));
        process.once('exit', () => this.kill());
    }

    /** Waiting requests fail, and so do later ones. */
    #end(how) {
        this.#ending.abort(new BrowserEnded(`${this.constructor.name}: ${how}`));
    }

    /** Ends all its processes, as a fault would. */
    kill(signal = 'KILL') {
        spawnSync('sh', ['-c', `kill -s ${signal} -- -${this.#process.pid}`]);
    }

    async close() {
        this.kill('TERM');
        await this.#ended;
        this.kill();
        clearInterval(this.#beats);
        this.#server.close();
        this.#server.closeAllConnections();
        rmSync(this.profile, { recursive: true, force: true, maxRetries: 10 });
    }

    /** The bytes that its processes keep. */
    memoryInUse() {
        return memoryBelow(this.#process.pid);
    }

    /** The value of an expression, or of its promise. */
    async evaluate(expression) {
        const { signal } = this.#ending;
        signal.throwIfAborted();
        const timer = setTimeout(() => this.#end(`there was no answer to ${expression}`), LONGEST_WAIT);
        this.#last += 1;
        this.#asked.write(`data: ${JSON.stringify({ number: this.#last, expression })}\n\n`);
        const [{ value, error }] = await once(this.#answers, this.#last, { signal })
            .catch(() => signal.throwIfAborted()).finally(() => clearTimeout(timer));
        if (error) {
            throw new Error(error);
        }
        return value;
    }

    /** Waits until an expression is true. */
    async until(expression) {
        const pause = 'await new Promise((resolve) => { setTimeout(resolve, 20); })';
        await this.evaluate(`(async () => { while (!(${expression})) ${pause}; })()`);
    }

    /** The value of a program, run as the page's module. */
    resultOf(program) {
        const module = `(async () => {${program}})().then(resolve, reject);`;
        return this.evaluate(`new Promise((resolve, reject) => {
            Object.assign(document.defaultView, { resolve, reject });
            const script = document.createElement('script');
            script.type = 'module';
            script.textContent = ${JSON.stringify(module)};
            document.body.append(script);
        })`);
    }
}

export class Chromium extends Browser {
    static command = ['chromium'];
    options = ['--headless', '--no-sandbox', '--disable-gpu', '--disable-dev-shm-usage', '--remote-debugging-port=0',
        `--user-data-dir=${this.profile}`];
}

export class Firefox extends Browser {
    static command = ['firefox-esr'];
    /** Only this page and its processes exist, and the page may compute for long without a pause. */
    static settings = `
        user_pref("browser.newtab.preload", false);
        user_pref("browser.startup.homepage_override.mstone", "ignore");
        user_pref("datareporting.policy.dataSubmissionEnabled", false);
        user_pref("dom.ipc.processPrelaunch.enabled", false);
        user_pref("dom.max_script_run_time", 0);`;
    options = ['--headless', '--no-remote', '--profile', this.profile];

    constructor() {
        super();
        writeFileSync(join(this.profile, 'user.js'), Firefox.settings);
    }
}

/** The browser of WebKitGTK, on a display that nobody looks at. WebKit is Safari's engine. */
export class WebKit extends Browser {
    static command = ['xvfb-run', '--auto-servernum', '/usr/lib/x86_64-linux-gnu/webkit2gtk-4.1/MiniBrowser'];
    // In Safari, isolated pages can share memory; WebKitGTK needs an option.
    static variables = { GDK_BACKEND: 'x11', JSC_useSharedArrayBuffer: '1' };
    options = ['--private'];
}
