// The page: it hashes and verifies by the package, shows how far a call is, and stops it.
import { defaultLimits, hash, presets, verify } from './proved-argon2/index.js';

const $ = (id) => document.getElementById(id);

const processors = self.crossOriginIsolated ? navigator.hardwareConcurrency : 1;
/** What a processor takes for a KiB and a pass, in milliseconds, as the last hash has shown. */
let speed;

const chosen = () => ({
    memoryCost: Math.round(2 ** Number($('memory').value)),
    timeCost: Number($('passes').value),
    parallelism: Number($('lanes').value),
});

function sizeOf(kibibytes) {
    const power = Math.min(2, Math.floor(Math.log2(kibibytes) / 10));
    return `${Number((kibibytes / 1024 ** power).toPrecision(3))} ${['KiB', 'MiB', 'GiB'][power]}`;
}

function timeOf(milliseconds) {
    const isShort = milliseconds < 1000;
    return isShort ? `${Math.max(1, Math.round(milliseconds))} ms` : `${(milliseconds / 1000).toFixed(1)} s`;
}

/** What a hash costs on one processor, in KiB and passes. */
const workOf = ({ memoryCost, timeCost, parallelism }) => memoryCost * timeCost / Math.min(parallelism, processors);

/** The settings of a preset. Both of RFC 9106 have four lanes there. */
function presetOf(name) {
    const { memoryCost, timeCost } = presets[name];
    return { memoryCost, timeCost, parallelism: name.startsWith('rfc') ? 4 : 1 };
}

/** Whether the page verifies a hash with these settings, whose lanes are within the limits. */
const isWithinLimits = ({ memoryCost, timeCost }) => memoryCost <= defaultLimits.memoryCost
    && timeCost <= defaultLimits.timeCost && memoryCost * timeCost <= defaultLimits.work;

const counted = (count, one, many) => `${count} ${count === 1 ? one : many}`;

/** Shows what a slider is at, and has it told so to whoever hears the page. */
function showValue(name, text) {
    $(`${name}-shown`).value = text;
    $(name).setAttribute('aria-valuetext', text);
}

function showSettings() {
    const settings = chosen();
    showValue('memory', sizeOf(settings.memoryCost));
    showValue('passes', counted(settings.timeCost, 'pass', 'passes'));
    showValue('lanes', counted(settings.parallelism, 'lane', 'lanes'));
    const text = JSON.stringify(settings);
    $('preset').value = Object.keys(presets).find((name) => JSON.stringify(presetOf(name)) === text) ?? '';
    $('estimate').textContent = speed === undefined ? 'Measuring how fast this browser is…'
        : `A hash takes about ${timeOf(speed * workOf(settings))} here.`;
}

function takePreset() {
    if ($('preset').value) {
        const { memoryCost, timeCost, parallelism } = presetOf($('preset').value);
        $('memory').value = Math.log2(memoryCost);
        $('passes').value = timeCost;
        $('lanes').value = parallelism;
    }
    showSettings();
}

function showStatus(form, text, className = 'quiet') {
    const status = form.querySelector('[role=status]');
    status.textContent = text;
    status.className = className;
}

/** What went wrong, for a visitor. */
const WORDS = {
    AbortError: 'Cancelled. The memory is overwritten.',
    DecodingFail: 'This is no encoded hash of Argon2, such as $argon2id$v=19$m=19456,t=2,p=1$SALT$HASH.',
    MemoryTooLittle: 'Argon2 needs at least 8 KiB of memory for each lane.',
    OutOfMemory: 'This browser does not provide so much memory.',
    TooCostly: `This encoded hash is above a limit of the page: ${sizeOf(defaultLimits.memoryCost)}, ` +
        `${defaultLimits.timeCost} passes, ${defaultLimits.parallelism} lanes, ` +
        `${sizeOf(defaultLimits.work)} filled in all passes together.`,
    Unsupported: 'This browser has no WebAssembly, or its settings switch it off.',
};

const wordsOf = (error) => WORDS[error.name] ?? `This did not work: ${error.message}.`;

/** Makes a call for a form, whose bar shows how far it is, and whose button stops it. */
async function callFor(form, call) {
    const controller = new AbortController();
    const [submit, cancel, bar] = ['[type=submit]', '.cancel', 'progress'].map((part) => form.querySelector(part));
    cancel.onclick = () => {
        showStatus(form, 'Stopping after the slice at work…');
        controller.abort();
    };
    submit.disabled = true;
    cancel.disabled = false;
    bar.value = 0;
    showStatus(form, 'Computing…');
    try {
        await call({ signal: controller.signal, onProgress: (done, all) => { bar.value = done / all; } });
    } catch (error) {
        bar.value = 0;
        showStatus(form, wordsOf(error), error.name === 'AbortError' ? 'quiet' : 'bad');
    } finally {
        submit.disabled = false;
        // (a button that is disabled loses the focus)
        if (document.activeElement === cancel) submit.focus();
        cancel.disabled = true;
    }
}

$('hashing').onsubmit = (event) => {
    event.preventDefault();
    const form = $('hashing');
    callFor(form, async (running) => {
        const settings = chosen();
        const began = performance.now();
        const encoded = await hash($('password').value, { ...settings, ...running });
        const took = performance.now() - began;
        speed = took / workOf(settings);
        $('made').value = encoded;
        $('result').hidden = false;
        $('copied').textContent = '';
        $('encoded').value = encoded;
        $('guess').value = $('password').value;
        showStatus($('verifying'), '');
        $('verifying').querySelector('progress').value = 0;
        const next = isWithinLimits(settings) ? 'The other form can verify it now.'
            : 'It is above the limits for verifying.';
        showStatus(form, `Hashed in ${timeOf(took)}. ${next}`, 'good');
        showSettings();
    });
};

$('verifying').onsubmit = (event) => {
    event.preventDefault();
    const form = $('verifying');
    const encoded = $('encoded').value.trim();
    if (encoded === '') {
        showStatus(form, 'Enter an encoded hash first.', 'bad');
        $('encoded').focus();
        return;
    }
    callFor(form, async (running) => {
        const began = performance.now();
        const isRight = await verify(encoded, $('guess').value, running);
        const verdict = isRight ? 'The password is right' : 'The password is wrong';
        showStatus(form, `${verdict} (${timeOf(performance.now() - began)}).`, isRight ? 'good' : 'bad');
    });
};

/** Copies the encoded hash or, where a browser does not let a page do so, selects it. */
async function copy() {
    try {
        await navigator.clipboard.writeText($('made').value);
        $('copied').textContent = 'Copied.';
    } catch {
        $('made').select();
        $('copied').textContent = 'Selected. Copy it by the keyboard or the menu.';
    }
}

$('copy').onclick = copy;
$('preset').onchange = takePreset;
for (const name of ['memory', 'passes', 'lanes']) {
    $(name).oninput = showSettings;
}

/** The second hash is measured: an engine compiles faster code during the first. */
async function measure() {
    const small = { memoryCost: 4096, timeCost: 1 };
    await hash('', small);
    const began = performance.now();
    await hash('', small);
    speed = (performance.now() - began) / workOf({ ...small, parallelism: 1 });
}

takePreset();
$('engine').textContent = processors > 1
    ? `Lanes are filled at the same time, by up to ${processors} workers.`
    : 'Lanes are filled one after another: for workers to share a memory, the server has to isolate this page from ' +
        'other origins (Cross-Origin-Opener-Policy and Cross-Origin-Embedder-Policy).';
measure().then(showSettings, (error) => {
    $('estimate').textContent = wordsOf(error);
    $('estimate').className = 'bad';
});
