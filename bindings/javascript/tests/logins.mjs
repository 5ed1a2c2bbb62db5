// What docs/examples/log_in.mjs answers to each kind of login.
import assert from 'node:assert/strict';
import { hash } from 'proved-argon2';
import { logIn, statuses } from './log_in.mjs';

const AT_ONCE = 48;
/** Two logins compute, and 32 wait. */
const ANSWERED = 2 + 32;
const secret = Buffer.from('pepper');
const older = await hash('password', { memoryCost: 4096, timeCost: 1, parallelism: 1, secret });
const long = 'a'.repeat(1025);
const ofLong = await hash(long, { memoryCost: 64, secret });

// Clients that leave keep no place.
for (let turn = 0; turn < AT_ONCE; turn += 1) {
    const leaves = new AbortController();
    const verdict = logIn('somebody', 'password', older, secret, leaves.signal);
    leaves.abort();
    assert.deepEqual(await verdict, [null, older]);
}
for (const [password, stored, verdict] of [
    ['Password', older, false], ['password', null, false], ['password', '$argon2id$', null], [long, ofLong, false],
    [null, ofLong, false], [5, ofLong, false], [['password'], ofLong, false], [undefined, ofLong, false],
]) {
    assert.deepEqual(await logIn('somebody', password, stored, secret), [verdict, stored]);
}
const burst = await Promise.all(Array.from({ length: AT_ONCE }, () => logIn('somebody', 'password', older, secret)));
assert.equal(burst.filter(([verdict]) => verdict === true).length, ANSWERED);
assert.deepEqual([...statuses], [[true, 200], [false, 401], [null, 503]]);
const [verdict, renewed] = await logIn('x\nlogged in: root', 'password', older, secret);
assert.ok(verdict && renewed.includes('m=19456,t=2,p=1'), renewed);
assert.deepEqual(await logIn('x', 'password', renewed, secret), [true, renewed]);
