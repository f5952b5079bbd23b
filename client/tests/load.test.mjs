import assert from 'node:assert/strict';
import { test } from 'node:test';
import { Overloaded } from '../failures.mjs';
import { WITH_PROGRAM, byCallers, failureOf, hostFor, until } from './support.mjs';

test('calls past the window wait, and all are answered', WITH_PROGRAM, async (t) => {
  let asked = 0;
  let most = 0;
  const host = await hostFor(t, {
    window: 8,
    fetch: async (value) => {
      asked += 1;
      most = Math.max(most, asked, host.metrics().underWay);
      await new Promise((resolve) => setTimeout(resolve, 5));
      asked -= 1;
      return value;
    },
  });
  const calls = Array.from({ length: 100 }, (_, at) => host.env.Cell.getByName(`o${at % 16}`).outside(at));
  assert.ok(host.metrics().waiting + host.metrics().underWay === 100);
  assert.deepEqual(await Promise.all(calls), calls.map((_, at) => at));
  assert.equal(most, 8);
});

test('calls that no one waits for stay within the memory that is given to them, and the next is refused', WITH_PROGRAM, async (t) => {
  const host = await hostFor(t, { backlogBytes: 1_000_000, window: 16 });
  const cell = host.env.Cell.getByName('a');
  const calls = [];
  let refused;
  while (refused === undefined && calls.length < 100) {
    const call = cell.count(['x'.repeat(50_000)]);
    calls.push(call);
    call.catch((failure) => (refused ??= failure));
    await Promise.resolve();
    await Promise.resolve();
  }
  assert.ok(refused instanceof Overloaded, `${calls.length} calls wait`);
  const answers = await Promise.allSettled(calls);
  assert.equal(answers.filter(({ status }) => status === 'fulfilled').length, calls.length - 1);
  assert.equal(await cell.count([1]), 1);
});

test('ten thousand calls at once are all answered, in a window of 1,024', WITH_PROGRAM, async (t) => {
  const host = await hostFor(t);
  let most = 0;
  const calls = Array.from({ length: 10_000 }, (_, at) => {
    return host.env.Cell.getByName(`o${at % 4}`).echo(at).finally(() => {
      if (at % 100 === 0) most = Math.max(most, host.metrics().underWay);
    });
  });
  const answers = await Promise.all(calls);
  assert.ok(answers.every((value, at) => value === at));
  assert.ok(most <= 1_024, `${most} were under way`);
});

test('the calls of one object are made in order', WITH_PROGRAM, async (t) => {
  const { env } = await hostFor(t, { window: 64 });
  const answers = await Promise.all(Array.from({ length: 500 }, () => env.Cell.getByName('a').add(1)));
  assert.deepEqual(answers, Array.from({ length: 500 }, (_, at) => at + 1));
});

test('answers of any length come whole, beside short ones', WITH_PROGRAM, async (t) => {
  const { env } = await hostFor(t);
  const long = env.Cell.getByName('a').doubled('\u0001'.repeat(4_000), 10);
  const wide = env.Cell.getByName('b').doubled('ä\u{1f600}', 19);
  await byCallers(8, 40, async (at) => assert.equal(await env.Cell.getByName(`c${at % 8}`).echo(at), at));
  // The first prints as six bytes for each of its 4,096,000.
  assert.equal(await long, '\u0001'.repeat(4_096_000));
  assert.equal(await wide, 'ä\u{1f600}'.repeat(2 ** 19));
});

test('a program that stops taking lines for a while holds the calls back, and none is lost', WITH_PROGRAM, async (t) => {
  const host = await hostFor(t, { window: 16_384 });
  process.kill(host.processId, 'SIGSTOP');
  const text = 'x'.repeat(1_000);
  const calls = Array.from({ length: 4_000 }, (_, at) => host.env.Cell.getByName('a').count([text, at]));
  await new Promise((resolve) => setTimeout(resolve, 300));
  const { underWay, waiting } = host.metrics();
  assert.ok(waiting > 3_000, `${underWay} were sent and ${waiting} wait`);
  process.kill(host.processId, 'SIGCONT');
  await until(() => host.metrics().waiting === 0, 'all are sent');
  assert.ok((await Promise.all(calls)).every((length) => length === 2));
  assert.equal((await failureOf(host.call('Gone', '', '', []))).name, 'NoClass');
});
