import assert from 'node:assert/strict';
import { test } from 'node:test';
import { Waiting } from '../failures.mjs';
import { WITH_PROGRAM, byCallers, failureOf, hostFor, pause, until } from './support.mjs';

test('runs of 5,000 lines follow each other under the load of 32 callers, who see no error', WITH_PROGRAM, async (t) => {
  const host = await hostFor(t, { linesPerRun: 5_000 });
  const count = 16_000;
  await byCallers(32, count, async (_, me) => {
    await host.env.Cell.getByName(`o${me % 16}`).add(1);
  });
  let sum = 0;
  for (let at = 0; at < 16; at += 1) sum += await host.env.Cell.getByName(`o${at}`).value();
  assert.equal(sum, count);
  const { rotations, restarts, failures, lines } = host.metrics();
  assert.deepEqual({ restarts, failures }, { restarts: 0, failures: {} });
  assert.ok(rotations >= 3 && lines >= count, `${rotations} rotations, ${lines} lines`);
});

test('a run ends only once its fetches are answered', WITH_PROGRAM, async (t) => {
  const host = await hostFor(t, { linesPerRun: 40, fetch: async (value) => (await pause(20), value) });
  await byCallers(8, 200, async (at, me) => {
    assert.equal(await host.env.Cell.getByName(`o${me}`).outside(at), at);
  });
  assert.ok(host.metrics().rotations >= 4);
  assert.deepEqual(host.metrics().failures, {});
});

test('a run that holds too much memory is followed by another', WITH_PROGRAM, async (t) => {
  const host = await hostFor(t, { memoryBytes: 2 ** 20, tickEvery: 20 });
  const text = 'x'.repeat(60_000);
  let isDone = false;
  const callers = Array.from({ length: 4 }, async (_, me) => {
    while (!isDone) await host.env.Cell.getByName(`o${me}`).keep(text);
  });
  await until(() => host.metrics().rotations > 0, 'a run has followed');
  isDone = true;
  await Promise.all(callers);
  assert.deepEqual(host.metrics().failures, {});
});

test('a call that waits past the deadline fails by what it waits for, and the next run serves', WITH_PROGRAM, async (t) => {
  const host = await hostFor(t, { linesPerRun: 16, deadline: 300, fetch: () => new Promise(() => {}) });
  const hanging = failureOf(host.env.Cell.getByName('a').outside(1));
  for (let at = 0; at < 30; at += 1) await host.env.Cell.getByName('b').add(1);
  assert.ok((await hanging) instanceof Waiting);
  assert.equal(await host.env.Cell.getByName('b').value(), 30);
});
