import assert from 'node:assert/strict';
import { test } from 'node:test';
import { WITH_PROGRAM, folderFor, hostFor, until } from './support.mjs';

test('the first tick comes before any call', WITH_PROGRAM, async (t) => {
  const before = Date.now();
  const host = await hostFor(t, { tickEvery: 3_600_000 });
  const now = await host.env.Timer.getByName('a').now();
  assert.ok(now >= before && now <= Date.now(), `${now} of ${before}`);
});

test('an alarm runs by the clock, and not before its time', WITH_PROGRAM, async (t) => {
  const host = await hostFor(t, { tickEvery: 20 });
  const timer = host.env.Timer.getByName('a');
  const armed = await timer.arm(300);
  await until(async () => (await timer.rang()) > 0, 'the alarm has run');
  assert.ok((await timer.rang()) >= armed + 300);
});

test('an alarm that was due while nothing ran runs in the next run', WITH_PROGRAM, async (t) => {
  const folder = folderFor(t);
  const first = await hostFor(t, { folder, tickEvery: 3_600_000 });
  await first.env.Timer.getByName('a').arm(1);
  await first.close();
  const second = await hostFor(t, { folder, tickEvery: 20 });
  await until(async () => (await second.env.Timer.getByName('a').rang()) > 0, 'the alarm has run');
});

test('ticks are told under a load that keeps the input full', WITH_PROGRAM, async (t) => {
  const host = await hostFor(t, { tickEvery: 20, slots: 17 });
  const timer = host.env.Timer.getByName('a');
  await timer.arm(100);
  const text = 'x'.repeat(100_000);
  let isDone = false;
  const load = Array.from({ length: 16 }, async (_, at) => {
    while (!isDone) await host.env.Cell.getByName(`o${at}`).echo(text);
  });
  await until(async () => (await timer.rang()) > 0, 'the alarm has run');
  isDone = true;
  await Promise.all(load);
});
