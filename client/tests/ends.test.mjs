import assert from 'node:assert/strict';
import { chmodSync, copyFileSync, mkdirSync, readFileSync, writeFileSync } from 'node:fs';
import { join } from 'node:path';
import { test } from 'node:test';
import * as failures from '../failures.mjs';
import { Host } from '../host.mjs';
import { OBJECTS, PROGRAM, WITH_PROGRAM, failureOf, fileFor, folderFor, hostFor, pause, planText, standInFor, until } from './support.mjs';

const CALLERS = 32;
const NAMES = 8;
const FINE = 'fine print ["reply",N,1]';

// Adds until it is told to stop; what was answered and what may have happened, by object.
async function add(host, me, stopped, told) {
  while (!stopped()) {
    const name = `o${me % NAMES}`;
    try {
      const sum = await host.env.Cell.getByName(name).add(1);
      assert.ok(!told[name].sums.has(sum), `${name} answered ${sum} twice`);
      told[name].sums.add(sum);
    } catch (failure) {
      if (!(failure instanceof failures.UnknownOutcome)) throw failure;
      told[name].unknown += 1;
    }
  }
}

test('what was answered before a kill -9 under the load of 32 callers is there afterwards', WITH_PROGRAM, async (t) => {
  const host = await hostFor(t);
  const told = Object.fromEntries(Array.from({ length: NAMES }, (_, at) => [`o${at}`, { sums: new Set(), unknown: 0 }]));
  let isDone = false;
  const callers = Array.from({ length: CALLERS }, (_, me) => add(host, me, () => isDone, told));
  for (let kill = 1; kill <= 4; kill += 1) {
    const before = host.metrics().answered;
    await until(() => host.metrics().answered > before + 200, 'it answers');
    process.kill(host.processId, 'SIGKILL');
    await until(() => host.metrics().restarts === kill && host.state === 'serving', 'it serves again');
  }
  isDone = true;
  await Promise.all(callers);
  let unknown = 0;
  for (const [name, { sums, unknown: maybe }] of Object.entries(told)) {
    const found = await host.env.Cell.getByName(name).value();
    assert.ok(found >= Math.max(...sums), `${name} answered ${Math.max(...sums)} and has ${found}`);
    assert.ok(found >= sums.size && found <= sums.size + maybe, `${name} has ${found}, of ${sums.size} answered and ${maybe} unknown`);
    unknown += maybe;
  }
  assert.ok(unknown > 0);
  assert.equal(host.metrics().failures.UnknownOutcome, unknown);
});

test('a call under way as the program is killed has an unknown outcome, and a later one waits for the next run', WITH_PROGRAM, async (t) => {
  const told = [];
  const host = await hostFor(t, { fetch: () => new Promise(() => {}), log: (sentence) => told.push(sentence) });
  const cell = host.env.Cell.getByName('a');
  await cell.add(5);
  const hanging = failureOf(cell.outside('x'));
  await until(() => host.metrics().fetches === 1, 'it fetches');
  process.kill(host.processId, 'SIGKILL');
  const later = cell.value();
  const unknown = await hanging;
  assert.ok(unknown instanceof failures.UnknownOutcome);
  assert.ok(unknown.cause instanceof failures.ProgramEnded);
  assert.equal(unknown.cause.signal, 'SIGKILL');
  const outcome = await Promise.allSettled([later]);
  assert.ok(outcome[0].value === 5 || outcome[0].reason instanceof failures.UnknownOutcome);
  assert.equal(await cell.value(), 5);
  assert.match(told[0], /SIGKILL.*started again in 50 ms/);
});

test('the delay before a further start grows', async (t) => {
  const told = [];
  const host = await standInFor(t, ['die exit 4'], { log: (sentence) => told.push(sentence) });
  for (let time = 0; time < 4; time += 1) {
    assert.ok((await failureOf(host.call('C', 'a', 'die', []))) instanceof failures.UnknownOutcome);
  }
  await until(() => told.length === 4, 'it is told');
  assert.deepEqual(told.map((sentence) => Number(/in (\d+) ms/.exec(sentence)[1])), [50, 100, 200, 400]);
  assert.match(told[0], /status 4: memory was refused/);
});

for (const [status, why] of [[5, /read its input/], [6, /write its output/], [0, /with status 0/], [99, /with status 99/]]) {
  test(`an end by itself with status ${status} leaves the outcome unknown, and the next run serves`, async (t) => {
    const host = await standInFor(t, [`die exit ${status}`, FINE]);
    const unknown = await failureOf(host.call('C', 'a', 'die', []));
    assert.ok(unknown instanceof failures.UnknownOutcome);
    assert.match(unknown.message, why);
    assert.equal(await host.call('C', 'a', 'fine', []), 1);
  });
}

for (const [what, printed] of [
  ['no JSON', 'nonsense'],
  ['an unknown line', '["news",1]'],
  ['an answer to nothing', '["reply",77,1]'],
  ['an unknown error', '["error",N,"Odd"]'],
  ['no list', '{}'],
  ['half a line', '["error",N,"Reset"]'],
]) {
  test(`a program that prints ${what} is ended and started again`, async (t) => {
    const host = await standInFor(t, [`odd print ${printed}`, FINE]);
    assert.ok((await failureOf(host.call('C', 'a', 'odd', []))) instanceof failures.Failure);
    assert.equal(await host.call('C', 'a', 'fine', []), 1);
    assert.equal(host.metrics().restarts, 1);
  });
}

test('a program that can not be started for longer than the deadline leaves nobody waiting, and serves once it can', async (t) => {
  const plan = ['die exit 4', FINE];
  const script = fileFor(t, 'plan', planText(plan));
  const host = await standInFor(t, plan, { script, deadline: 200 });
  writeFileSync(script, planText([...plan, 'start exit 4']));
  assert.ok((await failureOf(host.call('C', 'a', 'die', []))) instanceof failures.UnknownOutcome);
  const unavailable = await failureOf(host.call('C', 'a', 'fine', []));
  assert.ok(unavailable instanceof failures.Unavailable, unavailable.message);
  assert.ok((await failureOf(host.call('C', 'a', 'fine', []))) instanceof failures.Unavailable);
  writeFileSync(script, planText(plan));
  await until(() => host.state === 'serving', 'it serves again');
  assert.equal(await host.call('C', 'a', 'fine', []), 1);
});

test('a script that is refused is told with its place, and nothing is started', WITH_PROGRAM, async (t) => {
  const script = fileFor(t, 'bad.js', 'export class X extends DurableObject {\n  m() { return y; }\n}\n');
  const refused = await failureOf(Host.open({ program: PROGRAM, script, folder: folderFor(t) }));
  assert.ok(refused instanceof failures.ScriptRefused);
  assert.deepEqual([refused.place, refused.kind], [54, 'Unbound']);
  assert.match(refused.message, /line 2, column 16: Unbound/);
});

test('a script that turns bad is told to those who wait and to those who come, and is not tried again', WITH_PROGRAM, async (t) => {
  const script = fileFor(t, 'script.js', readFileSync(OBJECTS, 'utf8'));
  const host = await hostFor(t, { script });
  await host.env.Cell.getByName('a').add(1);
  writeFileSync(script, 'export class {');
  process.kill(host.processId, 'SIGKILL');
  await until(() => host.state === 'failed', 'it has failed');
  assert.ok((await failureOf(host.env.Cell.getByName('a').value())) instanceof failures.ScriptRefused);
  await host.close();
  assert.equal(host.state, 'closed');
});

test('a folder that another run holds is told with that run', WITH_PROGRAM, async (t) => {
  const folder = folderFor(t);
  const first = await hostFor(t, { folder });
  const held = await failureOf(Host.open({ program: PROGRAM, script: OBJECTS, folder }));
  assert.ok(held instanceof failures.FolderInUse, held.message);
  assert.equal(held.holder, first.processId);
});

test('a folder that another run has taken meanwhile is tried again a few times, and then told', WITH_PROGRAM, async (t) => {
  const folder = folderFor(t);
  const other = await hostFor(t, { folder });
  const script = fileFor(t, 'plan', planText(['die exit 4']));
  const host = await standInFor(t, [], { script, folder });
  writeFileSync(script, planText(['start exit 3']));
  process.kill(host.processId, 'SIGKILL');
  const waiting = failureOf(host.call('C', 'a', 'm', []));
  await until(() => host.state === 'failed', 'it has failed');
  assert.ok(host.metrics().restarts >= 5);
  const held = await failureOf(host.call('C', 'a', 'm', []));
  assert.ok(held instanceof failures.FolderInUse, held.message);
  assert.equal(held.holder, other.processId);
  assert.ok((await waiting) instanceof failures.Failure);
});

test('a script, a folder and a journal that can not be opened are told', WITH_PROGRAM, async (t) => {
  const folder = folderFor(t);
  const cases = [
    [{ script: join(folder, 'gone.js'), folder }, /there is no script/],
    [{ script: folder, folder }, /is a folder, and no script/],
    [{ script: OBJECTS, folder: join(folder, 'gone') }, /make it with mkdir/],
    [{ script: OBJECTS, folder: OBJECTS }, /is no folder/],
  ];
  for (const [options, why] of cases) {
    const failure = await failureOf(Host.open({ program: PROGRAM, ...options }));
    assert.ok(failure instanceof failures.OpeningFailed, `${failure.name}: ${failure.message}`);
    assert.match(failure.message, why);
  }
  mkdirSync(join(folder, 'slot-000.journal'));
  assert.match((await failureOf(Host.open({ program: PROGRAM, script: OBJECTS, folder }))).message, /is a folder, and no journal/);
});

test('journals that are no good are told with their place, and are left as they were', WITH_PROGRAM, async (t) => {
  const folder = folderFor(t);
  const host = await hostFor(t, { folder });
  await host.env.Cell.getByName('a').add(1);
  await host.close();
  const journal = join(folder, 'slot-000.journal');
  const good = readFileSync(journal);
  const damaged = Buffer.from(good);
  damaged[25] ^= 1;
  const twice = () => {
    writeFileSync(journal, good);
    copyFileSync(journal, join(folder, 'slot-003.journal'));
  };
  const cases = [
    [() => writeFileSync(journal, damaged), /slot-000.journal is damaged at byte 15/, 'damaged'],
    [() => writeFileSync(journal, Buffer.alloc(17)), /slot-000.journal is no journal: it differs from one at byte 0/, 'foreign'],
    [twice, /slot-003.journal has the object of .*slot-000.journal again/, 'twice'],
  ];
  for (const [spoil, why, kind] of cases) {
    spoil();
    const bad = await failureOf(Host.open({ program: PROGRAM, script: OBJECTS, folder }));
    assert.ok(bad instanceof failures.BadJournal, bad.message);
    assert.match(bad.message, why);
    assert.equal(bad.kind, kind);
  }
  assert.deepEqual(readFileSync(journal), good);
});

test('a program that is not there, or is none, is told', async (t) => {
  const none = fileFor(t, 'none', 'nothing');
  assert.ok((await failureOf(Host.open({ program: none, script: OBJECTS, folder: folderFor(t) }))) instanceof failures.ProgramMissing);
  chmodSync(none, 0o755);
  assert.ok((await failureOf(Host.open({ program: none, script: OBJECTS, folder: folderFor(t) }))) instanceof failures.Failure);
});

test('closing answers what is under way and what waits, and the program ends', WITH_PROGRAM, async (t) => {
  const host = await hostFor(t, { window: 4, slots: 20, fetch: async (value) => (await pause(50), value) });
  const { processId } = host;
  const calls = Array.from({ length: 20 }, (_, at) => host.env.Cell.getByName(`o${at}`).outside(at));
  const closed = host.close();
  assert.ok((await failureOf(host.env.Cell.getByName('a').value())) instanceof failures.Closed);
  assert.deepEqual(await Promise.all(calls), calls.map((_, at) => at));
  await closed;
  assert.equal(host.state, 'closed');
  assert.throws(() => process.kill(processId, 0), { code: 'ESRCH' });
  await host.close();
});

test('what still waits as the input ends fails by what it waits for', WITH_PROGRAM, async (t) => {
  const host = await hostFor(t, { deadline: 400, fetch: () => new Promise(() => {}) });
  const fetching = failureOf(host.env.Cell.getByName('a').outside('x'));
  const calling = failureOf(host.env.Knot.getByName('one').tie('two'));
  await until(() => host.metrics().fetches === 1, 'it fetches');
  const blocked = failureOf(host.env.Knot.getByName('one').ping());
  await host.close();
  assert.ok((await fetching) instanceof failures.Waiting);
  assert.deepEqual((await fetching).on, { kind: 'fetch', number: 1 });
  assert.deepEqual((await calling).on, { kind: 'call', className: 'Knot', name: 'two' });
  assert.deepEqual((await blocked).on, { kind: 'block' });
  assert.match((await calling).message, /tie of Knot "one" was still waiting for a call to Knot "two"/);
});

test('a program that does not end is killed behind the deadline', async (t) => {
  const stuck = fileFor(t, 'stuck', `#!/bin/bash
if [ "$1" = check ]; then echo '["script",["C"]]'; else echo '["error",2,"NoClass"]'; exec sleep 1000; fi
`);
  chmodSync(stuck, 0o755);
  const host = await hostFor(t, { program: stuck, deadline: 300 });
  const { processId } = host;
  const unanswered = failureOf(host.call('C', 'a', 'm', []));
  await host.close();
  assert.ok((await unanswered) instanceof failures.UnknownOutcome);
  assert.throws(() => process.kill(processId, 0), { code: 'ESRCH' });
});
