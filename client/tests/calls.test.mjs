import assert from 'node:assert/strict';
import { chmodSync } from 'node:fs';
import { test } from 'node:test';
import * as failures from '../failures.mjs';
import { Host } from '../host.mjs';
import { OBJECTS, PROGRAM, WITH_PROGRAM, failureOf, fileFor, folderFor, hostFor, standInFor } from './support.mjs';

test('a name is the same object however it is reached, and another name is another', WITH_PROGRAM, async (t) => {
  const { env } = await hostFor(t);
  assert.deepEqual(Object.keys(env), ['Cell', 'Timer', 'Knot', 'Broken']);
  const id = env.Cell.idFromName('a');
  assert.equal(await env.Cell.get(id).add(2), 2);
  assert.equal(await env.Cell.getByName('a').add(3), 5);
  assert.equal(await env.Cell.getByName('b').value(), 0);
  assert.ok(id.equals(env.Cell.idFromName('a')));
  assert.ok(!id.equals(env.Cell.idFromName('b')));
  assert.ok(!id.equals(env.Timer.idFromName('a')));
  assert.equal(`${id}`, 'a');
});

test('an id of another class, or none, gives no stub', WITH_PROGRAM, async (t) => {
  const { env } = await hostFor(t);
  assert.throws(() => env.Cell.get(env.Timer.idFromName('a')), failures.WrongId);
  assert.throws(() => env.Cell.get('a'), failures.WrongId);
  assert.throws(() => env.Cell.idFromName('x'.repeat(1_025)), failures.UnsupportedValue);
  assert.equal(env.Gone, undefined);
});

test('a stub is no promise, so that it can be awaited and handed on', WITH_PROGRAM, async (t) => {
  const { env } = await hostFor(t);
  const stub = await Promise.resolve(env.Cell.getByName('a'));
  const { add } = stub;
  assert.equal(await add(4), 4);
  assert.equal(stub.name, 'a');
});

test('what a method gives back comes as it is, and undefined as null', WITH_PROGRAM, async (t) => {
  const { env } = await hostFor(t);
  assert.equal(await env.Cell.getByName('a').nothing(), null);
  assert.deepEqual(await env.Cell.getByName('a').echo({ list: [1, [], {}], text: 'ä' }), { list: [1, [], {}], text: 'ä' });
});

test('what a script throws keeps its name, its message and its value', WITH_PROGRAM, async (t) => {
  const { env } = await hostFor(t);
  const cell = env.Cell.getByName('a');
  const thrown = await failureOf(cell.message());
  assert.ok(thrown instanceof failures.ScriptError);
  assert.deepEqual([thrown.name, thrown.message], ['Error', 'the cell is empty']);
  const own = await failureOf(cell.fail({ name: 'Empty', message: 'no', left: 3 }));
  assert.deepEqual([own.name, own.message, own.value.left], ['Empty', 'no', 3]);
  assert.equal((await failureOf(cell.fail(7))).value, 7);
  assert.equal((await failureOf(cell.fail(null))).value, null);
  assert.equal((await failureOf(cell.add('x'.repeat(9) && [1]))).name, 'TypeError');
});

test('calls that the program refuses say why, with all that it tells', WITH_PROGRAM, async (t) => {
  const host = await hostFor(t, { slots: 2 });
  const { Cell } = host.env;
  assert.ok((await failureOf(host.call('Gone', 'a', 'm', []))) instanceof failures.NoClass);
  assert.ok((await failureOf(Cell.getByName('a').gone())) instanceof failures.NoMethod);
  assert.ok((await failureOf(Cell.getByName('a').constructor())) instanceof failures.NoMethod);
  await Cell.getByName('a').add(1);
  await Cell.getByName('b').add(1);
  const full = await failureOf(Cell.getByName('c').add(1));
  assert.ok(full instanceof failures.NoSlot);
  assert.equal(full.slots, 2);
  assert.deepEqual(host.metrics().failures, { NoClass: 1, NoMethod: 2, NoSlot: 1 });
});

test('a turn of too many steps is told, and the object goes on', WITH_PROGRAM, async (t) => {
  const { env } = await hostFor(t);
  await env.Cell.getByName('a').add(4);
  assert.ok((await failureOf(env.Cell.getByName('a').spin())) instanceof failures.Exceeded);
  assert.equal(await env.Cell.getByName('a').value(), 4);
});

test('a reset tells its cause: a block, a constructor, a full journal', WITH_PROGRAM, async (t) => {
  const { env } = await hostFor(t, { journalBytes: 4_096 });
  const cases = [
    [() => env.Cell.getByName('a').blockThrows(), 'block'],
    [() => env.Broken.getByName('b').ping(), 'start'],
    [() => env.Cell.getByName('c').keep('x'.repeat(5_000)), 'full'],
  ];
  for (const [call, kind] of cases) {
    const reset = await failureOf(call());
    assert.ok(reset instanceof failures.Reset, reset.message);
    assert.equal(reset.cause.kind, kind);
    if (kind === 'full') assert.ok(reset.cause.needed > reset.cause.limit && reset.cause.limit === 4_096);
  }
  assert.equal(await env.Cell.getByName('c').value(), 0);
});

test('a disk that fails resets its object, which goes on with what it had, in this run and the next', WITH_PROGRAM, async (t) => {
  // A process that may write files of 8 KiB alone, and is told so rather than stopped.
  const limited = fileFor(t, 'limited', `#!/bin/bash\ntrap '' XFSZ\nulimit -f 8\nexec '${PROGRAM}' "$@"\n`);
  chmodSync(limited, 0o755);
  const folder = folderFor(t);
  const host = await hostFor(t, { program: limited, folder });
  const cell = host.env.Cell.getByName('a');
  await cell.add(1);
  const reset = await failureOf(cell.keep('x'.repeat(20_000)));
  assert.ok(reset instanceof failures.Reset, reset.message);
  assert.deepEqual(reset.cause, { kind: 'disk', before: 0, after: 1 });
  assert.equal(await cell.add(1), 2);
  assert.equal(await host.env.Cell.getByName('b').add(1), 1);
  await host.close();
  assert.equal(await (await hostFor(t, { folder })).env.Cell.getByName('a').value(), 2);
});

test('a line that is refused finds its call', async (t) => {
  const host = await standInFor(t, ['odd print ["refused",N,"shape"]', 'fine print ["reply",N,1]']);
  const refused = await failureOf(host.call('C', 'a', 'odd', []));
  assert.ok(refused instanceof failures.Refused);
  assert.equal(refused.why, 'shape');
  assert.equal(await host.call('C', 'a', 'fine', []), 1);
});

test('wrong options are named', async () => {
  const good = { script: 's', folder: 'f', program: process.execPath };
  for (const wrong of [{ slots: 0 }, { slots: 257 }, { workers: 17 }, { tickEvery: 0.5 }, { window: '5' }, { fetch: 7 }, { folder: '' }, { sloths: 4 }]) {
    const failure = await failureOf(Host.open({ ...good, ...wrong }));
    assert.ok(failure instanceof failures.WrongOption, failure.message);
    assert.equal(failure.option, Object.keys(wrong)[0]);
  }
  assert.ok((await failureOf(Host.open({ ...good, program: '/nowhere/durable' }))) instanceof failures.ProgramMissing);
  assert.ok((await failureOf(Host.open())) instanceof failures.Failure);
});

test('what is there already is there again', WITH_PROGRAM, async (t) => {
  const folder = folderFor(t);
  const first = await hostFor(t, { folder });
  await first.env.Cell.getByName('a').add(9);
  await first.close();
  assert.equal(first.state, 'closed');
  assert.ok((await failureOf(first.env.Cell.getByName('a').value())) instanceof failures.Closed);
  const second = await hostFor(t, { folder, script: OBJECTS });
  assert.equal(await second.env.Cell.getByName('a').value(), 9);
});
