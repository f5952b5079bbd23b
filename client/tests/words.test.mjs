// Each word of the language that is called, as a script calls it: those that read their arguments alone give what Node gives, and those of the
// storage what the documentation of Durable Objects says, but that pairs stand for a Map.
import assert from 'node:assert/strict';
import { test } from 'node:test';
import { WITH_PROGRAM, fileFor, hostFor } from './support.mjs';

const GIVEN = { list: [1, 2, 3, 2], text: 'a-b-c', record: { b: 1, a: 2 } };

const BODIES = [
  'return [list.includes(3), list.includes(4), text.includes("-b"), text.includes("d")];',
  'return [list.indexOf(2), list.indexOf(4)];',
  'return [list.slice(1, 3), list.slice(-2), list.slice(0)];',
  'return [text.startsWith("a-"), text.startsWith("b")];',
  'return [text.endsWith("-c"), text.endsWith("b")];',
  'return text.split("-");',
  'let grown = list; const length = grown.push(9); return [length, grown];',
  'return [String(12), String(true), String(null), String(text)];',
  'return [Number("12"), Number("-7")];',
  'return Object.keys({ a: 1, b: list });',
  'return [Array.isArray(list), Array.isArray(record), Array.isArray(text)];',
];

const STORED = `
  async stored() {
    let told = [];
    told.push([await this.ctx.storage.get("k"), await this.ctx.storage.getAlarm()]);
    await this.ctx.storage.put("k", 1);
    await this.ctx.storage.put({ l: 2, m: 3 });
    told.push([await this.ctx.storage.get("k"), await this.ctx.storage.get(["m", "k"]), await this.ctx.storage.list({ prefix: "l" })]);
    told.push([await this.ctx.storage.delete("k"), await this.ctx.storage.delete(["k", "l"])]);
    await this.ctx.storage.setAlarm(5000);
    told.push(await this.ctx.storage.getAlarm());
    await this.ctx.storage.deleteAlarm();
    await this.ctx.storage.sync();
    told.push(await this.ctx.storage.getAlarm());
    await this.ctx.storage.deleteAll();
    told.push(await this.ctx.storage.list());
    return told;
  }

  async transacted() {
    const kept = await this.ctx.storage.transaction(async (txn) => {
      txn.put("a", 1);
      txn.put("b", 2);
      const was = await txn.delete("b");
      return [was, await txn.get("a"), await txn.list()];
    });
    const undone = await this.ctx.storage.transaction(async (txn) => {
      txn.put("a", 7);
      txn.rollback();
      return "undone";
    });
    return [kept, undone, await this.ctx.storage.get("a")];
  }

  async held() { return await this.ctx.blockConcurrencyWhile(async () => { return await this.ctx.storage.get("a"); }); }

  async named(name) { return await this.env.Words.get(this.env.Words.idFromName(name)).own(); }

  own() { return this.mine ?? "new"; }

  async time() { return Date.now(); }

  async asked(value) { return await fetch(value); }

  // As an alarm may run, the class needs a handler.
  async alarm() { }`;

const SCRIPT = `export class Words extends DurableObject {
${BODIES.map((body, at) => `  async m${at}(list, text, record) { ${body} }`).join('\n')}
${STORED}
}
`;

async function wordsFor(t, options = {}) {
  return await hostFor(t, { script: fileFor(t, 'words.js', SCRIPT), ...options });
}

test('the words that read their arguments alone give what Node gives', WITH_PROGRAM, async (t) => {
  const host = await wordsFor(t);
  for (const [at, body] of BODIES.entries()) {
    const { list, text, record } = structuredClone(GIVEN);
    const wanted = new Function('list', 'text', 'record', body)(list, text, record);
    assert.deepEqual(await host.call('Words', 'a', `m${at}`, Object.values(GIVEN)), wanted, body);
  }
});

test('the words of the storage, of a transaction and of a block', WITH_PROGRAM, async (t) => {
  const host = await wordsFor(t);
  const told = await host.call('Words', 'a', 'stored', []);
  assert.deepEqual(told, [[null, null], [1, [['k', 1], ['m', 3]], [['l', 2]]], [true, 1], 5000, null, []]);
  assert.deepEqual(await host.call('Words', 'a', 'transacted', []), [[true, 1, [['a', 1]]], 'undone', 1]);
  assert.equal(await host.call('Words', 'a', 'held', []), 1);
});

test('the words that reach another object, the clock and the outside', WITH_PROGRAM, async (t) => {
  const host = await wordsFor(t, { fetch: async (value) => [value, 'back'] });
  assert.equal(await host.call('Words', 'a', 'named', ['b']), 'new');
  const time = await host.call('Words', 'a', 'time', []);
  assert.ok(Math.abs(time - Date.now()) < 60_000, `${time}`);
  assert.deepEqual(await host.call('Words', 'a', 'asked', ['there']), ['there', 'back']);
});
