import assert from 'node:assert/strict';
import { execFile, spawn } from 'node:child_process';
import { test } from 'node:test';
import { PROGRAM, SLOW, TOP, WITH_PROGRAM, fileFor, folderFor, pause, until } from './support.mjs';

const SERVE = `${TOP}client/serve.mjs`;

// The server as a process of its own, with where it listens and what it has printed.
async function servedFor(t, words) {
  const child = spawn(process.execPath, [SERVE, ...words, '--port', '0'], { env: { ...process.env, DURABLE: PROGRAM } });
  const served = { child, printed: '', status: new Promise((resolve) => child.on('exit', (status, signal) => resolve(signal ?? status))) };
  child.stdout.on('data', (piece) => (served.printed += piece));
  child.stderr.on('data', (piece) => (served.printed += piece));
  t.after(async () => {
    child.kill('SIGKILL');
    await served.status;
    // The program ends by itself as its input does.
    await pause(100);
  });
  await until(() => /listening on (\S+)/.test(served.printed) || child.exitCode !== null, 'the server listens');
  served.url = /listening on (\S+)/.exec(served.printed)?.[1];
  assert.ok(served.url, served.printed);
  return served;
}

test('the counter is served behind its Worker, and counts on over a further run', WITH_PROGRAM, async (t) => {
  const words = ['examples/counter/worker.mjs', 'examples/counter/script.js'].map((path) => TOP + path);
  const folder = folderFor(t);
  const first = await servedFor(t, [...words, folder]);
  const ask = async (served, method, path, body) => (await fetch(served.url + path, { method, body: body && JSON.stringify(body) })).json();
  assert.match(await (await fetch(first.url)).text(), /curl -X POST/);
  assert.deepEqual(await ask(first, 'POST', '/counters/visits'), { count: 1 });
  assert.deepEqual(await ask(first, 'POST', '/counters/visits'), { count: 2 });
  assert.deepEqual(await ask(first, 'POST', '/carts/ann/items', { article: 'tea', quantity: 2, price: 450 }), { price: 450, quantity: 2 });
  const refused = await ask(first, 'POST', '/carts/ann/items', { article: 'tea', quantity: 0.5, price: 1 });
  assert.deepEqual(refused, { error: 'an item has an article, a whole quantity and a price in whole cents' });
  assert.deepEqual(await ask(first, 'GET', '/carts/ann'), { total: 900 });
  assert.deepEqual(await ask(first, 'POST', '/carts/ann/orders'), { number: 1, total: 900 });
  assert.deepEqual(await ask(first, 'POST', '/carts/ann/orders'), { error: 'the cart is empty' });
  assert.deepEqual(await ask(first, 'DELETE', '/carts/ann/items/tea'), { removed: false });
  assert.deepEqual(await ask(first, 'GET', '/nowhere'), { error: 'there is nothing here' });
  assert.match(first.printed, /POST \/counters\/visits 200 \d+\.\d ms\n/);
  first.child.kill('SIGTERM');
  assert.equal(await first.status, 0);
  const second = await servedFor(t, [...words, folder]);
  assert.deepEqual(await ask(second, 'GET', '/counters/visits'), { count: 2 });
});

test('without a Worker calls are made by POST, and an interrupt answers what is under way', WITH_PROGRAM, async (t) => {
  const served = await servedFor(t, [`${TOP}examples/counter/script.js`, folderFor(t), '--slots', '4', '--quiet']);
  const add = () => fetch(`${served.url}/Counter/a/increment`, { method: 'POST', body: '[]' }).then((response) => response.json());
  const counts = await Promise.all(Array.from({ length: 50 }, add));
  assert.deepEqual(counts.sort((one, other) => one - other), Array.from({ length: 50 }, (_, at) => at + 1));
  served.child.kill('SIGINT');
  assert.equal(await served.status, 0);
  assert.doesNotMatch(served.printed, /POST/);
});

test('an interrupt under the load of 16 clients loses no request that was taken', WITH_PROGRAM, async (t) => {
  const worker = fileFor(t, 'worker.mjs', `export default {
    async fetch(request, env) {
      const object = env.Counter.getByName('a');
      await object.increment();
      return Response.json(await object.value() > 0);
    },
  };`);
  const served = await servedFor(t, [worker, `${TOP}examples/counter/script.js`, folderFor(t), '--slots', '4']);
  const statuses = new Set();
  let answered = 0;
  const clients = Array.from({ length: 16 }, async () => {
    for (;;) {
      let response;
      try {
        response = await fetch(served.url, { method: 'POST' });
      } catch {
        return;
      }
      statuses.add(response.status);
      await response.arrayBuffer();
      answered += 1;
    }
  });
  await until(() => answered > 100, 'it answers');
  served.child.kill('SIGINT');
  await Promise.all(clients);
  assert.equal(await served.status, 0);
  assert.deepEqual([...statuses], [200]);
});

test('the room tells its members, and refuses who is not in it', WITH_PROGRAM, async (t) => {
  const served = await servedFor(t, ['examples/room/worker.mjs', 'examples/room/script.js'].map((path) => TOP + path).concat(folderFor(t)));
  const ask = async (method, path, body) => {
    const response = await fetch(served.url + path, { method, body: body && JSON.stringify(body) });
    return [response.status, await response.json()];
  };
  assert.deepEqual(await ask('PUT', '/rooms/lobby/members/ann'), [200, { members: ['ann'] }]);
  assert.deepEqual(await ask('PUT', '/rooms/lobby/members/bob'), [200, { members: ['ann', 'bob'] }]);
  assert.deepEqual(await ask('POST', '/rooms/lobby/messages', { from: 'ann', text: 'hello' }), [201, { number: 1 }]);
  const messages = [{ from: 'ann', number: 1, text: 'hello' }];
  assert.deepEqual(await ask('GET', '/rooms/lobby?name=bob&after=0'), [200, { members: ['ann', 'bob'], messages }]);
  assert.deepEqual(await ask('GET', '/rooms/lobby?name=bob&after=1'), [200, { members: ['ann', 'bob'], messages: [] }]);
  assert.deepEqual(await ask('POST', '/rooms/lobby/messages', { from: 'dan', text: 'hello' }), [409, { error: "dan isn't in the room" }]);
  assert.deepEqual(await ask('POST', '/rooms/lobby/messages', { from: 'ann', text: ' ' }), [400, { error: 'a message has 1 to 2000 letters' }]);
  assert.deepEqual(await ask('DELETE', '/rooms/lobby/members/bob'), [200, { left: true }]);
});

test('words that are wrong, and what can not be opened, are told in a sentence', WITH_PROGRAM, async (t) => {
  const folder = folderFor(t);
  const script = `${TOP}examples/counter/script.js`;
  const cases = [
    [[], 1, /usage: node client\/serve.mjs/],
    [['--help'], 0, /^usage: node client\/serve.mjs/],
    [[script, folder, '--port', '70000'], 1, /--port takes a whole number up to 65535/],
    [[script, folder, '--sloths', '3'], 1, /sloths/],
    [[script, folder, '--slots', '900'], 2, /the option slots is to be a whole number from 1 to 256/],
    [[script, `${folder}/gone`], 2, /there is no folder .*make it with mkdir/],
    [[fileFor(t, 'bad.js', 'class'), folder], 2, /is refused at line 1, column 1/],
    [[fileFor(t, 'none.mjs', 'export default {};'), script, folder], 1, /has no 'export default/],
  ];
  const ends = cases.map(([words]) => new Promise((resolve) => {
    const options = { env: { ...process.env, DURABLE: PROGRAM }, timeout: SLOW };
    execFile(process.execPath, [SERVE, ...words], options, (fault, out, told) => resolve([fault ? fault.code : 0, told || out]));
  }));
  for (const [at, [words, status, why]] of cases.entries()) {
    const [got, told] = await ends[at];
    assert.equal(got, status, `${words}: ${told}`);
    assert.match(told, why);
  }
});
