import assert from 'node:assert/strict';
import { createServer } from 'node:http';
import { test } from 'node:test';
import { ScriptError } from '../failures.mjs';
import { WITH_PROGRAM, failureOf, hostFor, standInFor, until } from './support.mjs';

const FAILED = { name: 'FetchError', message: '' };

test('a fetch is done by the given function, which is told whose it is', WITH_PROGRAM, async (t) => {
  const host = await hostFor(t, { fetch: async (value, { className, name }) => ({ value, className, name }) });
  assert.deepEqual(await host.env.Cell.getByName('a').outside([1, 'x']), { value: [1, 'x'], className: 'Cell', name: 'a' });
  assert.equal(host.metrics().fetches, 1);
});

test('an answer that the lines do not carry fails the fetch, and its task goes on', WITH_PROGRAM, async (t) => {
  const answers = {
    float: { x: [1.5] },
    past: 2 ** 53,
    undefined: undefined,
    huge: 'x'.repeat(1_048_576),
    deep: JSON.parse('['.repeat(17) + ']'.repeat(17)),
    bytes: new Uint8Array(4),
  };
  const told = [];
  const host = await hostFor(t, { fetch: (what) => answers[what], log: (sentence) => told.push(sentence) });
  for (const what of Object.keys(answers)) assert.deepEqual(await host.env.Cell.getByName('a').tryOutside(what), FAILED, what);
  assert.equal(host.metrics().fetchesFailed, 6);
  assert.equal(told.filter((sentence) => /^fetch \d+ of Cell "a" fails: /.test(sentence)).length, 6);
  assert.equal(await host.env.Cell.getByName('a').value(), 0);
});

test('an answer of nearly a mebibyte comes whole', WITH_PROGRAM, async (t) => {
  const host = await hostFor(t, { fetch: () => 'ä'.repeat(520_000) });
  assert.equal((await host.env.Cell.getByName('a').outside(1)).length, 520_000);
});

test('a function that throws, or gives no answer in time, fails the fetch', WITH_PROGRAM, async (t) => {
  let aborted = 0;
  const fetch = (what, { signal }) => {
    if (what === 'throws') throw new Error('no');
    signal.addEventListener('abort', () => (aborted += 1));
    return new Promise(() => {});
  };
  const host = await hostFor(t, { fetch, fetchDeadline: 200 });
  assert.deepEqual(await host.env.Cell.getByName('a').tryOutside('throws'), FAILED);
  assert.deepEqual(await host.env.Cell.getByName('a').tryOutside('hangs'), FAILED);
  assert.equal(aborted, 1);
  assert.ok((await failureOf(host.env.Cell.getByName('a').outside('hangs'))) instanceof ScriptError);
});

test('the 1,001st fetch of a task is refused by the program, and its error has its name', WITH_PROGRAM, async (t) => {
  const host = await hostFor(t, { fetch: (value) => value });
  assert.equal((await failureOf(host.env.Cell.getByName('a').outsideOften(1_001))).name, 'TooManyCalls');
  assert.equal(host.metrics().fetches, 1_000);
  assert.equal(await host.env.Cell.getByName('a').outsideOften(5), 5);
});

test('an answer that the program refuses all the same fails the fetch', async (t) => {
  const plan = ['asks print ["fetch",1,"C","a","x"]', 'fetched print ["refused",4,"shape"]', 'fetch-failed print ["reply",3,"failed"]'];
  const host = await standInFor(t, plan, { fetch: () => 'fine', tickEvery: 3_600_000 });
  assert.equal(await host.call('C', 'a', 'asks', []), 'failed');
  assert.equal(host.metrics().fetchesFailed, 1);
});

async function serverFor(t, answer) {
  const server = createServer(answer);
  await new Promise((resolve) => server.listen(0, '127.0.0.1', resolve));
  t.after(() => {
    server.closeAllConnections?.();
    server.close();
  });
  return `http://127.0.0.1:${server.address().port}`;
}

test('by itself a fetch is an HTTP request with a JSON answer', WITH_PROGRAM, async (t) => {
  const url = await serverFor(t, (incoming, outgoing) => {
    let body = '';
    incoming.on('data', (piece) => (body += piece));
    incoming.on('end', () => {
      outgoing.writeHead(201, { 'content-type': 'application/json', 'x-mark': 'm' });
      outgoing.end(JSON.stringify({ method: incoming.method, type: incoming.headers['content-type'] ?? null, body, path: incoming.url }));
    });
  });
  const cell = (await hostFor(t)).env.Cell.getByName('a');
  const got = await cell.outside(`${url}/x`);
  assert.deepEqual([got.status, got.headers['x-mark'], got.body], [201, 'm', { method: 'GET', type: null, body: '', path: '/x' }]);
  const posted = await cell.outside({ url, method: 'PUT', headers: { 'content-type': 'text/plain' }, body: 'hello' });
  assert.deepEqual(posted.body, { method: 'PUT', type: 'text/plain', body: 'hello', path: '/' });
  const json = await cell.outside({ url, body: { a: [1] } });
  assert.deepEqual(json.body, { method: 'POST', type: 'application/json', body: '{"a":[1]}', path: '/' });
});

test('by itself a fetch fails at a float, an endless body, a server that is not there, and what is no request', WITH_PROGRAM, async (t) => {
  let cut = 0;
  const url = await serverFor(t, (incoming, outgoing) => {
    outgoing.on('close', () => (cut += outgoing.writableFinished ? 0 : 1));
    outgoing.on('error', () => {});
    outgoing.writeHead(200, { 'content-type': incoming.url === '/float' ? 'application/json' : 'text/plain' });
    if (incoming.url === '/float') outgoing.end('{"x":1.5}');
    else if (incoming.url === '/endless') pour(outgoing);
    else outgoing.end('a text: 1.5');
  });
  const cell = (await hostFor(t)).env.Cell.getByName('a');
  assert.equal((await cell.outside(`${url}/text`)).body, 'a text: 1.5');
  for (const what of [`${url}/float`, `${url}/endless`, 'http://127.0.0.1:1/', 'nonsense', 7, { method: 'GET' }]) {
    assert.deepEqual(await cell.tryOutside(what), FAILED, JSON.stringify(what));
  }
  await until(() => cut === 1, 'the endless answer is cut off');
});

function pour(outgoing) {
  const piece = 'x'.repeat(65_536);
  const more = () => {
    while (!outgoing.destroyed && outgoing.write(piece));
  };
  outgoing.on('drain', more);
  more();
}
