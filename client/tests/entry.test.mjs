import assert from 'node:assert/strict';
import { EventEmitter } from 'node:events';
import { request } from 'node:http';
import { connect } from 'node:net';
import { test } from 'node:test';
import { createEntry } from '../entry.mjs';
import { Log } from '../log.mjs';
import { installWeb } from '../web.mjs';
import { WITH_PROGRAM, hostFor, pause, standInFor, until } from './support.mjs';

installWeb();

// A server over a host, with the lines of its log.
async function entryFor(t, host, worker) {
  const lines = [];
  const log = { hasRequests: true, request: ({ method, url }, status) => lines.push(`${method} ${url} ${status}`), tell: (sentence) => lines.push(sentence) };
  const { server, untilIdle } = createEntry({ host, worker, log });
  await new Promise((resolve) => server.listen(0, '127.0.0.1', resolve));
  t.after(() => {
    server.closeAllConnections?.();
    server.close();
  });
  return { url: `http://127.0.0.1:${server.address().port}`, lines, untilIdle };
}

async function post(url, body, headers = {}) {
  const response = await fetch(url, { method: 'POST', body: typeof body === 'string' ? body : JSON.stringify(body), headers });
  return [response.status, await response.json()];
}

test('POST /Class/name/method with a JSON list gives the JSON value', WITH_PROGRAM, async (t) => {
  const { url, lines } = await entryFor(t, await hostFor(t));
  assert.deepEqual(await post(`${url}/Cell/a/add`, [5]), [200, 5]);
  assert.deepEqual(await post(`${url}/Cell/a/add`, [2]), [200, 7]);
  assert.deepEqual(await post(`${url}/Cell/a/value`, ''), [200, 7]);
  assert.deepEqual(await post(`${url}/Cell/a/nothing?x=1`, []), [200, null]);
  assert.deepEqual(await post(`${url}/Cell/${encodeURIComponent('ä/b c')}/add`, [1]), [200, 1]);
  assert.deepEqual(await post(`${url}/Cell/${encodeURIComponent('ä/b c')}/echo`, [{ ä: ['\u{1f600}'] }]), [200, { ä: ['\u{1f600}'] }]);
  await until(() => lines.length === 6, 'each request is logged');
  assert.equal(lines[0], 'POST /Cell/a/add 200');
});

test('each failure has a status that fits it', WITH_PROGRAM, async (t) => {
  const host = await hostFor(t, { slots: 3, journalBytes: 4_096 });
  const { url } = await entryFor(t, host);
  const cases = [
    ['/Gone/a/m', [], 404, 'NoClass'],
    ['/Cell/a/gone', [], 404, 'NoMethod'],
    ['/Cell/a/message', [], 409, 'Error'],
    ['/Cell/a/fail', [{ name: 'TooManyCalls', message: '' }], 429, 'TooManyCalls'],
    ['/Cell/a/fail', [{ name: 'Depth', message: '' }], 429, 'Depth'],
    ['/Cell/a/fail', [{ name: 'RangeError', message: 'key' }], 409, 'RangeError'],
    ['/Cell/a/spin', [], 500, 'Exceeded'],
    ['/Cell/a/echo', '[1.5]', 400, 'UnsupportedValue'],
    ['/Cell/a/echo', '[9007199254740993]', 400, 'UnsupportedValue'],
    ['/Cell/a/echo', '{"a":1}', 400, 'BadRequest'],
    ['/Cell/a/echo', '[1', 400, 'BadRequest'],
    ['/Cell/%zz/echo', [1], 400, 'BadRequest'],
    ['/Cell/a', [], 404, 'BadRequest'],
    ['/Cell/a/echo/more', [], 404, 'BadRequest'],
    ['/Broken/b/ping', [], 503, 'Reset'],
    ['/Cell/c/keep', ['x'.repeat(5_000)], 503, 'Reset'],
    ['/Cell/d/value', [], 503, 'NoSlot'],
  ];
  for (const [path, body, status, name] of cases) {
    const [got, told] = await post(url + path, body);
    assert.deepEqual([got, told.error.name], [status, name], path);
    assert.ok(told.error.message.length > 0 || status === 429, path);
  }
  const [, full] = await post(`${url}/Cell/c/keep`, ['x'.repeat(5_000)]);
  assert.equal(full.error.cause.kind, 'full');
});

test('what is no POST, comes from a page of another site, or is too long is refused', WITH_PROGRAM, async (t) => {
  const { url } = await entryFor(t, await hostFor(t));
  const got = await fetch(`${url}/Cell/a/value`);
  assert.deepEqual([got.status, got.headers.get('allow')], [405, 'POST']);
  await got.arrayBuffer();
  assert.equal((await post(`${url}/Cell/a/add`, [1], { origin: 'http://elsewhere.example' }))[0], 403);
  assert.equal((await post(`${url}/Cell/a/add`, [1], { origin: url }))[0], 200);
  assert.equal((await post(`${url}/Cell/a/echo`, ['x'.repeat(1_048_570)]))[0], 413);
  assert.equal(await postUnmeasured(`${url}/Cell/a/echo`), 413);
  assert.deepEqual(await post(`${url}/Cell/a/value`, []), [200, 1]);
});

// Posts a body whose length isn't told before, and gives the status.
function postUnmeasured(url) {
  return new Promise((resolve, reject) => {
    const asked = request(url, { method: 'POST' }, (response) => {
      response.resume();
      resolve(response.statusCode);
    });
    asked.on('error', reject);
    for (let piece = 0; piece < 20; piece += 1) asked.write('x'.repeat(65_536));
    asked.end();
  });
}

test('an unknown outcome is 502, and 503 tells a client to come again', async (t) => {
  const host = await standInFor(t, ['die exit 4', 'down print ["error",N,"Down",2,3]']);
  const { url } = await entryFor(t, host);
  const [status, told] = await post(`${url}/C/a/die`, []);
  assert.deepEqual([status, told.error.name], [502, 'UnknownOutcome']);
  const down = await fetch(`${url}/C/a/down`, { method: 'POST' });
  assert.deepEqual([down.status, down.headers.get('retry-after')], [503, '1']);
  const { error } = await down.json();
  assert.deepEqual([error.name, error.before, error.after], ['Down', 2, 3]);
  await host.close();
  assert.equal((await post(`${url}/C/a/down`, []))[0], 503);
  assert.equal((await fetch(`${url}/health`)).status, 503);
});

test('health tells whether it serves, and metrics count what was done', WITH_PROGRAM, async (t) => {
  const host = await hostFor(t);
  const { url } = await entryFor(t, host);
  const health = await fetch(`${url}/health`);
  assert.deepEqual([health.status, await health.json()], [200, { state: 'serving' }]);
  await post(`${url}/Cell/a/add`, [1]);
  await post(`${url}/Cell/a/message`, []);
  await post(`${url}/Gone/a/m`, []);
  const metrics = await (await fetch(`${url}/metrics`)).text();
  for (const line of ['calls_total 3', 'replies_total 1', 'failures_total{kind="Thrown"} 1', 'failures_total{kind="NoClass"} 1']) {
    assert.ok(metrics.split('\n').includes(`durable_${line}`), line);
  }
  for (const start of ['ticks_total', 'restarts_total 0', 'rotations_total 0', 'calls_under_way 0', 'calls_waiting 0']) {
    assert.ok(metrics.includes(`\ndurable_${start}`), start);
  }
  assert.ok(Number(/\ndurable_lines_total (\d+)/.exec(metrics)[1]) >= 5);
  assert.ok(Number(/\ndurable_program_memory_bytes (\d+)/.exec(metrics)[1]) > 100_000);
});

test('a Worker answers, over the objects, and what it leaves to waitUntil goes on', WITH_PROGRAM, async (t) => {
  let later;
  const worker = {
    async fetch(request, env, ctx) {
      const url = new URL(request.url);
      assert.ok(request instanceof Request);
      if (url.pathname === '/add') {
        const { by } = await request.json();
        return Response.json({ sum: await env.Cell.getByName('a').add(by) }, { status: 201, headers: { 'x-by': request.headers.get('x-by') } });
      }
      ctx.waitUntil(pause(20).then(() => (later = url.searchParams.get('word'))));
      return new Response('later');
    },
  };
  const { url, untilIdle } = await entryFor(t, await hostFor(t), worker);
  const response = await fetch(`${url}/add`, { method: 'POST', body: '{"by":3}', headers: { 'x-by': 'me' } });
  assert.deepEqual([response.status, response.headers.get('x-by'), await response.json()], [201, 'me', { sum: 3 }]);
  assert.equal(await (await fetch(`${url}/later?word=ä`)).text(), 'later');
  await untilIdle();
  assert.equal(later, 'ä');
});

test('a Worker that streams, redirects, sets cookies or answers nothing is answered so', WITH_PROGRAM, async (t) => {
  const pieces = ['one ', 'two ', 'ä'].map((piece) => new TextEncoder().encode(piece));
  const answers = {
    '/stream': () => new Response(new ReadableStream({ pull: (to) => (pieces.length > 0 ? to.enqueue(pieces.shift()) : to.close()) })),
    '/redirect': () => Response.redirect('http://127.0.0.1/there', 303),
    '/cookies': () => new Response('c', { headers: [['set-cookie', 'a=1'], ['set-cookie', 'b=2']] }),
    '/nothing': () => new Response(null, { status: 204 }),
    '/bytes': () => new Response(new Uint8Array([1, 2, 255]), { headers: { 'content-type': 'application/x-bytes' } }),
  };
  const { url } = await entryFor(t, await hostFor(t), { fetch: (request) => answers[new URL(request.url).pathname]() });
  assert.equal(await (await fetch(`${url}/stream`)).text(), 'one two ä');
  const redirected = await fetch(`${url}/redirect`, { redirect: 'manual' });
  assert.deepEqual([redirected.status, redirected.headers.get('location')], [303, 'http://127.0.0.1/there']);
  assert.equal((await fetch(`${url}/cookies`)).headers.get('set-cookie'), 'a=1, b=2');
  assert.equal((await fetch(`${url}/nothing`)).status, 204);
  const bytes = await fetch(`${url}/bytes`);
  assert.deepEqual([...new Uint8Array(await bytes.arrayBuffer())], [1, 2, 255]);
  const head = await fetch(`${url}/bytes`, { method: 'HEAD' });
  assert.deepEqual([head.headers.get('content-length'), await head.text()], ['3', '']);
});

test('what a Worker lets through has the status that it would have without one, and its own errors are told to the log alone', WITH_PROGRAM, async (t) => {
  const worker = {
    async fetch(request, env) {
      if (request.url.endsWith('/script')) await env.Cell.getByName('a').message();
      if (request.url.endsWith('/class')) await env.Cell.getByName('a').gone();
      if (request.url.endsWith('/nothing')) return undefined;
      throw new Error('a secret of the Worker');
    },
  };
  const { url, lines } = await entryFor(t, await hostFor(t), worker);
  for (const [path, status] of [['/script', 409], ['/class', 404], ['/nothing', 500], ['/own', 500]]) {
    const response = await fetch(url + path);
    assert.equal(response.status, status, path);
    assert.ok(!(await response.text()).includes('secret'));
  }
  assert.ok(lines.some((line) => line.includes('a secret of the Worker')));
});

test('a client that goes away leaves nothing behind', WITH_PROGRAM, async (t) => {
  const host = await hostFor(t);
  const { url, lines } = await entryFor(t, host);
  const socket = connect(Number(new URL(url).port), '127.0.0.1');
  socket.end('POST /Cell/a/add HTTP/1.1\r\nhost: x\r\ncontent-length: 100\r\n\r\n[1');
  socket.resume();
  await until(() => lines.length === 1, 'it is logged');
  assert.equal(host.metrics().calls, 0);
  assert.deepEqual(await post(`${url}/Cell/a/value`, []), [200, 0]);
});

test('a log that is not taken keeps a mebibyte, and tells how much it left out', async () => {
  const taken = [];
  const stream = Object.assign(new EventEmitter(), { writableLength: 2 ** 21, write: (text) => taken.push(text) });
  const log = new Log(stream);
  for (let at = 0; at < 5; at += 1) log.request({ method: 'GET', url: '/x' }, 200, 1.25);
  stream.writableLength = 0;
  log.request({ method: 'GET', url: '/y' }, 200, 1.25);
  await until(() => taken.length > 0, 'it is written');
  assert.match(taken.join(''), /^\(5 lines were left out.*\n\S+Z GET \/y 200 1\.3 ms\n$/);
});

test('a log whose stream fails is told of once, and is no longer written', async () => {
  const taken = [];
  const faults = [];
  const stream = Object.assign(new EventEmitter(), { writableLength: 0, write: (text) => taken.push(text) });
  const log = new Log(stream, { onFault: (fault) => faults.push(fault.message) });
  stream.emit('error', new Error('EPIPE'));
  stream.emit('error', new Error('EPIPE'));
  log.tell('nobody hears this');
  await pause(10);
  assert.deepEqual([faults, taken], [['EPIPE'], []]);
});
