import assert from 'node:assert/strict';
import { test } from 'node:test';
import { IncomingRequest, OutgoingResponse, installWeb } from '../web.mjs';

const NodeRequest = globalThis.Request;
const NodeResponse = globalThis.Response;

function incoming(method, headers) {
  return { method, rawHeaders: headers.flat() };
}

// What there is to see of a request, from its body last.
async function seenOf(request) {
  const { method, url, cache, credentials, destination, integrity, keepalive, mode, redirect, referrer, bodyUsed } = request;
  const headers = [...request.headers];
  return { method, url, cache, credentials, destination, integrity, keepalive, mode, redirect, referrer, bodyUsed, headers, text: await request.text() };
}

const HEADERS = [['content-type', 'application/json'], ['X-Two', 'a'], ['x-two', 'b']];
const URL_ASKED = 'http://127.0.0.1:8787/x?y=1';

test('a request is what one of Node is, and is one', async () => {
  for (const [method, body] of [['POST', '{"a":"ä"}'], ['GET', undefined]]) {
    const own = () => new IncomingRequest(incoming(method, HEADERS), URL_ASKED, Buffer.from(body ?? ''));
    assert.ok(own() instanceof NodeRequest);
    assert.deepEqual(await seenOf(own()), await seenOf(new NodeRequest(URL_ASKED, { method, headers: HEADERS, body })));
  }
});

test('the body of a request is read once, by whatever reads it', async () => {
  const own = () => new IncomingRequest(incoming('POST', HEADERS), URL_ASKED, Buffer.from('[1]'));
  assert.deepEqual(await own().json(), [1]);
  assert.equal(Buffer.from(await own().arrayBuffer()).toString(), '[1]');
  assert.equal(await (await own().blob()).text(), '[1]');
  const used = own();
  await used.text();
  assert.equal(used.bodyUsed, true);
  await assert.rejects(() => used.json(), TypeError);
  assert.throws(() => used.clone(), TypeError);
  const cloned = own();
  assert.deepEqual(await cloned.clone().json(), [1]);
  assert.deepEqual(await cloned.json(), [1]);
  const streamed = own();
  let text = '';
  for await (const piece of streamed.body) text += Buffer.from(piece);
  assert.deepEqual([text, streamed.bodyUsed], ['[1]', true]);
  await assert.rejects(() => streamed.text(), TypeError);
});

test('a response is what one of Node is, and is one', async () => {
  const made = [
    [['a text']],
    [['{"a":1}', { status: 201, headers: { 'content-type': 'application/json', 'x-y': '1' } }]],
    [[null, { status: 204 }]],
    [[undefined]],
    [['', { status: 404, statusText: 'Gone Missing' }]],
    [[new Uint8Array([65, 66]), { headers: [['a', '1'], ['b', '2']] }]],
    [[new URLSearchParams({ a: '1' })]],
    [[new Blob(['x'], { type: 'text/x' })]],
  ];
  for (const [words] of made) {
    const own = new OutgoingResponse(...words);
    const nodes = new NodeResponse(...words);
    assert.ok(own instanceof NodeResponse);
    const { status, ok, statusText, type, redirected, url, bodyUsed } = nodes;
    assert.deepEqual({ status, ok, statusText, type, redirected, url, bodyUsed }, pick(own));
    assert.deepEqual([...own.headers], [...nodes.headers]);
    assert.equal(await own.text(), await nodes.text());
    assert.equal(own.bodyUsed, nodes.bodyUsed);
  }
});

function pick({ status, ok, statusText, type, redirected, url, bodyUsed }) {
  return { status, ok, statusText, type, redirected, url, bodyUsed };
}

test('a response that Node refuses is refused', () => {
  for (const words of [['x', { status: 99 }], ['x', { status: 600 }], ['x', { status: 204 }]]) {
    assert.throws(() => new NodeResponse(...words));
    assert.throws(() => new OutgoingResponse(...words));
  }
});

test('headers that are set behind the making of a response stay', async () => {
  const own = OutgoingResponse.json({ a: 1 }, { status: 202 });
  own.headers.set('x-late', '1');
  assert.deepEqual([own.status, own.headers.get('content-type'), own.headers.get('x-late')], [202, 'application/json', '1']);
  const whole = own.clone();
  assert.deepEqual([whole.status, whole.headers.get('x-late'), await whole.json()], [202, '1', { a: 1 }]);
  assert.deepEqual(await own.json(), { a: 1 });
});

test('a Worker may hand its request on, and tells responses of both kinds', async () => {
  installWeb();
  const own = new IncomingRequest(incoming('POST', HEADERS), URL_ASKED, Buffer.from('[1]'));
  const copied = new Request(own, { headers: { 'x-new': '1' } });
  assert.deepEqual([copied.method, copied.url, copied.headers.get('x-new'), await copied.json()], ['POST', URL_ASKED, '1', [1]]);
  assert.ok(own instanceof Request && copied instanceof Request);
  assert.ok(new NodeResponse('x') instanceof Response);
  assert.ok(new Response('x') instanceof Response);
  assert.ok(!({} instanceof Response) && !(null instanceof Response));
  assert.equal(Response.redirect('http://127.0.0.1/').status, 302);
});
