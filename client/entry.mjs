// The HTTP entry: a Worker that answers requests over the objects of a host, or, without one, a call for each `POST /Class/name/method`.
import { createServer } from 'node:http';
import { Readable } from 'node:stream';
import { pipeline } from 'node:stream/promises';
import { ClientGone, bodyOf } from './bodies.mjs';
import { Failure } from './failures.mjs';
import { metricsText } from './metrics.mjs';
import { BadRequest, shownError, statusOf } from './replies.mjs';
import { IncomingRequest } from './web.mjs';

const MOST_CONNECTIONS = 1_024;
const KEEP_ALIVE = 65_000;
const REQUEST_LIMIT = 60_000;
const JSON_TYPE = 'application/json';

/**
 * A server, not yet listening, and `untilIdle()`, which waits until each request is answered and takes the connections away behind them. `host` is a host, or the promise of one, for which requests then wait. `worker` has a `fetch(request, env, ctx)`, or is
 * undefined. `log` has `tell(sentence)`, and `request(incoming, status, milliseconds)` where its `hasRequests` is true.
 */
export function createEntry({ host, worker, log }) {
  const entry = new Entry(host, worker, log);
  const server = createServer({ keepAliveTimeout: KEEP_ALIVE, requestTimeout: REQUEST_LIMIT }, (incoming, outgoing) => entry.handle(incoming, outgoing));
  server.maxConnections = MOST_CONNECTIONS;
  return { server, untilIdle: () => entry.untilIdle() };
}

class Entry {
  #opening;
  #host;
  #worker;
  #log;
  #underWay = 0;
  #behind = new Set();
  #isEnding = false;
  #settled = () => {};

  constructor(host, worker, log) {
    this.#opening = Promise.resolve(host).then((opened) => (this.#host = opened));
    // Whoever opens it tells why it doesn't open; a request that waits for it tells its client.
    this.#opening.catch(() => {});
    this.#worker = worker;
    this.#log = log;
  }

  /** Waits until no request is under way, nor what Workers have handed to `ctx.waitUntil`. */
  async untilIdle() {
    this.#isEnding = true;
    while (this.#underWay > 0 || this.#behind.size > 0) await new Promise((resolve) => (this.#settled = resolve));
  }

  handle(incoming, outgoing) {
    const begun = this.#log.hasRequests ? performance.now() : 0;
    this.#underWay += 1;
    outgoing.once('close', () => {
      this.#underWay -= 1;
      this.#settled();
      if (this.#log.hasRequests) this.#log.request(incoming, outgoing.writableEnded ? outgoing.statusCode : 0, performance.now() - begun);
    });
    if (this.#isEnding) outgoing.shouldKeepAlive = false;
    this.#answer(incoming, outgoing).catch((error) => this.#fail(outgoing, error));
  }

  async #answer(incoming, outgoing) {
    if (!this.#host) await this.#opening;
    if (incoming.method === 'GET' && incoming.url === '/health') return this.#tellHealth(outgoing);
    if (incoming.method === 'GET' && incoming.url === '/metrics') return send(outgoing, 200, 'text/plain; version=0.0.4', metricsText(this.#host.metrics()));
    const body = await bodyOf(incoming);
    if (this.#worker) return await this.#ask(incoming, outgoing, body);
    const { className, name, method, args } = callOf(incoming, body);
    const value = await this.#host.call(className, name, method, args);
    return send(outgoing, 200, JSON_TYPE, JSON.stringify(value));
  }

  #tellHealth(outgoing) {
    const { state } = this.#host;
    const isWell = state === 'serving' || state === 'rotating';
    send(outgoing, isWell ? 200 : 503, JSON_TYPE, JSON.stringify({ state }));
  }

  async #ask(incoming, outgoing, body) {
    const request = new IncomingRequest(incoming, addressOf(incoming), body);
    const response = await this.#worker.fetch(request, this.#host.env, {
      waitUntil: (promise) => this.#keep(promise),
      passThroughOnException() {},
    });
    if (!(response instanceof Response)) throw new TypeError('the Worker answered what is no Response');
    await sendResponse(outgoing, response);
  }

  #keep(promise) {
    const kept = Promise.resolve(promise)
      .catch((error) => this.#log.tell(`what a Worker left to waitUntil failed: ${error?.stack ?? error}`))
      .finally(() => {
        this.#behind.delete(kept);
        this.#settled();
      });
    this.#behind.add(kept);
  }

  #fail(outgoing, error) {
    if (error instanceof ClientGone || outgoing.destroyed) return;
    const status = statusOf(error);
    if (status === 500 && !(error instanceof Failure)) this.#log.tell(`a request failed: ${error?.stack ?? error}`);
    if (outgoing.headersSent) {
      outgoing.destroy();
      return;
    }
    // What is left of a body that is too long isn't read.
    if (status === 413) outgoing.setHeader('connection', 'close');
    if (status === 405) outgoing.setHeader('allow', 'POST');
    if (status === 429 || status === 503) outgoing.setHeader('retry-after', '1');
    send(outgoing, status, JSON_TYPE, JSON.stringify({ error: shownError(error) }));
  }
}

function callOf(incoming, body) {
  if (isFromElsewhere(incoming)) throw new BadRequest('a page of another site may not call objects', { status: 403 });
  const words = incoming.url.split('?', 1)[0].split('/');
  if (words.length !== 4) throw new BadRequest('a call is POST /Class/name/method with a JSON list of arguments', { status: 404 });
  if (incoming.method !== 'POST') throw new BadRequest('a call is made by POST', { status: 405 });
  const [className, name, method] = words.slice(1).map(decoded);
  return { className, name, method, args: argumentsOf(body) };
}

function argumentsOf(body) {
  if (body.length === 0) return [];
  let args;
  try {
    args = JSON.parse(body.toString('utf8'));
  } catch (fault) {
    throw new BadRequest(`the body is no JSON: ${fault.message}`, { status: 400 });
  }
  if (!Array.isArray(args)) throw new BadRequest('the body is to be a JSON list of arguments', { status: 400 });
  return args;
}

function decoded(word) {
  if (!word.includes('%')) return word;
  try {
    return decodeURIComponent(word);
  } catch {
    throw new BadRequest(`${JSON.stringify(word)} isn't encoded as a part of a URL is`, { status: 400 });
  }
}

// A browser tells where a page that posts comes from; what is no browser doesn't.
function isFromElsewhere({ headers }) {
  return headers.origin !== undefined && headers.origin.split('://')[1] !== headers.host;
}

function addressOf(incoming) {
  return incoming.url.startsWith('/') ? `http://${incoming.headers.host ?? 'localhost'}${incoming.url}` : incoming.url;
}

function send(outgoing, status, type, text) {
  outgoing.writeHead(status, { 'content-type': type, 'content-length': Buffer.byteLength(text) });
  outgoing.end(text);
}

async function sendResponse(outgoing, response) {
  const body = response.plainBody;
  const headers = [...response.headers].flat();
  if (body !== undefined) {
    if (body !== null && !response.headers.has('content-length')) headers.push('content-length', Buffer.byteLength(body));
    outgoing.writeHead(response.status, headers);
    outgoing.end(body ?? undefined);
    return;
  }
  outgoing.writeHead(response.status, response.statusText, headers);
  if (response.body === null) outgoing.end();
  else await pipeline(Readable.fromWeb(response.body), outgoing);
}
