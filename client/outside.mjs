// What a script's fetch does where the host isn't told otherwise: an HTTP request by Node, with an answer that the lines can carry.
import { FetchRefused, FetchTimedOut } from './failures.mjs';

const BODY_LIMIT = 1_048_576;

/**
 * Fetches a URL, or what `{url, method, headers, body}` asks for; a body that is no text is sent as JSON.
 * The answer is `{status, headers, body}`, the body read as JSON where its type says so, else as text.
 */
export async function fetchOutside(value, { signal } = {}) {
  const { url, ...init } = requestOf(value);
  return await recordOf(await fetch(url, { ...init, signal }));
}

/** The record of a `Response`: its status, its headers and its body, of at most a mebibyte. */
export async function recordOf(response) {
  const text = await textOf(response);
  const isJson = /^application\/(?:[^;]*\+)?json\b/i.test(response.headers.get('content-type') ?? '');
  return { status: response.status, headers: Object.fromEntries(response.headers), body: isJson && text !== '' ? JSON.parse(text) : text };
}

/** What the work gives, unless it takes longer or is aborted before; the controller is aborted at its end. */
export async function within(milliseconds, controller, work) {
  const { signal } = controller;
  const cut = new Promise((_, reject) => {
    signal.addEventListener('abort', () => reject(signal.reason), { once: true });
  });
  const timer = setTimeout(() => controller.abort(new FetchTimedOut(`it took longer than ${milliseconds} ms`)), milliseconds);
  try {
    return await Promise.race([work, cut]);
  } finally {
    clearTimeout(timer);
    controller.abort();
  }
}

function requestOf(value) {
  if (typeof value === 'string') return { url: value };
  if (value === null || typeof value !== 'object' || typeof value.url !== 'string') {
    throw new FetchRefused('a fetch is of a URL or of {url, method, headers, body}');
  }
  const { url, method, headers, body } = value;
  if (body === undefined || typeof body === 'string') return { url, method, headers, body };
  return { url, method: method ?? 'POST', headers: { 'content-type': 'application/json', ...headers }, body: JSON.stringify(body) };
}

async function textOf(response) {
  if (response.body === null) return '';
  const pieces = [];
  let size = 0;
  for await (const piece of response.body) {
    size += piece.length;
    if (size > BODY_LIMIT) throw new FetchRefused(`the answer of ${response.url} has more than ${BODY_LIMIT} bytes`);
    pieces.push(piece);
  }
  return new TextDecoder().decode(Buffer.concat(pieces));
}
