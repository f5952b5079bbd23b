// The bodies of HTTP requests, of which none has more bytes than a line carries.
import { Failure } from './failures.mjs';

/** The bytes of a request's body. */
export const BODY_LIMIT = 1_048_576;

/** The body of a request has more than `BODY_LIMIT` bytes. */
export class BodyTooLong extends Failure {}
/** The client went away before its request was whole. */
export class ClientGone extends Failure {}

const EMPTY = Buffer.alloc(0);

/** The whole body of a request. */
export function bodyOf(incoming) {
  const { 'content-length': length, 'transfer-encoding': coding } = incoming.headers;
  if (coding === undefined && (length === undefined || length === '0')) return EMPTY;
  if (Number(length) > BODY_LIMIT) throw tooLong();
  return new Promise((resolve, reject) => {
    const pieces = [];
    let size = 0;
    incoming.on('data', (piece) => {
      size += piece.length;
      if (size <= BODY_LIMIT) pieces.push(piece);
      else reject(tooLong());
    });
    incoming.on('end', () => resolve(pieces.length === 1 ? pieces[0] : Buffer.concat(pieces)));
    incoming.on('error', (fault) => reject(new ClientGone('the request was cut off', { cause: fault })));
    incoming.on('close', () => {
      if (!incoming.complete) reject(new ClientGone('the request was cut off'));
    });
  });
}

function tooLong() {
  return new BodyTooLong(`the body of a request has at most ${BODY_LIMIT} bytes`);
}
