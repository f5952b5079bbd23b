import assert from 'node:assert/strict';
import { test } from 'node:test';
import { ProtocolFault } from '../failures.mjs';
import { PRINTED_LIMIT, RowReader } from '../lines.mjs';
import { Queue } from '../queue.mjs';

function rowsOf(pieces) {
  const rows = [];
  const reader = new RowReader((row) => rows.push(row));
  for (const piece of pieces) reader.push(Buffer.from(piece));
  return rows;
}

test('rows are the same however their bytes are cut', () => {
  const rows = [['reply', 1, 'ä\u{1f600}'], ['reply', 2, [null]], ['fetch', 3, 'C', 'a', { k: '\n' }]];
  const bytes = Buffer.from(rows.map((row) => `${JSON.stringify(row)}\n`).join(''));
  for (let size = 1; size <= bytes.length; size += 1) {
    const pieces = [];
    for (let at = 0; at < bytes.length; at += size) pieces.push(bytes.subarray(at, at + size));
    assert.deepEqual(rowsOf(pieces), rows);
  }
});

test('a line that has not ended is no row', () => {
  assert.deepEqual(rowsOf(['["reply",1,2]\n["reply"']), [['reply', 1, 2]]);
});

test('what is no row is a fault, as is a line without an end', () => {
  assert.throws(() => rowsOf(['nonsense\n']), ProtocolFault);
  assert.throws(() => rowsOf(['7\n']), ProtocolFault);
  const reader = new RowReader(() => {});
  const piece = Buffer.alloc(2 ** 20, 'x');
  for (let size = 0; size < PRINTED_LIMIT; size += piece.length) reader.push(piece);
  assert.throws(() => reader.push(piece), ProtocolFault);
});

test('a queue gives what came first, over many comings and goings', () => {
  const queue = new Queue();
  let given = 0;
  for (let at = 0; at < 10_000; at += 1) {
    queue.add(at);
    if (at % 3 === 2) assert.equal(queue.take(), given++);
  }
  assert.equal(queue.peek(), given);
  while (queue.size > 0) assert.equal(queue.take(), given++);
  assert.equal(given, 10_000);
});
