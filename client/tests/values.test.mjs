import assert from 'node:assert/strict';
import { test } from 'node:test';
import { LineTooLong, UnsupportedValue } from '../failures.mjs';
import { encodeArguments, encodeCall } from '../values.mjs';
import { WITH_PROGRAM, byCallers, chanceOf, failureOf, hostFor } from './support.mjs';

const refused = [
  ['a float', [1.5], 'argument 1 is 1.5: a number is whole'],
  ['not a number', [NaN], 'argument 1 is NaN'],
  ['infinity', [Infinity], 'argument 1 is Infinity'],
  ['a number past 2^53 - 1', [2 ** 53], 'argument 1 is 9007199254740992'],
  ['a number below -(2^53 - 1)', [-(2 ** 53)], 'argument 1 is -9007199254740992'],
  ['a big integer', [5n], 'argument 1 is the big integer 5'],
  ['undefined before the last', [undefined, 1], 'argument 1 is undefined'],
  ['undefined in a list', [[1, undefined]], 'argument 1[1] is undefined'],
  ['a hole in a list', [Array(2)], 'argument 1[0] is undefined'],
  ['a function', [() => 1], 'argument 1 is a function'],
  ['a symbol', [Symbol('s')], 'argument 1 is a symbol'],
  ['a date', [new Date(0)], 'argument 1 is an object of Date'],
  ['a map', [new Map()], 'argument 1 is an object of Map'],
  ['bytes', [new Uint8Array(1)], 'argument 1 is an object of Uint8Array'],
  ['half of a surrogate pair', ['a\ud800'], 'argument 1 has half of a surrogate pair'],
  ['half of a surrogate pair in a key', [{ 'a\udc00': 1 }], 'half of a surrogate pair'],
  ['a float that stands deep', [0, { price: [1, 2.5] }], 'argument 2["price"][1] is 2.5'],
];

for (const [what, args, why] of refused) {
  test(`the lines don't carry ${what}`, () => {
    assert.throws(() => encodeArguments(args), (failure) => failure instanceof UnsupportedValue && failure.message.includes(why));
  });
}

test('a value that holds itself is refused as one that is too deep', () => {
  const list = [];
  list.push(list);
  assert.throws(() => encodeArguments([list]), /16 lists and records/);
});

test('16 levels are carried and 17 are not', () => {
  assert.equal(encodeArguments([nested(16)]), `[${'['.repeat(16)}${']'.repeat(16)}]`);
  assert.throws(() => encodeArguments([nested(17)]), UnsupportedValue);
});

test('arguments at the end and fields that are undefined are left out', () => {
  assert.equal(encodeArguments([1, undefined, undefined]), '[1]');
  assert.equal(encodeArguments([{ a: undefined, b: null }]), '[{"b":null}]');
  assert.equal(encodeArguments([-0]), '[0]');
});

test('an encoding of more than 4,194,304 bytes is refused though its line is short', () => {
  // 5 for the list and 9 for each number.
  assert.ok(encodeArguments([Array(466_033).fill(1)]).length < 1_048_576);
  assert.throws(() => encodeArguments([Array(466_034).fill(1)]), UnsupportedValue);
});

test('a name of 1,024 bytes is carried and one of a byte more is not', () => {
  assert.ok(encodeCall('C', 'é'.repeat(512), 'm', []));
  assert.throws(() => encodeCall('C', `${'é'.repeat(512)}x`, 'm', []), UnsupportedValue);
  assert.throws(() => encodeCall('C', 7, 'm', []), UnsupportedValue);
});

test('a call whose line would be too long is refused before it is sent', WITH_PROGRAM, async (t) => {
  const host = await hostFor(t);
  const cell = host.env.Cell.getByName('a');
  assert.equal(await cell.echo('x'.repeat(1_048_000)), 'x'.repeat(1_048_000));
  assert.ok((await failureOf(cell.echo('x'.repeat(1_048_576)))) instanceof LineTooLong);
  assert.ok((await failureOf(cell.echo('\u0001'.repeat(200_000)))) instanceof LineTooLong);
  assert.equal(await cell.echo(1), 1);
});

test('what the client takes the program takes too, at the limits', WITH_PROGRAM, async (t) => {
  const host = await hostFor(t);
  const cell = host.env.Cell.getByName('a');
  assert.deepEqual(await cell.echo(nested(16)), nested(16));
  assert.equal(await cell.echo(2 ** 53 - 1), 2 ** 53 - 1);
  assert.equal(await cell.echo(1 - 2 ** 53), 1 - 2 ** 53);
  assert.equal(await cell.count(Array(466_033).fill(1)), 466_033);
  assert.equal(await host.env.Cell.getByName('é'.repeat(512)).echo(3), 3);
  assert.equal((await host.metrics()).failures.Refused, undefined);
});

test('a thousand random values come back as they went', WITH_PROGRAM, async (t) => {
  const host = await hostFor(t);
  const chance = chanceOf(20261130);
  await byCallers(16, 1_000, async (at) => {
    const value = randomValue(chance, 1 + Math.floor(chance() * 5));
    assert.deepStrictEqual(await host.env.Cell.getByName(`o${at % 8}`).echo(value), value);
  });
});

function nested(levels) {
  let value = [];
  for (let level = 1; level < levels; level += 1) value = [value];
  return value;
}

const TEXTS = ['', 'a', 'ä', '\u0000', '\n\r\t"\\', '\u2028', '\ue000', '\u{10000}', '\u{1f600}\u200d', '__proto__', 'constructor', '7', 'x'.repeat(5_000)];
const NUMBERS = [0, 1, -1, 2 ** 31, -(2 ** 31), 2 ** 53 - 1, 1 - 2 ** 53];

function randomValue(chance, depth) {
  const pick = (list) => list[Math.floor(chance() * list.length)];
  const kinds = ['null', 'truth', 'number', 'text', ...(depth > 0 ? ['list', 'record', 'list', 'record'] : [])];
  const parts = () => Array.from({ length: Math.floor(chance() * 5) }, () => randomValue(chance, depth - 1));
  switch (pick(kinds)) {
    case 'null': return null;
    case 'truth': return chance() < 0.5;
    case 'number': return chance() < 0.5 ? pick(NUMBERS) : Math.floor((chance() - 0.5) * 2 ** 53);
    case 'text': return pick(TEXTS) + String.fromCodePoint(Math.floor(chance() * 0xd800)) + pick(TEXTS);
    case 'list': return parts();
    default: return Object.fromEntries(parts().map((part) => [pick(TEXTS) + Math.floor(chance() * 10), part]).concat(chance() < 0.3 ? [['__proto__', 1]] : []));
  }
}
