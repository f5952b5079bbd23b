// A folder of four journals that a program of version 1 wrote (docs/FORMATS.md): the real files, brought over by the program that is built.
import assert from 'node:assert/strict';
import { spawnSync } from 'node:child_process';
import { copyFileSync, readFileSync } from 'node:fs';
import { join } from 'node:path';
import { test } from 'node:test';
import { fileURLToPath } from 'node:url';
import { PROGRAM, WITH_PROGRAM, folderFor, hostFor } from './support.mjs';

const OLDER = fileURLToPath(new URL('older', import.meta.url));
const JOURNALS = ['slot-000.journal', 'slot-001.journal', 'slot-002.journal', 'slot-003.journal'];
// What they hold, by a reader of the format in another language.
const HELD = [
  ['object', 0, 'Shelf', 'a'],
  ['pair', 0, '', -7],
  ['pair', 0, 'k', 5],
  ['pair', 0, 'moved', 'a\nb'],
  ['pair', 0, 'é', [null, true, { a: -1, b: [] }]],
  ['pair', 0, '\u{10000}', 9007199254740991],
  ['object', 1, 'Clock', 't'],
  ['pair', 1, 'rang', 0],
  ['alarm', 1, 3000, 1],
  ['object', 2, 'Shelf', 'ü'],
  ['pair', 2, 'y', 1],
];
// Behind a gate that is opened: the length of the marker's payload, the payload, its SHA-256, and a closed gate.
const MARKER = Buffer.from('00000008ffffffff000000027de07921ae33ac0755414649d0b67af630fe3a2d52bd94be4b5b1a1e71ac226e00', 'hex');

test('a folder of version 1 is brought over by a dump, once', WITH_PROGRAM, (t) => {
  const folder = copied(t);
  assert.deepEqual(dumped(folder), HELD);
  const once = contents(folder);
  contents(OLDER).forEach((before, slot) => {
    before[before.length - 1] = 0xa5;
    assert.deepEqual(once[slot], Buffer.concat([before, MARKER]), JOURNALS[slot]);
  });
  assert.deepEqual(dumped(folder), HELD);
  assert.deepEqual(contents(folder), once);
});

test('a folder of version 1 is served, and its objects store more', WITH_PROGRAM, async (t) => {
  const folder = copied(t);
  const host = await hostFor(t, { script: join(OLDER, 'script.js'), folder, slots: 4 });
  const shelf = host.env.Shelf.getByName('a');
  assert.equal(await shelf.read('moved'), 'a\nb');
  assert.equal(await shelf.read('gone'), null);
  assert.equal((await shelf.set('long', 'x'.repeat(500_000))).length, 500_000);
  assert.equal(await host.env.Shelf.getByName('new').set('k', 1), 1);
  await host.close();
  const told = dumped(folder).map((line) => (line[2] === 'long' ? [...line.slice(0, 3), line[3].length] : line));
  assert.deepEqual(told.filter(([word, slot]) => slot === 3 || word === 'object'), [
    ['object', 0, 'Shelf', 'a'],
    ['object', 1, 'Clock', 't'],
    ['object', 2, 'Shelf', 'ü'],
    ['object', 3, 'Shelf', 'new'],
    ['pair', 3, 'k', 1],
  ]);
  assert.deepEqual(told.filter(([, , key]) => key === 'long'), [['pair', 0, 'long', 500_000]]);
});

function copied(t) {
  const folder = folderFor(t);
  for (const name of JOURNALS) copyFileSync(join(OLDER, name), join(folder, name));
  return folder;
}

function contents(folder) {
  return JOURNALS.map((name) => readFileSync(join(folder, name)));
}

/** The lines of a dump. */
function dumped(folder) {
  const ran = spawnSync(PROGRAM, ['dump', folder, '--slots', '4'], { encoding: 'utf8' });
  assert.equal(ran.status, 0, ran.stdout);
  return ran.stdout.split('\n').filter(Boolean).map((line) => JSON.parse(line));
}
