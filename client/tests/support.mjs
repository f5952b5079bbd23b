// What the tests share: the program, folders that go away again, hosts that are closed, and waiting with an end.
import { existsSync, mkdtempSync, rmSync, writeFileSync } from 'node:fs';
import { tmpdir } from 'node:os';
import { join, resolve } from 'node:path';
import { fileURLToPath } from 'node:url';
import { Host } from '../host.mjs';
import { standingProgram } from '../program.mjs';

/** How long a test may take that waits for the program, in milliseconds. */
export const SLOW = 60_000;
export const TOP = fileURLToPath(new URL('../..', import.meta.url));
export const OBJECTS = fileURLToPath(new URL('objects.js', import.meta.url));
export const STAND_IN = fileURLToPath(new URL('stand_in', import.meta.url));

const program = standingProgram();
export const PROGRAM = program && resolve(program);
/** Options of a test that runs the program: it is skipped where there is none. */
export const WITH_PROGRAM = {
  timeout: SLOW,
  skip: PROGRAM && existsSync(PROGRAM) ? false : 'no program is built: ./durable --build builds one, or DURABLE names one',
};

/** A new folder that goes away behind the test. */
export function folderFor(t) {
  const folder = mkdtempSync(join(tmpdir(), 'client-test-'));
  t.after(() => rmSync(folder, { recursive: true, force: true }));
  return folder;
}

/** A file of this text in a folder of its own. */
export function fileFor(t, name, text) {
  const file = join(folderFor(t), name);
  writeFileSync(file, text);
  return file;
}

/** A host over the objects of the tests, in a folder of its own unless one is given, closed behind the test. */
export async function hostFor(t, options = {}) {
  const host = await Host.open({ program: PROGRAM, script: OBJECTS, folder: options.folder ?? folderFor(t), slots: 16, deadline: 20_000, ...options });
  t.after(() => host.close());
  return host;
}

/** A host over the stand-in, which does by the lines of this plan. */
export async function standInFor(t, plan, options = {}) {
  return await hostFor(t, { program: STAND_IN, script: fileFor(t, 'plan', planText(plan)), ...options });
}

/** The text of a plan of the stand-in. */
export function planText(plan) {
  return plan.map((line) => `${line}\n`).join('');
}

/** Waits until something is so, which a machine that does much else may take long for. */
export async function until(isSo, what) {
  const end = Date.now() + SLOW / 2;
  while (!(await isSo())) {
    if (Date.now() > end) throw new Error(`too slow: ${what} isn't so after ${SLOW / 2} ms`);
    await pause(10);
  }
}

export function pause(milliseconds) {
  return new Promise((resolve) => setTimeout(resolve, milliseconds));
}

/** What a promise fails by. */
export async function failureOf(promise) {
  try {
    await promise;
  } catch (failure) {
    return failure;
  }
  throw new Error('it did not fail');
}

/** So many callers at once, each of which does this until it has been done so often in all. */
export async function byCallers(callers, count, act) {
  let begun = 0;
  const caller = async (me) => {
    while (begun < count) {
      begun += 1;
      await act(begun, me);
    }
  };
  await Promise.all(Array.from({ length: callers }, (_, me) => caller(me)));
}

/** Chance that repeats itself, by a seed: a number from 0 up to 1. */
export function chanceOf(seed) {
  let state = seed >>> 0;
  return () => {
    state = (Math.imul(state, 1_664_525) + 1_013_904_223) >>> 0;
    return state / 2 ** 32;
  };
}
