// The options of a host: what stands where they aren't given, and what they may be.
import { existsSync } from 'node:fs';
import { resolve } from 'node:path';
import { ProgramMissing, WrongOption } from './failures.mjs';
import { fetchOutside } from './outside.mjs';
import { standingProgram } from './program.mjs';

/** The most lines that a run is given: what is under way then has as many again as the program reads behind them. */
const MOST_LINES = 1_000_000;

const NUMBERS = {
  slots: { least: 1, most: 256, given: 16 },
  workers: { least: 1, most: 16, given: 4 },
  journalBytes: { least: 4_096, most: 2 ** 40, given: 2 ** 30 },
  tickEvery: { least: 10, most: 3_600_000, given: 1_000 },
  window: { least: 1, most: 16_384, given: 1_024 },
  linesPerRun: { least: 16, most: MOST_LINES, given: MOST_LINES },
  deadline: { least: 1, most: 3_600_000, given: 30_000 },
  fetchDeadline: { least: 1, most: 3_600_000, given: 30_000 },
  memoryBytes: { least: 2 ** 20, most: 2 ** 40, given: 2 ** 30 },
  backlogBytes: { least: 4_096, most: 2 ** 32, given: 2 ** 28 },
};
const OTHERS = ['program', 'script', 'folder', 'fetch', 'log'];

/** The settings of a host, whole. */
export function settingsOf(options) {
  for (const name of Object.keys(options)) {
    if (!(name in NUMBERS) && !OTHERS.includes(name)) throw new WrongOption(`there is no option ${name}`, { option: name });
  }
  const settings = {
    program: programOf(options.program),
    script: pathOf('script', options.script),
    folder: pathOf('folder', options.folder),
    fetch: functionOf('fetch', options.fetch) ?? fetchOutside,
    log: laterOf(functionOf('log', options.log)),
  };
  for (const [name, range] of Object.entries(NUMBERS)) settings[name] = numberOf(name, options[name], range);
  return Object.freeze(settings);
}

/** The words that the program is started with. */
export function wordsOf({ script, folder, slots, workers, journalBytes }) {
  return ['serve', script, folder, '--slots', String(slots), '--workers', String(workers), '--journal-bytes', String(journalBytes)];
}

function programOf(given) {
  const program = given ?? standingProgram();
  if (program === undefined) throw new ProgramMissing('there is no program: build it by ./durable --build, or name one by the option program or by DURABLE');
  if (typeof program !== 'string') throw new WrongOption('the option program is to be the path of the program', { option: 'program' });
  if (!existsSync(program)) throw new ProgramMissing(`there is no program ${program}`);
  return resolve(program);
}

function pathOf(option, given) {
  if (typeof given === 'string' && given !== '') return resolve(given);
  throw new WrongOption(`the option ${option} is to be a path`, { option });
}

function functionOf(option, given) {
  if (given === undefined || typeof given === 'function') return given;
  throw new WrongOption(`the option ${option} is to be a function`, { option });
}

// What a log throws is its own, and stops nothing here.
function laterOf(log) {
  return log ? (sentence) => queueMicrotask(() => log(sentence)) : () => {};
}

function numberOf(option, value, { least, most, given }) {
  if (value === undefined) return given;
  if (Number.isSafeInteger(value) && value >= least && value <= most) return value;
  throw new WrongOption(`the option ${option} is to be a whole number from ${least} to ${most}`, { option });
}
