// What an end of the program means: the error that tells it in a sentence, and whether a further run may mend it.
import { accessSync, constants, existsSync, readFileSync, statSync } from 'node:fs';
import { join } from 'node:path';
import { BadJournal, FolderInUse, OpeningFailed, ProgramEnded, ProgramMissing, ScriptRefused, WordsRefused } from './failures.mjs';

const ENDS = {
  4: 'memory was refused to it',
  5: 'it could not read its input further',
  6: 'it could not write its output further',
};

/** The error of an end, and whether it lasts however often the program is started. `told` is the last row that tells of a script or a slot. */
export function explain(ended, told, settings) {
  const { status, fault, complaint } = ended;
  if (fault?.syscall?.startsWith('spawn')) return mending(new ProgramMissing(`${settings.program} can't be run: ${fault.code}`, { cause: fault }));
  if (status === 1) return lasting(new WordsRefused(`the program refused its words; ${complaint}`));
  if (status === 2) return lasting(refusalOf(told, settings.script));
  if (status === 3) return openingOf(settings);
  if (status === 7) return lasting(badJournalOf(told, settings.folder));
  return mending(endOf(ended));
}

function lasting(failure) {
  return { failure, lasts: true };
}

function mending(failure) {
  return { failure, lasts: false };
}

function endOf({ status, signal, fault, pipeFault, complaint }) {
  const how = signal ? `by the signal ${signal}` : `with status ${status}`;
  const why = fault?.message ?? ENDS[status] ?? pipeFault?.message;
  const said = complaint === '' ? '' : `; it said: ${complaint}`;
  return new ProgramEnded(`the program ended ${how}${why ? `: ${why}` : ''}${said}`, { status, signal, cause: fault ?? pipeFault });
}

/** The error of a script that is refused, by the row that tells it. */
export function refusalOf(told, script) {
  const [, place, kind] = told ?? [];
  return new ScriptRefused(`the script ${script} is refused ${whereOf(script, place)}: ${kind} (docs/SCRIPT.md tells what that is)`, { place, kind });
}

function whereOf(script, place) {
  if (place === undefined || !existsSync(script)) return 'at a place that it did not tell';
  const before = readFileSync(script).subarray(0, place).toString('utf8').split('\n');
  return `at line ${before.length}, column ${[...before.at(-1)].length + 1}`;
}

function journalOf(folder, slot) {
  return join(folder, `slot-${String(slot).padStart(3, '0')}.journal`);
}

function badJournalOf([kind, slot, ...rest] = [], folder) {
  const file = journalOf(folder, slot);
  const sentences = {
    damaged: () => `${file} is damaged at byte ${rest[0]}: behind the open gate there stands no whole frame`,
    foreign: () => `${file} is no journal: it differs from one at byte ${rest[0]}`,
    mixed: () => `${file} has frames of two objects, ${rest[0]} ${JSON.stringify(rest[1])} and ${rest[2]} ${JSON.stringify(rest[3])}`,
    twice: () => `${journalOf(folder, rest[0])} has the object of ${file} again`,
  };
  const sentence = sentences[kind]?.() ?? `a journal of ${folder} is no good one`;
  return new BadJournal(`${sentence}. It was left as it was`, { kind, slot, told: rest });
}

/** What of the script, the folder and its journals can't be opened. */
export function openingOf({ script, folder, slots }) {
  const inTheWay = scriptInTheWay(script) ?? folderInTheWay(folder);
  if (inTheWay) return lasting(new OpeningFailed(inTheWay));
  for (let slot = 0; slot < slots; slot += 1) {
    const file = journalOf(folder, slot);
    const holder = holderOf(file);
    if (holder !== undefined) return lasting(new FolderInUse(`another run (process ${holder}) holds ${file}: end it first, or take another folder`, { file, holder }));
    const why = journalInTheWay(file, folder);
    if (why) return lasting(new OpeningFailed(why));
  }
  return mending(new OpeningFailed(`a call of the disk failed in ${folder}: see that its disk has room and is healthy. What was answered is there`));
}

/** The error of a script that can't be read. */
export function unreadScript(script) {
  return new OpeningFailed(scriptInTheWay(script) ?? `reading the script ${script} failed`);
}

function scriptInTheWay(script) {
  if (!existsSync(script)) return `there is no script ${script}`;
  if (statSync(script).isDirectory()) return `${script} is a folder, and no script`;
  return may(script, constants.R_OK) ? undefined : `the script ${script} can't be read by this user`;
}

function folderInTheWay(folder) {
  if (!existsSync(folder)) return `there is no folder ${folder}: make it with mkdir`;
  return statSync(folder).isDirectory() ? undefined : `${folder} is no folder`;
}

function journalInTheWay(file, folder) {
  if (!existsSync(file)) return may(folder, constants.W_OK) ? undefined : `${file} can't be made by this user`;
  if (statSync(file).isDirectory()) return `${file} is a folder, and no journal`;
  return may(file, constants.R_OK | constants.W_OK) ? undefined : `${file} can't be read and written by this user`;
}

function may(path, mode) {
  try {
    accessSync(path, mode);
    return true;
  } catch {
    return false;
  }
}

// The process that has the file locked, by the system's table of locks, 0 where it is out of sight; undefined where none has, or there is no table.
function holderOf(file) {
  if (!existsSync(file) || !existsSync('/proc/locks')) return undefined;
  const inode = String(statSync(file).ino);
  for (const line of readFileSync('/proc/locks', 'latin1').split('\n')) {
    const [, kind, , , holder, place] = line.trim().split(/\s+/);
    if (kind === 'FLOCK' && place?.split(':')[2] === inode) return Number(holder);
  }
  return undefined;
}
