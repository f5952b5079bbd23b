// The classes of a script, as the program tells them.
import { execFile } from 'node:child_process';
import { ProgramMissing } from './failures.mjs';
import { explain, unreadScript } from './statuses.mjs';

/** The names of the script's classes, in order of its text; throws what is wrong with the script or the program. */
export async function classesOf(settings) {
  const { fault, printed } = await checked(settings);
  if (typeof fault?.code === 'string') throw new ProgramMissing(`${settings.program} can't be run: ${fault.code}`, { cause: fault });
  const row = rowOf(printed);
  if (!fault && row?.[0] === 'script') return row[1];
  if (fault?.code === 3) throw unreadScript(settings.script);
  throw explain({ status: fault?.code ?? null, signal: fault?.signal ?? null, complaint: fault?.stderr?.trim() ?? '' }, row, settings).failure;
}

function checked({ program, script }) {
  return new Promise((resolve) => {
    execFile(program, ['check', script], (fault, printed) => resolve({ fault, printed }));
  });
}

function rowOf(printed) {
  try {
    return JSON.parse(printed);
  } catch {
    return undefined;
  }
}
