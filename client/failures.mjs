// Every error that the client makes has a name of its own, and tells in a sentence what happened and what stands.

/** What all errors of the client are; `name` is the name of the class. */
export class Failure extends Error {
  constructor(message, told = {}) {
    super(message);
    this.name = new.target.name;
    Object.assign(this, told);
  }
}

/** An option of `Host.open` isn't what it is to be. */
export class WrongOption extends Failure {}
/** A value that the lines can't carry: it was refused before it was sent. */
export class UnsupportedValue extends Failure {}
/** A call whose line would pass what the program reads: it was refused before it was sent. */
export class LineTooLong extends Failure {}
/** An id of another class was given to a namespace. */
export class WrongId extends Failure {}

/** The script has no such class. */
export class NoClass extends Failure {}
/** The class has no such method for callers. */
export class NoMethod extends Failure {}
/** The object has no slot, and none of `slots` is free. */
export class NoSlot extends Failure {}
/** The call took too many steps, or asked too often. */
export class Exceeded extends Failure {}
/** The object's incarnation ended before the answer could leave; `cause.kind` is disk, full, exceeded, start or block. */
export class Reset extends Failure {}
/** The object's journal couldn't be mounted; `before` and `after` are the disk's counts of faults. */
export class Down extends Failure {}
/** The program's input ended while the call waited; `on.kind` is fetch, call or block. */
export class Waiting extends Failure {}
/** The program refused the call's line as `why`; nothing was done. */
export class Refused extends Failure {}

/** The program ended while the call was under way: it may have happened or not. What was answered stands. */
export class UnknownOutcome extends Failure {}
/** Too many calls wait already. This one wasn't sent. */
export class Overloaded extends Failure {}
/** The host is closed or closing. The call wasn't sent. */
export class Closed extends Failure {}
/** The program couldn't be started again for too long. The call wasn't sent. */
export class Unavailable extends Failure {}

/** The program isn't there, or can't be run. */
export class ProgramMissing extends Failure {}
/** The program takes none of the words that it was given. */
export class WordsRefused extends Failure {}
/** The script is refused at `place`, in bytes from 0, as `kind`. */
export class ScriptRefused extends Failure {}
/** The script, the folder or a journal can't be opened. */
export class OpeningFailed extends Failure {}
/** Another run holds a journal of the folder; `holder` is its process, where that can be told. */
export class FolderInUse extends Failure {}
/** A journal of the folder is foreign, damaged, of two objects, or of the object of an earlier one. */
export class BadJournal extends Failure {}
/** The program ended by itself, by a signal or with a status that a further run may mend. */
export class ProgramEnded extends Failure {}
/** The program printed what is none of its lines. */
export class ProtocolFault extends Failure {}

/** A fetch that the default one doesn't make, or whose answer it can't hand on. */
export class FetchRefused extends Failure {}
/** A fetch that took longer than it may. */
export class FetchTimedOut extends Failure {}

/** What the script threw: `name` and `message` are the script's where it threw an error, and `value` is what it threw. */
export class ScriptError extends Error {
  constructor(value) {
    const isError = value !== null && typeof value === 'object' && typeof value.message === 'string';
    super(isError ? value.message : JSON.stringify(value));
    this.name = isError && typeof value.name === 'string' ? value.name : 'Thrown';
    this.value = value;
  }
}

const CAUSES = {
  disk: ([before, after]) => [{ before, after }, `its disk failed (it counted ${before} faults before, ${after} after)`],
  full: ([needed, limit]) => [{ needed, limit }, `its journal would need ${needed} bytes and has at most ${limit}`],
  exceeded: () => [{}, 'one of its turns took too many steps or asked too often'],
  start: () => [{}, 'its constructor threw'],
  block: () => [{}, 'a block of it (blockConcurrencyWhile) threw'],
};

function resetOf(object, [kind, ...rest]) {
  const [told, words] = CAUSES[kind](rest);
  return new Reset(`${object} was reset: ${words}`, { cause: { kind, ...told } });
}

const ANSWERS = {
  Thrown: (call, [value]) => new ScriptError(value),
  NoClass: (call) => new NoClass(`the script has no class ${call.className}`),
  NoMethod: (call) => new NoMethod(`the class ${call.className} has no method ${call.method} for callers`),
  NoSlot: (call, [slots]) => new NoSlot(`${objectOf(call)} has no slot: each of the ${slots} has another object`, { slots }),
  Exceeded: (call) => new Exceeded(`${call.method} of ${objectOf(call)} took too many steps or asked too often`),
  Reset: (call, [cause]) => resetOf(objectOf(call), cause),
  Down: (call, [before, after]) =>
    new Down(`the journal of ${objectOf(call)} can't be mounted (its disk counted ${before} faults before, ${after} after)`, { before, after }),
};

const WAITS = {
  fetch: ([number]) => [{ number }, `the answer of fetch ${number}`],
  call: ([className, name]) => [{ className, name }, `a call to ${objectOf({ className, name })}`],
  block: () => [{}, 'a block (blockConcurrencyWhile) to end'],
};

/** How an object is named in a sentence. */
export function objectOf({ className, name }) {
  return `${className} ${JSON.stringify(name)}`;
}

/** The error of a line `["error",n,why,..]`. */
export function answeredBy(call, [, , why, ...told]) {
  if (!Object.hasOwn(ANSWERS, why)) throw new ProtocolFault(`the program tells an error that the client doesn't know: ${why}`);
  return ANSWERS[why](call, told);
}

/** The error of a line `["waiting",n,on,..]`. */
export function waitedFor(call, [, , kind, ...rest]) {
  if (!Object.hasOwn(WAITS, kind)) throw new ProtocolFault(`the program tells a wait that the client doesn't know: ${kind}`);
  const [told, words] = WAITS[kind](rest);
  return new Waiting(`${call.method} of ${objectOf(call)} was still waiting for ${words} as the input ended`, { on: { kind, ...told } });
}
