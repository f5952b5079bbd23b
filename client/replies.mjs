// Which HTTP status an error is answered with, and what is told of it.
import { BodyTooLong } from './bodies.mjs';
import * as failures from './failures.mjs';

/** A request that is no call; `status` is what it is answered with. */
export class BadRequest extends failures.Failure {}

const STATUSES = new Map([
  [failures.NoClass, 404],
  [failures.NoMethod, 404],
  [failures.UnsupportedValue, 400],
  [failures.WrongId, 400],
  [failures.Refused, 400],
  [failures.LineTooLong, 413],
  [BodyTooLong, 413],
  [failures.Overloaded, 429],
  [failures.Exceeded, 500],
  [failures.UnknownOutcome, 502],
  [failures.NoSlot, 503],
  [failures.Reset, 503],
  [failures.Down, 503],
  [failures.Waiting, 503],
  [failures.Closed, 503],
  [failures.Unavailable, 503],
  [failures.ScriptRefused, 503],
  [failures.OpeningFailed, 503],
  [failures.FolderInUse, 503],
  [failures.BadJournal, 503],
  [failures.ProgramMissing, 503],
  [failures.WordsRefused, 503],
]);
// What a script throws where a task calls too deep or too often.
const TOO_MANY = ['Depth', 'TooManyCalls'];

/** The status of an error: 409 is what the script threw itself. */
export function statusOf(error) {
  if (error instanceof BadRequest) return error.status;
  if (error instanceof failures.ScriptError) return TOO_MANY.includes(error.name) ? 429 : 409;
  return STATUSES.get(error?.constructor) ?? 500;
}

/** What a client is told of an error. Of one that isn't the client's or the script's it is told no more than that. */
export function shownError(error) {
  if (error instanceof failures.ScriptError) return { name: error.name, message: error.message, value: error.value };
  if (!(error instanceof failures.Failure)) return { name: 'Error', message: 'the Worker failed' };
  const { name, message, cause, ...told } = error;
  return { name: error.name, message: error.message, ...(cause instanceof Error ? {} : { cause }), ...told };
}
