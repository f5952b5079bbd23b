// The lines that the program prints: cut at LF, of any length up to what the longest value takes, and read as JSON.
import { ProtocolFault } from './failures.mjs';

/** The most bytes of a printed line. A value has 4,194,304 encoded bytes, each of which prints as six at most. */
export const PRINTED_LIMIT = 32 * 1_048_576;

const LF = 10;

/** Cuts what a stream gives into rows. Bytes behind the last LF are kept until their line is whole. */
export class RowReader {
  #kept = [];
  #size = 0;
  #take;

  constructor(take) {
    this.#take = take;
  }

  /** Hands on each row that this piece ends. */
  push(piece) {
    const end = piece.lastIndexOf(LF);
    if (end < 0) {
      this.#keep(piece);
      return;
    }
    const whole = this.#kept.length === 0 ? piece.subarray(0, end) : Buffer.concat([...this.#kept, piece.subarray(0, end)]);
    this.#kept = [];
    this.#size = 0;
    if (end + 1 < piece.length) this.#keep(Buffer.from(piece.subarray(end + 1)));
    for (const line of whole.toString('utf8').split('\n')) this.#take(rowOf(line));
  }

  #keep(piece) {
    this.#size += piece.length;
    if (this.#size > PRINTED_LIMIT) throw new ProtocolFault(`the program prints a line of more than ${PRINTED_LIMIT} bytes`);
    this.#kept.push(piece);
  }
}

function rowOf(line) {
  let row;
  try {
    row = JSON.parse(line);
  } catch (fault) {
    throw new ProtocolFault(`the program prints what is no JSON: ${shown(line)}`, { cause: fault });
  }
  if (!Array.isArray(row)) throw new ProtocolFault(`the program prints what is none of its lines: ${shown(line)}`);
  return row;
}

function shown(line) {
  return JSON.stringify(line.length > 80 ? `${line.slice(0, 80)}..` : line);
}
