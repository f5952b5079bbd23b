// A call from when it is made until it is answered.
import { ScriptError } from './failures.mjs';

// What a call that waits to be sent takes beside its text, roughly.
const HELD_BYTES = 256;

/** One call: what it is of, its line's text until that is sent, and who waits for it. */
export class Call {
  text = '';
  #settle;
  #counts;

  constructor(className, name, method, settle, counts) {
    this.className = className;
    this.name = name;
    this.method = method;
    this.#settle = settle;
    this.#counts = counts;
    counts.calls += 1;
  }

  /** The memory that it takes while it waits to be sent, in bytes. */
  get held() {
    return this.text.length + HELD_BYTES;
  }

  /** Gives its text to be sent. */
  takeText() {
    const text = this.text;
    this.text = '';
    return text;
  }

  answer(value) {
    this.#counts.answered += 1;
    this.#settle.resolve(value);
  }

  fail(failure) {
    this.#counts.failed(failure instanceof ScriptError ? 'Thrown' : failure.name);
    this.#settle.reject(failure);
  }
}
