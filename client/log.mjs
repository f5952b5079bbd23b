// The log of a server: a line a request, and sentences. Lines that are written in one turn of the event loop leave together.

const KEPT_BYTES = 1_048_576;

/** A log over a stream. Where the stream takes no more, lines are left out rather than kept without end, and how many is told. */
export class Log {
  #stream;
  #unwritten = '';
  #isScheduled = false;
  #leftOut = 0;

  /** With `hasRequests` false no line is to tell of requests. A stream that fails is told to `onFault`, and nothing more is written to it. */
  constructor(stream, { hasRequests = true, onFault = () => {} } = {}) {
    this.#stream = stream;
    this.hasRequests = hasRequests;
    stream.on('error', (fault) => {
      if (this.#stream === undefined) return;
      this.#stream = undefined;
      onFault(fault);
    });
  }

  /** A line of a request: when, what, the status (0 where the client went away before its end) and milliseconds. */
  request({ method, url }, status, milliseconds) {
    this.#write(`${method} ${url} ${status} ${milliseconds.toFixed(1)} ms`);
  }

  tell(sentence) {
    this.#write(sentence);
  }

  #write(text) {
    if (this.#stream === undefined) return;
    if (this.#stream.writableLength + this.#unwritten.length > KEPT_BYTES) {
      this.#leftOut += 1;
      return;
    }
    if (this.#leftOut > 0) {
      this.#unwritten += `(${this.#leftOut} lines were left out, since the log wasn't taken)\n`;
      this.#leftOut = 0;
    }
    this.#unwritten += `${new Date().toISOString()} ${text}\n`;
    if (this.#isScheduled) return;
    this.#isScheduled = true;
    setImmediate(() => {
      this.#isScheduled = false;
      const lines = this.#unwritten;
      this.#unwritten = '';
      this.#stream?.write(lines);
    });
  }
}
