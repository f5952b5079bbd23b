// A host of Durable Objects for Node: it starts the program, speaks its lines and keeps it running. It stands outside every proof
// (docs/WORKER.md): what the program promises holds for the lines, and what is added here is tested.
import { Call } from './call.mjs';
import { classesOf } from './classes.mjs';
import { Counts } from './counts.mjs';
import { Closed, FolderInUse, Overloaded, ProgramEnded, Unavailable, UnknownOutcome, objectOf } from './failures.mjs';
import { Namespace } from './namespace.mjs';
import { Queue } from './queue.mjs';
import { Serving } from './serving.mjs';
import { settingsOf } from './settings.mjs';
import { explain } from './statuses.mjs';
import { encodeCall } from './values.mjs';

const FIRST_DELAY = 50;
const MOST_DELAY = 5_000;
const STEADY_AFTER = 10_000;
// How often a folder that seems to be in use is tried again: what the run before had started may hold it for a moment.
const LOCK_TRIES = 5;

export * from './failures.mjs';

/** The program, started and kept running, with the objects of its script as `env`. */
export class Host {
  /** A namespace for each class of the script, as `env` has them in a Worker. */
  env;
  #settings;
  #counts = new Counts();
  #clock = new Clock();
  #waiting = new Queue();
  #waitingBytes = 0;
  #run;
  #ticker;
  #restart;
  #failedStarts = 0;
  #downSince;
  #lasting;
  #unavailable;
  #opening;
  #closing;
  #whenClosed;
  #isClosed = false;

  /**
   * Starts the program and waits until it serves.
   *
   * `script` and `folder` are paths; `program` is the one that stands in out/ or that DURABLE names where it isn't given. `slots`, `workers` and
   * `journalBytes` are the program's options. `tickEvery`, `deadline` and `fetchDeadline` are milliseconds. `fetch(value, {className, name, signal})`
   * makes the fetches of the script. At most `window` calls are under way, and the others wait, up to `backlogBytes` of them. A run is followed by
   * another behind `linesPerRun` lines, or where it holds more than `memoryBytes`. `log(sentence)` is told of ends, restarts and fetches that fail.
   */
  static async open(options = {}) {
    const settings = settingsOf(options);
    const host = new Host(settings, await classesOf(settings));
    await new Promise((resolve, reject) => {
      host.#opening = { resolve, reject };
      host.#start();
    });
    return host;
  }

  /** `open` makes one. */
  constructor(settings, classes) {
    this.#settings = settings;
    const call = (...words) => this.call(...words);
    this.env = Object.freeze(Object.fromEntries(classes.map((name) => [name, new Namespace(name, call)])));
  }

  /** The process of the run that is there, if one is. */
  get processId() {
    return this.#run?.processId;
  }

  /** starting, serving, rotating, restarting, failed, closing or closed. */
  get state() {
    if (this.#isClosed) return 'closed';
    if (this.#closing) return 'closing';
    if (this.#lasting) return 'failed';
    if (!this.#run) return 'restarting';
    if (this.#run.isEnding) return 'rotating';
    return this.#run.isServing ? 'serving' : 'starting';
  }

  /** What was counted since the host was opened, with what is so now: calls under way and waiting, and the memory of the program. */
  metrics() {
    const { lines, failures, ...counted } = this.#counts;
    return {
      ...counted,
      failures: { ...failures },
      lines: lines + (this.#run?.lines ?? 0),
      underWay: this.#run?.calls.size ?? 0,
      waiting: this.#waiting.size,
      memory: this.#run?.memory() ?? 0,
    };
  }

  /** Calls a method of an object: promises what it replies, or throws what it fails by. */
  call(className, name, method, args = []) {
    return new Promise((resolve, reject) => {
      const call = new Call(className, name, method, { resolve, reject }, this.#counts);
      try {
        call.text = encodeCall(className, name, method, args);
        this.#admit(call);
      } catch (failure) {
        call.fail(failure);
        return;
      }
      this.#waitingBytes += call.held;
      this.#waiting.add(call);
      this.#pump();
    });
  }

  /**
   * Answers what is under way and what waits, ends the input, and waits until the program has ended. What isn't answered within the deadline
   * fails by what it waits for.
   */
  close() {
    this.#closing ??= this.#finish();
    return this.#closing;
  }

  #admit(call) {
    const inTheWay = this.#lasting ?? this.#unavailable;
    if (this.#closing) throw new Closed(`the host is closed: ${call.method} of ${objectOf(call)} wasn't called`);
    if (inTheWay) throw inTheWay;
    if (this.#waitingBytes + call.held > this.#settings.backlogBytes) {
      throw new Overloaded(`${this.#waiting.size} calls wait already: ${call.method} of ${objectOf(call)} wasn't called`);
    }
  }

  // Sends what waits as far as the run takes it, and has the run end where it is worn, or where nothing is left to be sent to a host that closes.
  #pump() {
    const run = this.#run;
    if (!run?.isServing || run.isEnding) return;
    while (this.#waiting.size > 0 && run.takesCalls()) {
      const call = this.#waiting.take();
      this.#waitingBytes -= call.held;
      run.sendCall(call);
    }
    if (run.hasManyLines() || (this.#closing && this.#waiting.size === 0)) run.endOnceIdle();
  }

  #start() {
    try {
      const run = new Serving(this.#settings, this.#counts, this.#clock, {
        onServing: () => this.#served(),
        onReady: () => this.#pump(),
        onEnd: (ended, told) => this.#ended(run, ended, told),
      });
      this.#run = run;
    } catch (fault) {
      this.#notStarted(new ProgramEnded(`the program was not started: ${fault.message}`, { cause: fault }));
    }
    this.#ticker ??= setInterval(() => this.#tick(), this.#settings.tickEvery);
  }

  #served() {
    this.#downSince = undefined;
    this.#unavailable = undefined;
    this.#opening?.resolve();
    this.#opening = undefined;
  }

  #tick() {
    const run = this.#run;
    if (!run?.isServing || run.isEnding) return;
    run.tick();
    if (run.hasMuchMemory()) run.endOnceIdle();
    this.#pump();
  }

  #ended(run, ended, told) {
    this.#run = undefined;
    this.#counts.lines += run.lines;
    const wasAsked = run.isEnding && ended.status === 0 && !ended.fault;
    const { failure, lasts } = wasAsked ? {} : explain(ended, told, this.#settings);
    for (const call of run.calls.values()) call.fail(unknownOutcome(call, failure));
    if (this.#opening) this.#neverOpened(failure);
    else if (this.#closing && (this.#waiting.size === 0 || lasts)) this.#closed();
    else if (wasAsked) this.#rotated();
    else this.#restartAfter(run, failure, lasts);
  }

  #notStarted(failure) {
    if (this.#opening) this.#neverOpened(failure);
    else this.#restartAfter(undefined, failure, false);
  }

  #neverOpened(failure) {
    this.#lasting = failure;
    this.#opening.reject(failure);
    this.#opening = undefined;
    this.#closed();
  }

  #rotated() {
    this.#counts.rotations += 1;
    this.#start();
  }

  #restartAfter(run, failure, lasts) {
    if (lasts && !(failure instanceof FolderInUse && this.#failedStarts < LOCK_TRIES)) {
      this.#lasting = failure;
      this.#settings.log(`${failure.message}. It isn't started again`);
      this.#failWaiting(() => failure);
      return;
    }
    if (run?.isServing && Date.now() - run.since >= STEADY_AFTER) this.#failedStarts = 0;
    const delay = Math.min(MOST_DELAY, FIRST_DELAY * 2 ** this.#failedStarts);
    this.#failedStarts += 1;
    this.#downSince ??= Date.now();
    this.#settings.log(`${failure.message}. It is started again in ${delay} ms`);
    if (Date.now() - this.#downSince > this.#settings.deadline) this.#isDown(failure);
    this.#restart = setTimeout(() => {
      this.#counts.restarts += 1;
      this.#start();
    }, delay);
  }

  #isDown(failure) {
    this.#unavailable = new Unavailable(`the program couldn't be started for ${this.#settings.deadline} ms: ${failure.message}`, { cause: failure });
    this.#failWaiting(() => this.#unavailable);
  }

  #failWaiting(failureOf) {
    while (this.#waiting.size > 0) {
      const call = this.#waiting.take();
      this.#waitingBytes -= call.held;
      call.fail(failureOf(call));
    }
  }

  #finish() {
    return new Promise((resolve) => {
      const late = setTimeout(() => this.#finishNow(), this.#settings.deadline);
      this.#whenClosed = () => {
        clearTimeout(late);
        resolve();
      };
      if (this.#lasting || (!this.#run && this.#waiting.size === 0)) this.#closed();
      else queueMicrotask(() => this.#pump());
    });
  }

  // What waits to be sent isn't sent any more, and what is under way is told what it waits for as the input ends.
  #finishNow() {
    this.#failWaiting((call) => new Closed(`the host was closed before ${call.method} of ${objectOf(call)} could be sent`));
    if (this.#run) this.#run.endNow();
    else this.#closed();
  }

  #closed() {
    clearInterval(this.#ticker);
    clearTimeout(this.#restart);
    this.#failWaiting((call) => this.#lasting ?? new Closed(`the host was closed before ${call.method} of ${objectOf(call)} could be sent`));
    this.#isClosed = true;
    this.#whenClosed?.();
  }
}

function unknownOutcome(call, failure) {
  const why = failure ? failure.message : 'the program ended before it told of it';
  const sentence = `${call.method} of ${objectOf(call)} was under way: it may have happened or not, and what was answered stands (${why})`;
  return new UnknownOutcome(sentence, { cause: failure });
}

// The wall clock, which never goes back here.
class Clock {
  #last = 0;

  now() {
    this.#last = Math.max(this.#last, Date.now());
    return this.#last;
  }
}
