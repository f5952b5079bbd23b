// One run of the program in service: which call each line is, the fetches, the ticks, and its end once what is under way is answered.
import { ProtocolFault, Refused, answeredBy, objectOf, waitedFor } from './failures.mjs';
import { Fetches } from './fetches.mjs';
import { Run } from './program.mjs';
import { wordsOf } from './settings.mjs';

/** The lines that the program reads in one run; then it ends by itself. */
const LINES_READ = 1_048_576;
// A call of no class is answered at once by a program that serves, and touches no object. It is the second line, behind the first tick.
const PROBE_LINE = 2;
const PROBE = `["call",${PROBE_LINE},"","","",[]]`;
const TELLS_OF_OPENING = ['script-refused', 'foreign', 'damaged', 'mixed', 'twice', 'usage'];

/**
 * A run that serves. `onServing` is called once it answers, `onReady` where it may take calls again, and `onEnd(ended, told)` behind its end,
 * `told` being the row by which it refused its script or a journal.
 */
export class Serving {
  /** The calls under way, by the number of their line, which is the number that they are sent under. */
  calls = new Map();
  isServing = false;
  /** When it began to serve. */
  since;
  #isEnding = false;
  #hasEndedInput = false;
  #isTickDue = false;
  #timer;
  #memoryAtFirst = 0;
  #told;
  #run;
  #fetches;
  #settings;
  #counts;
  #clock;
  #on;

  constructor(settings, counts, clock, on) {
    this.#settings = settings;
    this.#counts = counts;
    this.#clock = clock;
    this.#on = on;
    this.#fetches = new Fetches(settings, counts, () => this.#ready());
    this.#run = new Run(settings.program, wordsOf(settings), {
      onRow: (row) => this.#hear(row),
      onReady: () => this.#ready(),
      onEnd: (ended) => this.#ended(ended),
    });
    this.tick();
    this.#run.send(PROBE);
  }

  get processId() {
    return this.#run.processId;
  }

  get lines() {
    return this.#run.lines;
  }

  get isEnding() {
    return this.#isEnding;
  }

  memory() {
    return this.#run.memory();
  }

  /** Whether a further call may be sent now. */
  takesCalls() {
    return this.isServing && !this.#isEnding && !this.#run.isBlocked && this.calls.size < this.#settings.window && !this.hasManyLines();
  }

  sendCall(call) {
    this.calls.set(this.#run.lines + 1, call);
    this.#run.send(`["call",${this.#run.lines + 1},${call.takeText()}`);
  }

  /** Tells the program the time, once it has taken what it was sent. */
  tick() {
    if (this.#isEnding || this.hasManyLines()) return;
    this.#isTickDue = this.#run.isBlocked;
    if (this.#isTickDue) return;
    this.#run.send(`["tick",${this.#clock.now()}]`);
    this.#counts.ticks += 1;
  }

  hasManyLines() {
    return this.#run.lines >= this.#settings.linesPerRun;
  }

  /** Whether it holds more memory than it is to, and twice what it began with, so that a further run would hold less. */
  hasMuchMemory() {
    const memory = this.#run.memory();
    return memory > this.#settings.memoryBytes && memory >= 2 * this.#memoryAtFirst;
  }

  /** Ends the input once every call and fetch is answered, or the deadline has passed. */
  endOnceIdle() {
    if (this.#isEnding) return;
    this.#isEnding = true;
    this.#timer = setTimeout(() => this.endNow(), this.#settings.deadline);
    this.#ready();
  }

  /** Ends the input now. A program that hasn't ended within the deadline is killed. */
  endNow() {
    if (this.#hasEndedInput) return;
    this.#isEnding = true;
    this.#hasEndedInput = true;
    clearTimeout(this.#timer);
    this.#timer = setTimeout(() => this.#run.kill(), this.#settings.deadline);
    this.#run.end();
  }

  #ready() {
    if (this.#run === undefined || this.#run.hasEnded) return;
    while (!this.#hasEndedInput && !this.#run.isBlocked && this.#run.lines < LINES_READ && this.#fetches.sendOne(this.#run));
    if (this.#isTickDue) this.tick();
    if (this.#isEnding && this.calls.size === 0 && this.#fetches.isIdle) this.endNow();
    this.#on.onReady();
  }

  #hear(row) {
    try {
      this.#heed(row);
    } catch (fault) {
      if (fault instanceof ProtocolFault) throw fault;
      throw new ProtocolFault(`the program prints a line that the client can't read: ${JSON.stringify(row).slice(0, 80)}`, { cause: fault });
    }
  }

  #heed(row) {
    switch (row[0]) {
      case 'reply':
        return this.#take(row[1]).answer(row[2]);
      case 'error':
        return row[1] === PROBE_LINE ? this.#serves() : this.#fail(row[1], answeredBy, row);
      case 'waiting':
        return this.#fail(row[1], waitedFor, row);
      case 'fetch':
        return void this.#fetches.make(row);
      case 'refused':
        return this.#refused(row);
      default:
        if (!TELLS_OF_OPENING.includes(row[0])) throw new ProtocolFault(`the program prints a line that the client doesn't know: ${row[0]}`);
        this.#told = row;
        return undefined;
    }
  }

  // What is told of the call stands before it is taken, so that a line that can't be read leaves it under way.
  #fail(number, failureOf, row) {
    const failure = failureOf(this.#underWay(number), row);
    this.#take(number).fail(failure);
  }

  #underWay(number) {
    const call = this.calls.get(number);
    if (call === undefined) throw new ProtocolFault(`the program answers call ${number}, which isn't under way`);
    return call;
  }

  #take(number) {
    const call = this.#underWay(number);
    this.calls.delete(number);
    return call;
  }

  #serves() {
    this.isServing = true;
    this.since = Date.now();
    this.#memoryAtFirst = this.#run.memory();
    this.#on.onServing();
  }

  #refused([, line, why]) {
    if (this.calls.has(line)) {
      const call = this.#take(line);
      call.fail(new Refused(`the program refused the line of ${call.method} of ${objectOf(call)} as ${why}: nothing was done`, { why }));
    } else if (!this.#fetches.refused(line, why)) {
      this.#settings.log(`the program refused line ${line} as ${why}`);
    }
  }

  #ended(ended) {
    clearTimeout(this.#timer);
    this.#fetches.abandon();
    this.#on.onEnd(ended, this.#told);
  }
}
