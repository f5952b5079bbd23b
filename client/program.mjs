// The program: where it stands, and one run of it, with its lines in both directions and how it ended.
import { spawn } from 'node:child_process';
import { existsSync, readFileSync } from 'node:fs';
import { fileURLToPath } from 'node:url';
import { ProgramEnded, ProtocolFault } from './failures.mjs';
import { RowReader } from './lines.mjs';

const TOP = fileURLToPath(new URL('..', import.meta.url));
const FLUSH_SIZE = 65_536;
const COMPLAINT_SIZE = 4_096;
const PAGE_BYTES = 4_096;
const PIPES_GRACE = 5_000;

/** The program that stands: the one that DURABLE names, else the one that `./durable` built, else the one that the gate built. */
export function standingProgram() {
  if (process.env.DURABLE) return process.env.DURABLE;
  return [`${TOP}out/durable`, `${TOP}crates/durable/out/durable`].find((path) => existsSync(path));
}

/**
 * One run of the program. `onRow` gets each row that it prints, `onReady` is called where lines can be sent again and behind each piece of
 * rows, `onEnd` once it has ended and all that it printed is read. Making one throws where the system starts no process at all.
 */
export class Run {
  /** How many lines were sent. */
  lines = 0;
  #child;
  #unsent = '';
  #isScheduled = false;
  #complaint = '';
  #fault;
  #pipeFault;
  #exit = {};
  #hasEnded = false;
  #on;

  constructor(program, words, on) {
    this.#on = on;
    // A group of its own, so that an interrupt from the keyboard doesn't end it before its calls are answered.
    this.#child = spawn(program, words, { stdio: ['pipe', 'pipe', 'pipe'], detached: true });
    this.#child.on('error', (fault) => this.#finish({ fault }));
    if (!this.#child.stdin) throw new ProgramEnded('the program was not started: too many files are open');
    this.#watch();
    this.#read();
  }

  get processId() {
    return this.#child.pid;
  }

  get hasEnded() {
    return this.#hasEnded;
  }

  /** Whether what was sent is still to be taken by the program, so that no more is to be sent now. */
  get isBlocked() {
    return this.#unsent.length >= FLUSH_SIZE || this.#child.stdin.writableNeedDrain;
  }

  /** Sends a line and gives its number. Lines that are sent in one turn of the event loop leave together. */
  send(text) {
    this.lines += 1;
    this.#unsent += `${text}\n`;
    if (!this.#isScheduled) {
      this.#isScheduled = true;
      setImmediate(() => this.#flush());
    }
    return this.lines;
  }

  /** Ends the input, behind what was sent. */
  end() {
    this.#flush();
    this.#child.stdin.end();
  }

  kill() {
    if (this.#hasEnded || this.#child.pid === undefined) return;
    try {
      process.kill(-this.#child.pid, 'SIGKILL');
    } catch (fault) {
      if (fault.code !== 'ESRCH') throw fault;
    }
  }

  /** The memory that it holds, in bytes; 0 where it has ended. */
  memory() {
    if (this.#hasEnded || this.#child.pid === undefined) return 0;
    try {
      return Number(readFileSync(`/proc/${this.#child.pid}/statm`, 'latin1').split(' ')[1]) * PAGE_BYTES;
    } catch (fault) {
      if (fault.code === 'ENOENT' || fault.code === 'ESRCH') return 0;
      throw fault;
    }
  }

  #flush() {
    this.#isScheduled = false;
    if (this.#unsent === '' || this.#hasEnded) return;
    const text = this.#unsent;
    this.#unsent = '';
    if (this.#child.stdin.write(text)) this.#on.onReady();
  }

  #read() {
    const reader = new RowReader((row) => this.#on.onRow(row));
    this.#child.stdout.on('data', (piece) => {
      if (this.#fault) return;
      try {
        reader.push(piece);
      } catch (fault) {
        if (!(fault instanceof ProtocolFault)) throw fault;
        this.#fault = fault;
        this.kill();
      }
      this.#on.onReady();
    });
    this.#child.stderr.on('data', (piece) => {
      this.#complaint = (this.#complaint + piece).slice(-COMPLAINT_SIZE);
    });
  }

  #watch() {
    const child = this.#child;
    // A pipe that breaks is told by the end of the program, which follows; where it doesn't follow, it is ended here.
    for (const pipe of child.stdio) {
      pipe.on('error', (fault) => {
        this.#pipeFault = fault;
        setTimeout(() => this.kill(), PIPES_GRACE).unref();
      });
    }
    child.stdin.on('drain', () => this.#on.onReady());
    child.on('exit', (status, signal) => {
      this.#exit = { status, signal };
      // What it started itself may hold its pipes on.
      setTimeout(() => this.#finish({}), PIPES_GRACE).unref();
    });
    child.on('close', () => this.#finish({}));
  }

  #finish({ fault }) {
    if (this.#hasEnded || !this.#child.stdin) return;
    this.#hasEnded = true;
    this.#unsent = '';
    this.#on.onEnd({ ...this.#exit, fault: fault ?? this.#fault, pipeFault: this.#pipeFault, complaint: this.#complaint.trim() });
  }
}
