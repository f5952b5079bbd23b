// The fetches of a run: each is made outside, and its answer is sent as a line, or that it failed, so that no task waits for nothing.
import { recordOf, within } from './outside.mjs';
import { Queue } from './queue.mjs';
import { encodeAnswer } from './values.mjs';

// Answers whose refusal can still come: the program refuses a line soon after it is sent.
const REMEMBERED = 16_384;

/** The fetches of one run. */
export class Fetches {
  #settings;
  #counts;
  #underWay = new Map();
  #answers = new Queue();
  #sent = new Map();
  #changed;

  /** `changed` is called where an answer is there to be sent. */
  constructor(settings, counts, changed) {
    this.#settings = settings;
    this.#counts = counts;
    this.#changed = changed;
  }

  /** Whether no fetch is under way and every answer is sent. */
  get isIdle() {
    return this.#underWay.size === 0 && this.#answers.size === 0;
  }

  /** Makes the fetch of a row `["fetch",k,class,name,value]`. */
  async make([, number, className, name, value]) {
    const controller = new AbortController();
    this.#underWay.set(number, controller);
    this.#counts.fetches += 1;
    let text;
    try {
      const told = { className, name, signal: controller.signal };
      const answer = await within(this.#settings.fetchDeadline, controller, answerOf(this.#settings.fetch, value, told));
      text = encodeAnswer(answer);
    } catch (fault) {
      this.#failed(number, className, name, fault);
    }
    if (!this.#underWay.delete(number)) return;
    this.#answers.add({ number, text });
    this.#changed();
  }

  /** Sends one answer, if there is one. */
  sendOne(run) {
    if (this.#answers.size === 0) return false;
    const { number, text } = this.#answers.take();
    const line = run.send(text === undefined ? `["fetch-failed",${number}]` : `["fetched",${number},${text}`);
    if (text !== undefined) this.#remember(line, number);
    return true;
  }

  /** Whether the refused line was an answer; its fetch then fails, so that its task goes on. */
  refused(line, why) {
    const number = this.#sent.get(line);
    if (number === undefined) return false;
    this.#sent.delete(line);
    this.#counts.fetchesFailed += 1;
    this.#settings.log(`the program refused the answer of fetch ${number} as ${why}: it fails`);
    this.#answers.add({ number, text: undefined });
    this.#changed();
    return true;
  }

  /** Ends the fetches that are under way; their answers go nowhere. */
  abandon() {
    const controllers = [...this.#underWay.values()];
    this.#underWay.clear();
    for (const controller of controllers) controller.abort();
  }

  #failed(number, className, name, fault) {
    if (!this.#underWay.has(number)) return;
    this.#counts.fetchesFailed += 1;
    this.#settings.log(`fetch ${number} of ${className} ${JSON.stringify(name)} fails: ${fault?.message ?? fault}`);
  }

  #remember(line, number) {
    this.#sent.set(line, number);
    if (this.#sent.size > REMEMBERED) this.#sent.delete(this.#sent.keys().next().value);
  }
}

async function answerOf(fetch, value, told) {
  const answer = await fetch(value, told);
  return answer instanceof Response ? await recordOf(answer) : answer;
}
