// Headless Chromium by its debugging pipe: people who open a page, type, press keys and read.
import { spawn } from 'node:child_process';
import { accessSync, constants, mkdtempSync, rmSync } from 'node:fs';
import { tmpdir } from 'node:os';
import { delimiter, join } from 'node:path';
import { pause, until } from './support.mjs';

const LONGEST_ENDING = 5_000;
const NAMES = ['chromium', 'chromium-browser', 'google-chrome'];
const FLAGS = [
  '--headless=new', '--remote-debugging-pipe', '--no-sandbox', '--no-first-run', '--disable-gpu', '--disable-dev-shm-usage', '--disable-sync',
  '--disable-background-networking', '--disable-component-update', '--disable-extensions', '--host-resolver-rules=MAP * ~NOTFOUND, EXCLUDE 127.0.0.1',
];

/** The path of Chromium, if it is installed. */
export function standingChromium() {
  const folders = (process.env.PATH ?? '').split(delimiter);
  return folders.flatMap((folder) => NAMES.map((name) => join(folder, name))).find(isProgram);
}

function isProgram(path) {
  try {
    accessSync(path, constants.X_OK);
    return true;
  } catch {
    return false;
  }
}

/** A running browser, which ends behind the test. */
export class Browser {
  #child;
  #asked = new Map();
  #number = 0;

  static start(t, program) {
    const folder = mkdtempSync(join(tmpdir(), 'client-browser-'));
    const options = { stdio: ['ignore', 'ignore', 'ignore', 'pipe', 'pipe'], env: { ...process.env, TMPDIR: folder } };
    const browser = new Browser(spawn(program, [...FLAGS, `--user-data-dir=${folder}`], options));
    t.after(async () => {
      await browser.#end();
      await removed(folder);
    });
    return browser;
  }

  constructor(child) {
    this.#child = child;
    child.on('error', (fault) => this.#lose(fault.message));
    child.on('exit', () => this.#lose('it ended'));
    // What is written to it as it ends goes nowhere, which its end tells.
    child.stdio[3].on('error', (fault) => this.#lose(fault.message));
    let rest = '';
    child.stdio[4].setEncoding('utf8');
    child.stdio[4].on('data', (piece) => {
      const messages = (rest + piece).split('\0');
      rest = messages.pop();
      for (const message of messages) this.#hear(JSON.parse(message));
    });
  }

  /** Asks what the protocol of the browser's tools has by this name. */
  ask(method, params = {}, sessionId = undefined) {
    this.#number += 1;
    const number = this.#number;
    return new Promise((resolve, reject) => {
      this.#asked.set(number, { resolve, reject });
      this.#child.stdio[3].write(`${JSON.stringify({ id: number, method, params, sessionId })}\0`);
    });
  }

  /** A person with a window of their own, who shares nothing with others. */
  async person(url) {
    const { browserContextId } = await this.ask('Target.createBrowserContext');
    const { targetId } = await this.ask('Target.createTarget', { url, browserContextId });
    const { sessionId } = await this.ask('Target.attachToTarget', { targetId, flatten: true });
    const person = new Person((method, params) => this.ask(method, params, sessionId));
    await until(() => person.evaluate('document.readyState === "complete" && location.href !== "about:blank"'), 'the page stands');
    return person;
  }

  #hear({ id, result, error }) {
    const asked = this.#asked.get(id);
    this.#asked.delete(id);
    if (error) asked?.reject(new Error(error.message));
    else asked?.resolve(result);
  }

  #lose(why) {
    for (const { reject } of this.#asked.values()) reject(new Error(`no browser: ${why}`));
    this.#asked.clear();
  }

  async #end() {
    if (this.#child.exitCode !== null || this.#child.signalCode !== null) return;
    const ended = new Promise((resolve) => this.#child.on('exit', resolve));
    this.ask('Browser.close').catch(() => {});
    const timer = setTimeout(() => this.#child.kill('SIGKILL'), LONGEST_ENDING);
    await ended;
    clearTimeout(timer);
  }
}

// The browser's own processes may write on for a moment behind its end.
async function removed(folder) {
  for (let time = 1; time <= 50; time += 1) {
    try {
      rmSync(folder, { recursive: true, force: true });
      return;
    } catch {
      await pause(100);
    }
  }
}

class Person {
  #ask;

  constructor(ask) {
    this.#ask = ask;
  }

  /** What an expression gives in the page. */
  async evaluate(expression) {
    const { result, exceptionDetails } = await this.#ask('Runtime.evaluate', { expression, returnByValue: true });
    if (exceptionDetails) throw new Error(exceptionDetails.exception?.description ?? exceptionDetails.text);
    return result.value;
  }

  /** Types into a field, in place of what stands there. */
  async type(selector, text) {
    await this.evaluate(`(() => { const field = document.querySelector(${JSON.stringify(selector)}); field.focus(); field.select(); })()`);
    await this.#ask('Input.insertText', { text });
  }

  async pressEnter() {
    const key = { key: 'Enter', code: 'Enter', windowsVirtualKeyCode: 13 };
    await this.#ask('Input.dispatchKeyEvent', { type: 'keyDown', text: '\r', ...key });
    await this.#ask('Input.dispatchKeyEvent', { type: 'keyUp', ...key });
  }

  /** Clicks the middle of what the selector finds. */
  async click(selector) {
    const box = `document.querySelector(${JSON.stringify(selector)}).getBoundingClientRect()`;
    const place = await this.evaluate(`(({ x, y, width, height }) => ({ x: x + width / 2, y: y + height / 2 }))(${box})`);
    for (const type of ['mousePressed', 'mouseReleased']) await this.#ask('Input.dispatchMouseEvent', { type, ...place, button: 'left', clickCount: 1 });
  }

  /** The text that is seen of what the selector finds. */
  async sees(selector) {
    return await this.evaluate(`[...document.querySelectorAll(${JSON.stringify(selector)})].map((it) => it.innerText).join('\\n')`);
  }
}
