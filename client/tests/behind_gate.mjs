#!/usr/bin/env node
// Runs the client's tests behind the gate, for at most three minutes, and tells them in one line; what they say stands in out/client-tests.log.
// It ends with status 1 only where a test fails twice by what it tests: not where node, the program, loopback or a browser is missing, nor where the
// machine is too slow.
import { spawn } from 'node:child_process';
import { closeSync, existsSync, mkdirSync, openSync, readFileSync, readdirSync } from 'node:fs';
import { createServer } from 'node:net';
import { fileURLToPath } from 'node:url';

const TOP = fileURLToPath(new URL('../..', import.meta.url));
const LOG = `${TOP}out/client-tests.log`;
const LIMIT = 170_000;
const ENVIRONMENT = /testTimeoutFailure|cancelledByParent|too slow:|no browser:/;
const ends = Date.now() + LIMIT;

process.exitCode = await main();

async function main() {
  const inTheWay = await whatIsMissing();
  if (inTheWay) return tell(`skipped, since ${inTheWay}`, 0);
  const first = await attempt();
  if (first.failed.length === 0) return tell(first.sentence, 0);
  const second = await attempt();
  const twice = second.failed.filter((name) => first.failed.includes(name));
  if (twice.length === 0) return tell(`${second.sentence}; at first ${first.failed.join(', ')} failed`, 0);
  return tell(`these tests fail, as out/client-tests.log tells: ${twice.join('; ')}`, 1);
}

function tell(sentence, status) {
  console.log(`client: ${sentence}`);
  return status;
}

async function whatIsMissing() {
  if (Number(process.versions.node.split('.')[0]) < 18) return `node is ${process.version}, and 18 or later is wanted`;
  if (!existsSync(program())) return 'no program is built';
  return (await hasLoopback()) ? undefined : 'nothing can listen on 127.0.0.1';
}

// The program that the gate has built, unless another is named.
function program() {
  return process.env.DURABLE || `${TOP}crates/durable/out/durable`;
}

function hasLoopback() {
  return new Promise((resolve) => {
    const server = createServer();
    server.on('error', () => resolve(false));
    server.listen(0, '127.0.0.1', () => server.close(() => resolve(true)));
  });
}

// One run of all tests: those that failed, and a sentence on the others.
async function attempt() {
  mkdirSync(`${TOP}out`, { recursive: true });
  const log = openSync(LOG, 'w');
  const env = { ...process.env, DURABLE: program() };
  delete env.NODE_TEST_CONTEXT;
  const child = spawn(process.execPath, ['--test', ...reporter(), ...files()], { cwd: TOP, env, detached: true, stdio: ['ignore', log, log] });
  let isLate = false;
  const timer = setTimeout(() => {
    isLate = true;
    process.kill(-child.pid, 'SIGKILL');
  }, Math.max(1, ends - Date.now()));
  await new Promise((resolve) => child.on('close', resolve));
  clearTimeout(timer);
  closeSync(log);
  return read(readFileSync(LOG, 'utf8'), isLate);
}

// What is read below is TAP, which the first versions of Node 18 print by themselves.
function reporter() {
  return process.allowedNodeEnvironmentFlags.has('--test-reporter') ? ['--test-reporter=tap'] : [];
}

function files() {
  return readdirSync(`${TOP}client/tests`).filter((name) => name.endsWith('.test.mjs')).map((name) => `client/tests/${name}`);
}

function read(text, isLate) {
  const found = { good: 0, skipped: 0, slow: 0, failed: [] };
  const blocks = text.split(/^(?=\s*(?:not )?ok \d+ )/m);
  for (const block of blocks) {
    const [, not, name] = /^\s*(not )?ok \d+ - (.*)/.exec(block) ?? [];
    if (name === undefined) continue;
    if (/ # SKIP/.test(name)) found.skipped += 1;
    else if (!not) found.good += 1;
    else if (ENVIRONMENT.test(block)) found.slow += 1;
    else found.failed.push(name);
  }
  const parts = [`${found.good} tests are good`];
  if (found.skipped > 0) parts.push(`${found.skipped} skipped for what isn't installed`);
  if (found.slow > 0) parts.push(`${found.slow} not told, since the machine was too slow or the browser ended`);
  if (isLate) parts.push('the others not told, since three minutes are over');
  return { ...found, sentence: parts.join(', ') };
}
