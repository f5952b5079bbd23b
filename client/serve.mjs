#!/usr/bin/env node
// Serves the objects of a script over HTTP: behind a Worker, or by POST /Class/name/method. docs/WORKER.md tells how.
import { resolve } from 'node:path';
import { pathToFileURL } from 'node:url';
import { parseArgs } from 'node:util';
import { createEntry } from './entry.mjs';
import { Failure } from './failures.mjs';
import { Host } from './host.mjs';
import { Log } from './log.mjs';
import { installWeb } from './web.mjs';

const USAGE = `usage: node client/serve.mjs [WORKER.mjs] SCRIPT FOLDER [--port N] [--host ADDRESS] [--quiet] [--program FILE]
         [--slots N] [--workers N] [--journal-bytes N] [--tick-every MS] [--deadline MS] [--fetch-deadline MS]
         [--window N] [--lines-per-run N] [--memory-bytes N] [--backlog-bytes N]
With a Worker its fetch(request, env, ctx) answers; without one POST /Class/name/method with a JSON list of arguments is a call.`;

const HOST_NUMBERS = {
  slots: 'slots',
  workers: 'workers',
  'journal-bytes': 'journalBytes',
  'tick-every': 'tickEvery',
  deadline: 'deadline',
  'fetch-deadline': 'fetchDeadline',
  window: 'window',
  'lines-per-run': 'linesPerRun',
  'memory-bytes': 'memoryBytes',
  'backlog-bytes': 'backlogBytes',
};

// How long an ending waits for requests and for what Workers have left, before the host is closed.
const LONGEST_ENDING = 30_000;

class Usage extends Failure {}

main().catch((error) => {
  process.stderr.write(error instanceof Usage ? `${error.message}\n${USAGE}\n` : `serve: ${error instanceof Failure ? error.message : error.stack}\n`);
  process.exitCode = error instanceof Usage ? 1 : 2;
});

async function main() {
  const words = wordsGiven();
  if (!words) {
    process.stdout.write(`${USAGE}\n`);
    return;
  }
  const { worker: workerPath, script, folder, values } = words;
  const port = numberOf('port', values.port ?? '8787', 65_535);
  installWeb();
  const worker = workerPath && (await workerOf(workerPath));
  const log = new Log(process.stdout, { hasRequests: !values.quiet, onFault: tellOfLog });
  const opening = Host.open({ ...hostOptions(values), script, folder, log: (sentence) => log.tell(sentence) });
  const { server, untilIdle } = createEntry({ host: opening, worker, log });
  const [listened, opened] = await Promise.allSettled([listening(server, port, values.host ?? '127.0.0.1'), opening]);
  if (opened.status === 'rejected' || listened.status === 'rejected') {
    server.close();
    await opened.value?.close();
    server.closeAllConnections();
    throw opened.reason ?? new Usage(`port ${port} can't be had: ${listened.reason.message}`);
  }
  const { address, port: actual, family } = server.address();
  log.tell(`listening on http://${family === 'IPv6' ? `[${address}]` : address}:${actual}`);
  stopBySignals({ server, untilIdle, host: opened.value, log });
}

// The server goes on without its log; where nobody reads standard error either, nobody is told.
function tellOfLog(fault) {
  process.stderr.on('error', () => {});
  process.stderr.write(`serve: the log can't be written any more: ${fault.message}\n`);
}

function wordsGiven() {
  let given;
  try {
    const text = { type: 'string' };
    const options = { port: text, host: text, program: text, quiet: { type: 'boolean' }, help: { type: 'boolean' } };
    for (const name of Object.keys(HOST_NUMBERS)) options[name] = text;
    given = parseArgs({ allowPositionals: true, options });
  } catch (fault) {
    throw new Usage(fault.message);
  }
  const { values, positionals } = given;
  if (values.help) return undefined;
  if (positionals.length < 2 || positionals.length > 3) throw new Usage('a script and a folder are wanted');
  const [folder, script, worker] = positionals.reverse();
  return { worker, script, folder, values };
}

function hostOptions(values) {
  const options = {};
  if (values.program !== undefined) options.program = values.program;
  for (const [word, option] of Object.entries(HOST_NUMBERS)) {
    if (values[word] !== undefined) options[option] = numberOf(word, values[word], Number.MAX_SAFE_INTEGER);
  }
  return options;
}

function numberOf(word, text, most) {
  if (/^(0|[1-9][0-9]*)$/.test(text) && Number(text) <= most) return Number(text);
  throw new Usage(`--${word} takes a whole number up to ${most}`);
}

async function workerOf(path) {
  const { default: worker } = await import(pathToFileURL(resolve(path)));
  if (typeof worker?.fetch !== 'function') throw new Usage(`${path} has no 'export default { async fetch(request, env, ctx) {..} }'`);
  return worker;
}

function listening(server, port, host) {
  return new Promise((resolve, reject) => {
    server.once('error', reject);
    server.listen(port, host, () => {
      server.off('error', reject);
      resolve();
    });
  });
}

// The first signal answers what is under way and ends; a second ends at once, and the program then ends by itself.
function stopBySignals({ server, untilIdle, host, log }) {
  let isStopping = false;
  const stop = async (signal) => {
    if (isStopping) process.exit(1);
    isStopping = true;
    log.tell(`${signal}: ending, once what is under way is answered`);
    server.close();
    server.closeIdleConnections();
    let late;
    await Promise.race([untilIdle(), new Promise((resolve) => (late = setTimeout(resolve, LONGEST_ENDING)))]);
    clearTimeout(late);
    await host.close();
    server.closeAllConnections();
  };
  for (const signal of ['SIGINT', 'SIGTERM']) process.on(signal, () => void stop(signal));
}
