import assert from 'node:assert/strict';
import { test } from 'node:test';
import worker from '../../examples/room/worker.mjs';
import { createEntry } from '../entry.mjs';
import { installWeb } from '../web.mjs';
import { Browser, standingChromium } from './browser.mjs';
import { TOP, WITH_PROGRAM, hostFor, until } from './support.mjs';

installWeb();
const chromium = standingChromium();
const WITH_BROWSER = { ...WITH_PROGRAM, skip: WITH_PROGRAM.skip || (chromium ? false : 'no chromium is installed (apt-get install chromium)') };

async function pageFor(t) {
  const host = await hostFor(t, { script: `${TOP}examples/room/script.js` });
  const { server } = createEntry({ host, worker, log: { request() {}, tell() {} } });
  await new Promise((resolve) => server.listen(0, '127.0.0.1', resolve));
  t.after(() => {
    server.closeAllConnections?.();
    server.close();
  });
  return `http://127.0.0.1:${server.address().port}/`;
}

async function comesIn(browser, url, name) {
  const person = await browser.person(url);
  await person.type('#entrance input[name=name]', name);
  await person.pressEnter();
  await until(async () => (await person.sees('#members')).split(', ').includes(name), `${name} is in`);
  return person;
}

async function says(person, text) {
  await person.type('#speech input', text);
  await person.click('#speech button');
}

test('two people in the room see each other and each other\'s words', WITH_BROWSER, async (t) => {
  const url = await pageFor(t);
  const browser = Browser.start(t, chromium);
  const ann = await comesIn(browser, url, 'ann');
  const bob = await comesIn(browser, url, 'bob');
  await until(async () => (await ann.sees('#members')) === 'ann, bob', 'ann sees bob');
  await says(ann, 'hello bob');
  await until(async () => (await bob.sees('#messages')).includes('hello bob'), 'bob sees what ann says');
  await says(bob, '<b>hello</b> ann \u{1f600}');
  await until(async () => (await ann.sees('#messages')).includes('<b>hello</b> ann \u{1f600}'), 'ann sees what bob says');
  for (const person of [ann, bob]) {
    const all = 'ann\nhello bob\nbob\n<b>hello</b> ann \u{1f600}';
    await until(async () => (await person.sees('#messages')) === all, 'both see what both said, once');
    assert.equal(await person.evaluate('document.querySelectorAll("#messages li").length'), 2);
    assert.equal(await person.sees('#problem'), '');
  }
  assert.equal(await bob.evaluate('document.querySelector("#speech input").value'), '');
  await bob.click('#leave');
  await until(async () => (await ann.sees('#members')) === 'ann', 'ann sees that bob has left');
  await until(async () => (await bob.sees('#entrance')).includes('Your name'), 'bob is outside again');
});
