// A cache whose entries have a time to live, brought here by docs/FROM-CLOUDFLARE.md alone: an entry that is over isn't given, and
// the alarm, which stands at the earliest end, deletes it.
// Run it, from the top of the repository: mkdir kept; ./durable serve examples/cache/script.js kept --workers 1 < examples/cache/calls.jsonl
//
// What was changed: the default of a parameter is an `if` at the method's start; { value, ends } was taken apart as it was declared,
// and is read part by part; ?. became (.. ?? {}); Math.min and a sort of the ends became a loop; Promise.all of deletes became
// deletes without await, which are one batch.
import { DurableObject } from "cloudflare:workers";

export class Cache extends DurableObject {
  // How long an entry lives is told in milliseconds, a minute where it isn't.
  async set(key, value, life) {
    if (life === undefined) { life = 60000; }
    if (life < 1) { throw { name: "RangeError", message: "an entry lives for at least a millisecond" }; }
    const ends = Date.now() + life;
    const alarm = await this.ctx.storage.getAlarm();
    this.ctx.storage.put("entry:" + key, { value, ends });
    if (alarm === null || ends < alarm) { this.ctx.storage.setAlarm(ends); }
    return ends;
  }

  // The value, or null where there is none or its time is over, though the alarm may not have come yet.
  async get(key) {
    const entry = await this.ctx.storage.get("entry:" + key) ?? {};
    return (entry.ends ?? 0) > Date.now() ? entry.value : null;
  }

  async remove(key) { return await this.ctx.storage.delete("entry:" + key); }

  async keys() {
    let keys = [];
    for (const pair of await this.ctx.storage.list({ prefix: "entry:" })) {
      if (pair[1].ends > Date.now()) { keys.push(pair[0].split("entry:")[1]); }
    }
    return keys;
  }

  // The deletes and the next alarm are one batch.
  async alarm() {
    let next = null;
    for (const pair of await this.ctx.storage.list({ prefix: "entry:" })) {
      const ends = pair[1].ends;
      if (ends <= Date.now()) { this.ctx.storage.delete(pair[0]); }
      else if (next === null || ends < next) { next = ends; }
    }
    if (next !== null) { this.ctx.storage.setAlarm(next); }
  }
}
