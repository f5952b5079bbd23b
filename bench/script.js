// What bench/run calls.
import { DurableObject } from "cloudflare:workers";

export class Bench extends DurableObject {
  // Reads, adds, writes and answers.
  async add(key) {
    const next = (await this.ctx.storage.get(key) ?? 0) + 1;
    await this.ctx.storage.put(key, next);
    return next;
  }

  // Writes and answers.
  async put(key, value) {
    await this.ctx.storage.put(key, value);
    return null;
  }

  // Writes and answers without waiting for the disk.
  async loose(key, value) {
    await this.ctx.storage.put(key, value, { allowUnconfirmed: true });
    return null;
  }

  // As many batches, of one small write each.
  async fill(from, count) {
    for (let i = from; i < from + count; i++) { await this.ctx.storage.put("k" + i % 1000, i); }
    return null;
  }

  // This text under as many keys.
  async store(from, count, text) {
    for (let i = from; i < from + count; i++) { this.ctx.storage.put("v" + i, text); }
    return null;
  }

  // As many reads, each of the key so many behind the last one.
  async reads(count, step, keys) {
    for (let i = 0; i < count; i++) { await this.ctx.storage.get("v" + i * step % keys); }
    return null;
  }

  // How many pairs listings of so many have.
  async lists(count, limit) {
    let pairs = 0;
    for (let i = 0; i < count; i++) { pairs += (await this.ctx.storage.list({ prefix: "v", limit })).length; }
    return pairs;
  }

  // Nothing.
  take(value) { return null; }

  // No storage.
  async echo(value) { return value; }

  // One call to another object.
  async relay(name, value) { return await this.env.Bench.get(this.env.Bench.idFromName(name)).echo(value); }
}
