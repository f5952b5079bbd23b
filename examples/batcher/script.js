// An alarm that gathers: items are stored as they come, and ten seconds after the first of them all are sent out in one fetch.
// Brought here by docs/FROM-CLOUDFLARE.md alone.
// Run it, from the top of the repository: mkdir batches; ./durable serve examples/batcher/script.js batches --workers 1 < examples/batcher/calls.jsonl
//
// What was changed: what list gives is a list of pairs, and no Map; the number in a key is padded by adding a million, since keys
// stand in the order of their bytes; the fetch has one argument, a record with all that a Request would have; fetch(request) of the
// object became the method add(item); == null became === null; a constant at the top became a method.
import { DurableObject } from "cloudflare:workers";

export class Batcher extends DurableObject {
  // The number of the last item, which a restart finds again in the greatest key.
  constructor(ctx, env) {
    super(ctx, env);
    ctx.blockConcurrencyWhile(async () => {
      const last = await ctx.storage.list({ prefix: "item:", reverse: true, limit: 1 });
      this.count = last.length === 0 ? 0 : last[0][1].number;
    });
  }

  delay() { return 10000; }

  // The item and the alarm are one batch: an item that was answered will be sent.
  async add(item) {
    const alarm = await this.ctx.storage.getAlarm();
    this.count++;
    const number = this.count;
    this.ctx.storage.put("item:" + (1000000 + number), { number, item });
    if (alarm === null) { this.ctx.storage.setAlarm(Date.now() + this.delay()); }
    return { queued: number };
  }

  // A fetch that fails throws, so the alarm comes again, at most six times, with the items that are there then; an item that came
  // meanwhile has set an alarm of its own, which stands in its place. What was sent is deleted, and nothing else.
  async alarm() {
    let items = [];
    const pairs = await this.ctx.storage.list({ prefix: "item:" });
    for (const pair of pairs) { items.push(pair[1].item); }
    await fetch({ url: "http://example.com/upstream", method: "POST", body: items });
    for (const pair of pairs) { this.ctx.storage.delete(pair[0]); }
  }
}
