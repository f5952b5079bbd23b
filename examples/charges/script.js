// A rate limiter whose counts may be lost, beside a ledger whose entries may not.
// Run it, from the top of the repository: mkdir charges; ./durable serve examples/charges/script.js charges < examples/charges/calls.jsonl
//
// The limiter puts its counts with allowUnconfirmed. So its answer doesn't wait for the disk, and a crash may undo the last counts: then a
// client may call a few times more in that minute, which does no harm. The ledger puts its entries without the option: a balance that was
// answered stays. docs/SCRIPT.md, 'Options of storage calls', says what waits for what.
import { DurableObject } from "cloudflare:workers";

// One for each client: at most three calls in a minute.
export class Limiter extends DurableObject {
  async take() {
    const now = Date.now();
    const minute = (now - now % 60000) / 60000;
    const taken = await this.ctx.storage.get("taken") ?? { minute, calls: 0 };
    const calls = taken.minute === minute ? taken.calls : 0;
    if (calls >= 3) { return false; }
    this.ctx.storage.put("taken", { minute, calls: calls + 1 }, { allowUnconfirmed: true });
    return true;
  }
}

// One for each client: what it was charged, and the sum of that.
export class Ledger extends DurableObject {
  // The sum with this charge. A charge has a number of the caller's and counts once, so it may be sent again where its answer was lost. The
  // entry and the sum are one batch, and the answer leaves once it is durable. Neither put has the option: one with it would change nothing,
  // since a batch is waited for where one of its writes is.
  async charge(number, amount) {
    const key = "charge:" + number;
    const sum = await this.ctx.storage.get("sum") ?? 0;
    if (await this.ctx.storage.get(key) !== undefined) { return sum; }
    this.ctx.storage.put(key, amount);
    this.ctx.storage.put("sum", sum + amount);
    return sum + amount;
  }

  async sum() { return await this.ctx.storage.get("sum") ?? 0; }
}

// What clients call. The limiter's answer may come before its count is on the disk, and the charge that follows is kept all the same: after a
// crash there may be more charges in a minute than the limiter has counted.
export class Shop extends DurableObject {
  async buy(client, number, amount) {
    if (!await this.env.Limiter.get(this.env.Limiter.idFromName(client)).take()) {
      throw { name: "TooMany", message: "three calls in a minute" };
    }
    return await this.env.Ledger.get(this.env.Ledger.idFromName(client)).charge(number, amount);
  }
}
