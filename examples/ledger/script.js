// Accounts that are objects, and a bank that moves money between them, so that their sum stays what was paid in, also where the
// program is killed in the middle of a transfer.
// Run it, from the top of the repository: mkdir money; ./durable serve examples/ledger/script.js money < examples/ledger/calls.jsonl
//
// Two accounts are two journals, and no write goes to both. So the bank writes down what it is about to do, tells both accounts
// under the transfer's number, and strikes it out: whatever was cut off is done again when the bank next comes into memory, and
// an account takes no number twice. Nothing else calls an account than the bank.
import { DurableObject } from "cloudflare:workers";

export class Bank extends DurableObject {
  // Before the first call: the transfer that a crash cut off, if there is one.
  constructor(ctx, env) {
    super(ctx, env);
    ctx.blockConcurrencyWhile(async () => {
      const transfer = await ctx.storage.get("pending");
      if (transfer !== undefined) { await this.finish(transfer); }
    });
  }

  // Opened again an account is as it was.
  async open(name, amount) {
    if (amount < 0 || amount > 1000000000) { throw new Error("an account is opened with 0 to 1000000000"); }
    const opened = await this.env.Account.get(this.env.Account.idFromName(name)).open(amount);
    this.ctx.storage.put("account:" + name, { name, opened });
    return opened;
  }

  // Whether the money was there. The block lets no other call of the bank see half of a transfer.
  async transfer(from, to, amount) {
    if (amount < 1) { throw new Error("an amount is at least 1"); }
    const accounts = await this.ctx.storage.get(["account:" + from, "account:" + to]);
    if (accounts.length < 2) { throw new Error("a transfer is between two open accounts"); }
    return await this.ctx.blockConcurrencyWhile(async () => {
      const number = (await this.ctx.storage.get("transfers") ?? 0) + 1;
      const transfer = { number, from, to, amount };
      this.ctx.storage.put("transfers", number);
      this.ctx.storage.put("pending", transfer);
      return await this.finish(transfer);
    });
  }

  // What was put before a call is durable before the call leaves, and so is what an account has put before its answer leaves.
  async finish(transfer) {
    const paid = await this.env.Account.get(this.env.Account.idFromName(transfer.from)).enter(transfer.number, 0 - transfer.amount);
    if (paid) { await this.env.Account.get(this.env.Account.idFromName(transfer.to)).enter(transfer.number, transfer.amount); }
    this.ctx.storage.delete("pending");
    return paid;
  }

  // The balances with their sum, and what was paid in.
  async audit() {
    let balances = {};
    let sum = 0;
    let paidIn = 0;
    for (const pair of await this.ctx.storage.list({ prefix: "account:" })) {
      const account = pair[1];
      const balance = await this.env.Account.get(this.env.Account.idFromName(account.name)).balance();
      balances[account.name] = balance;
      paidIn += account.opened;
      sum += balance;
    }
    return { balances, paidIn, sum };
  }
}

export class Account extends DurableObject {
  // What it was opened with.
  async open(amount) {
    const opened = await this.ctx.storage.get("opened");
    if (opened !== undefined) { return opened; }
    this.ctx.storage.put({ opened: amount, balance: amount });
    return amount;
  }

  // Enters a change under its number, once. The entry and the balance are one batch.
  async enter(number, change) {
    const key = "entry:" + (1000000 + number);
    if (await this.ctx.storage.get(key) !== undefined) { return true; }
    const balance = await this.balance() + change;
    if (balance < 0) { return false; }
    this.ctx.storage.put(key, change);
    this.ctx.storage.put("balance", balance);
    return true;
  }

  async balance() { return await this.ctx.storage.get("balance") ?? 0; }

  // The changes, the oldest first.
  async statement() {
    let changes = [];
    for (const pair of await this.ctx.storage.list({ prefix: "entry:" })) { changes.push(pair[1]); }
    return changes;
  }
}
