// What one writes first: a counter, and a cart that takes the numbers of its orders from one.
// Run it, from the top of the repository: mkdir shop; ./durable serve examples/counter/script.js shop < examples/counter/calls.jsonl
// Each name is an object of its own: ["call",1,"Counter","visits","increment",[]] counts visits, and "orders" counts orders.
import { DurableObject } from "cloudflare:workers";

// The count stands in a field. A field is lost when the object leaves memory, so each count is stored too, and the constructor
// reads it before the first call.
export class Counter extends DurableObject {
  constructor(ctx, env) {
    super(ctx, env);
    ctx.blockConcurrencyWhile(async () => {
      this.count = await ctx.storage.get("count") ?? 0;
    });
  }

  async increment() {
    this.count++;
    this.ctx.storage.put("count", this.count);
    return this.count;
  }

  async value() { return this.count; }
}

// A key for each article and for each order. Prices are whole cents, since numbers are whole.
export class Cart extends DurableObject {
  async add(article, quantity, price) {
    if (quantity < 1) { throw new Error("a quantity is at least 1"); }
    const key = "item:" + article;
    const there = await this.ctx.storage.get(key);
    const item = { quantity: (there ? there.quantity : 0) + quantity, price };
    this.ctx.storage.put(key, item);
    return item;
  }

  async remove(article) { return await this.ctx.storage.delete("item:" + article); }

  async total() { return this.priceOf(await this.ctx.storage.list({ prefix: "item:" })); }

  // While the counter is asked, other calls may change the cart: so what is ordered is read behind it. The items go and the order
  // comes in one transaction, both or neither. Where it throws, its number is used by no order, since what another object did stays.
  async order() {
    const number = await this.env.Counter.get(this.env.Counter.idFromName("orders")).increment();
    return await this.ctx.storage.transaction(async (txn) => {
      const items = await txn.list({ prefix: "item:" });
      if (items.length === 0) { throw new Error("the cart is empty"); }
      const order = { number, total: this.priceOf(items) };
      for (const item of items) { txn.delete(item[0]); }
      txn.put("order:" + number, order);
      return order;
    });
  }

  // A list of pairs, each of a key and an item.
  priceOf(items) {
    let sum = 0;
    for (const item of items) { sum += item[1].quantity * item[1].price; }
    return sum;
  }
}
