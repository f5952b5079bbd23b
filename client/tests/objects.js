// What the tests of the client call.
import { DurableObject } from "cloudflare:workers";

export class Cell extends DurableObject {
  async add(k) {
    const n = (await this.ctx.storage.get("n") ?? 0) + k;
    this.ctx.storage.put("n", n);
    return n;
  }

  async value() { return await this.ctx.storage.get("n") ?? 0; }

  async keep(text) { this.ctx.storage.put("text", text); return null; }

  async echo(value) { return value; }

  async count(list) { return list.length; }

  async nothing() { }

  // The text, doubled so many times.
  async doubled(text, times) {
    let grown = text;
    for (let i = 0; i < times; i++) { grown = grown + grown; }
    return grown;
  }

  async fail(value) { throw value; }

  async message() { throw new Error("the cell is empty"); }

  async spin() { while (true) {} }

  async blockThrows() { await this.ctx.blockConcurrencyWhile(async () => { throw new Error("no"); }); }

  async outside(value) { return await fetch(value); }

  async tryOutside(value) { try { return [await fetch(value)]; } catch (e) { return e; } }

  async outsideOften(count) { for (let i = 0; i < count; i++) { await fetch(i); } return count; }
}

export class Timer extends DurableObject {
  async arm(delay) { this.ctx.storage.setAlarm(Date.now() + delay); return Date.now(); }

  async alarm() { this.ctx.storage.put("rang", Date.now()); }

  async rang() { return await this.ctx.storage.get("rang") ?? 0; }

  async now() { return Date.now(); }
}

// Two objects that wait for each other for ever.
export class Knot extends DurableObject {
  async tie(other) {
    return await this.ctx.blockConcurrencyWhile(async () => {
      return await this.env.Knot.get(this.env.Knot.idFromName(other)).back();
    });
  }

  async back() { return await this.env.Knot.get(this.env.Knot.idFromName("one")).ping(); }

  async ping() { return 7; }
}

export class Broken extends DurableObject {
  constructor(ctx, env) {
    super(ctx, env);
    ctx.blockConcurrencyWhile(async () => { throw new Error("never"); });
  }

  async ping() { return 7; }
}
