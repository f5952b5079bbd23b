export class Shelf extends DurableObject {
  async set(k, v) { this.ctx.storage.put(k, v); return v; }
  async read(k) { return await this.ctx.storage.get(k); }
  async find(o) { return await this.ctx.storage.list(o); }
  async drop(k) { return await this.ctx.storage.delete(k); }
  async move(from, to) {
    return await this.ctx.storage.transaction(async (txn) => { const v = await txn.get(from); txn.put(to, v); await txn.delete(from); return v; });
  }
  async clear(k) { this.ctx.storage.deleteAll(); await this.ctx.storage.put(k, 0); this.ctx.storage.put(k, 1); return k; }
}
export class Clock extends DurableObject {
  async arm(t) { this.ctx.storage.setAlarm(t); return t; }
  async alarm(info) { this.ctx.storage.put("rang", info.retryCount); throw "again"; }
  async seen() { return [await this.ctx.storage.get("rang"), await this.ctx.storage.getAlarm()]; }
}
