// A chat room whose members are objects of their own: the room numbers and keeps what is said, and tells each member.
// Run it, from the top of the repository: mkdir chat; ./durable serve examples/room/script.js chat < examples/room/calls.jsonl
// A minute after the last message, in the time that the lines ["tick",t] tell, the room forgets all but the last two.
import { DurableObject } from "cloudflare:workers";

export class Room extends DurableObject {
  async join(name) {
    this.ctx.storage.put("member:" + name, name);
    return await this.members();
  }

  async leave(name) { return await this.ctx.storage.delete("member:" + name); }

  async members() {
    let names = [];
    for (const pair of await this.ctx.storage.list({ prefix: "member:" })) { names.push(pair[1]); }
    return names;
  }

  // The number, the message and the alarm are one batch, and that is durable before any member hears of it. A member who was
  // left out, as by a crash between two of them, asks for the history.
  async say(from, text) {
    if (await this.ctx.storage.get("member:" + from) === undefined) { throw new Error(from + " isn't in the room"); }
    const number = (await this.ctx.storage.get("last") ?? 0) + 1;
    const message = { number, from, text };
    this.ctx.storage.put("last", number);
    this.ctx.storage.put(this.keyOf(number), message);
    this.ctx.storage.setAlarm(Date.now() + 60000);
    for (const name of await this.members()) {
      if (name !== from) { await this.env.Member.get(this.env.Member.idFromName(name)).hear(message); }
    }
    return number;
  }

  // What was said after the message of this number, as far as the room keeps it.
  async history(number) {
    let messages = [];
    for (const pair of await this.ctx.storage.list({ startAfter: this.keyOf(number), prefix: "message:" })) { messages.push(pair[1]); }
    return messages;
  }

  async alarm() {
    const last = await this.ctx.storage.get("last") ?? 0;
    for (const pair of await this.ctx.storage.list({ prefix: "message:" })) {
      if (pair[1].number < last - 1) { this.ctx.storage.delete(pair[0]); }
    }
  }

  // Keys stand in the order of their bytes, so numbers in them have the same length.
  keyOf(number) { return "message:" + (1000000 + number); }
}

export class Member extends DurableObject {
  async hear(message) {
    let unread = await this.ctx.storage.get("unread") ?? [];
    unread.push(message.from + ": " + message.text);
    this.ctx.storage.put("unread", unread);
  }

  // The lines that weren't read yet. The answer leaves once they are durably taken away: a crash before it may lose them to the
  // reader, and never shows them twice.
  async read() {
    const unread = await this.ctx.storage.get("unread") ?? [];
    this.ctx.storage.delete("unread");
    return unread;
  }
}
