// A rate limiter, as one writes it for Cloudflare, brought here by docs/FROM-CLOUDFLARE.md alone: a bucket of tokens for each client.
// Run it, from the top of the repository: mkdir limits; ./durable serve examples/limiter/script.js limits --workers 1 < examples/limiter/calls.jsonl
// The client is the object's name. A call takes a token where one is there, and else tells how long to wait.
//
// What was changed: the static fields are methods, since a class has no fields; the field that the class declared is set in the
// constructor; Math.min is a comparison; the tokens that came since the last call are counted in whole ones by (a - a % b) / b.
import { DurableObject } from "cloudflare:workers";

export class Limiter extends DurableObject {
  // The bucket is kept in memory alone: an object that leaves memory begins with a full one, which costs a client nothing.
  constructor(ctx, env) {
    super(ctx, env);
    this.tokens = this.capacity();
    this.filled = 0;
  }

  capacity() { return 3; }

  // One token comes each second.
  millisecondsPerToken() { return 1000; }

  // 0 where the call may go on, else the milliseconds to the next token. Date.now() is the time of the last tick.
  async take() {
    this.fill();
    if (this.tokens > 0) { this.tokens--; return 0; }
    return this.filled + this.millisecondsPerToken() - Date.now();
  }

  fill() {
    const passed = Date.now() - this.filled;
    const come = (passed - passed % this.millisecondsPerToken()) / this.millisecondsPerToken();
    const tokens = this.tokens + come;
    this.tokens = tokens < this.capacity() ? tokens : this.capacity();
    this.filled = this.filled + come * this.millisecondsPerToken();
  }
}
