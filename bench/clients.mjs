// Clients of HTTP that keep their connections, each with one request under way, for bench/run. A line of the input, PORT CLIENTS COUNT PATH BODY, has
// so many of them make so many requests in all, NAME in the path standing for one of 16 objects; the answer is a line once all are answered.
import { connect } from 'node:net';
import { createInterface } from 'node:readline';

const OBJECTS = 16;
const kept = new Map();

class Client {
  #port;
  #request;
  #socket;
  #rest = '';
  #answered;

  constructor(port, request) {
    this.#port = port;
    this.#request = request;
  }

  ask(answered) {
    this.#answered = answered;
    this.#socket ??= this.#connected();
    this.#socket.write(this.#request);
  }

  #connected() {
    const socket = connect(this.#port, '127.0.0.1');
    socket.setNoDelay(true);
    socket.setEncoding('latin1');
    socket.on('data', (piece) => this.#hear(piece));
    socket.on('error', (fault) => this.#fail(fault.message));
    // A server closes a connection that is idle for long.
    socket.on('close', () => {
      this.#socket = undefined;
      if (this.#answered) this.#fail('the connection was closed');
    });
    return socket;
  }

  #hear(piece) {
    this.#rest += piece;
    const end = this.#rest.indexOf('\r\n\r\n');
    if (end < 0) return;
    const length = Number(/\r\ncontent-length: (\d+)/i.exec(this.#rest)[1]);
    if (this.#rest.length < end + 4 + length) return;
    if (!this.#rest.startsWith('HTTP/1.1 200')) this.#fail(this.#rest);
    this.#rest = '';
    const answered = this.#answered;
    this.#answered = undefined;
    answered();
  }

  #fail(why) {
    console.error(`clients: ${why}`);
    process.exit(1);
  }
}

function clientsOf(port, count, path, body) {
  const key = `${port} ${count} ${path}`;
  if (!kept.has(key)) {
    const clients = Array.from({ length: count }, (_, at) => {
      const target = path.replace('NAME', `o${at % OBJECTS}`);
      return new Client(port, `POST ${target} HTTP/1.1\r\nhost: 127.0.0.1\r\ncontent-type: application/json\r\ncontent-length: ${body.length}\r\n\r\n${body}`);
    });
    kept.set(key, clients);
  }
  return kept.get(key);
}

function run(clients, count) {
  return new Promise((resolve) => {
    let begun = 0;
    let answered = 0;
    const next = (client) => {
      if (begun < count) {
        begun += 1;
        client.ask(() => {
          answered += 1;
          if (answered === count) resolve();
          else next(client);
        });
      }
    };
    for (const client of clients) next(client);
  });
}

for await (const line of createInterface({ input: process.stdin })) {
  const [port, clients, count, path, body] = line.split(' ');
  await run(clientsOf(Number(port), Number(clients), path, body), Number(count));
  console.log('done');
}
// The connections are still open.
process.exit(0);
