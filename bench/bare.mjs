// What bench/run puts beside the HTTP entry: a server of Node alone, which parses the same JSON and does nothing. It prints its port.
import { createServer } from 'node:http';

const server = createServer({ keepAliveTimeout: 600_000 }, (incoming, outgoing) => {
  const pieces = [];
  incoming.on('data', (piece) => pieces.push(piece));
  incoming.on('end', () => {
    const args = JSON.parse(Buffer.concat(pieces).toString('utf8'));
    const text = JSON.stringify(args.length);
    outgoing.writeHead(200, { 'content-type': 'application/json', 'content-length': Buffer.byteLength(text) });
    outgoing.end(text);
  });
});
server.listen(0, '127.0.0.1', () => console.log(server.address().port));
