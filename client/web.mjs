// A Worker's Request and Response. Node's own cost more than all else that a request takes, so these keep what they are made from, and make
// Node's only where more is asked of them. For a Worker they are instances of Request and Response like any other.
const NodeRequest = globalThis.Request;
const NodeResponse = globalThis.Response;
const nodeFetch = globalThis.fetch;
const DECODER = new TextDecoder();

/** The request that came in, for a Worker. Its body is whole already. */
export class IncomingRequest {
  #incoming;
  #url;
  #body;
  #headers;
  #whole;
  #isUsed = false;

  /** `incoming` is Node's message, `url` its whole address, and `body` its bytes. */
  constructor(incoming, url, body) {
    this.#incoming = incoming;
    this.#url = url;
    this.#body = body;
  }

  get method() {
    return this.#incoming.method;
  }

  get url() {
    return this.#whole?.url ?? this.#url;
  }

  get headers() {
    this.#headers ??= this.#whole?.headers ?? headersOf(this.#incoming.rawHeaders);
    return this.#headers;
  }

  get bodyUsed() {
    return this.#whole ? this.#whole.bodyUsed : this.#isUsed;
  }

  async text() {
    return this.#whole ? this.#whole.text() : DECODER.decode(this.#use());
  }

  async json() {
    return JSON.parse(await this.text());
  }

  async arrayBuffer() {
    return this.#whole ? this.#whole.arrayBuffer() : new Uint8Array(this.#use()).buffer;
  }

  /** Node's own request of the same content. */
  whole() {
    if (!this.#whole) {
      const body = this.#body.length === 0 || this.method === 'GET' || this.method === 'HEAD' ? undefined : this.#body;
      this.#whole = new NodeRequest(this.#url, { method: this.method, headers: this.headers, body });
      if (this.#isUsed) void this.#whole.arrayBuffer();
    }
    return this.#whole;
  }

  #use() {
    if (this.#isUsed) throw new TypeError('the body of the request is used already');
    this.#isUsed = this.#body.length > 0;
    return this.#body;
  }
}

/** A response that a Worker makes. One of a text, bytes or nothing keeps these; any other is Node's from the beginning. */
export class OutgoingResponse {
  #body;
  #init;
  #headers;
  #whole;

  constructor(body = null, init = undefined) {
    this.#body = body;
    this.#init = init;
    if (!isPlain(body, init)) this.#whole = new NodeResponse(body, init);
  }

  static json(value, init = {}) {
    const text = JSON.stringify(value);
    if (text === undefined) throw new TypeError('the value has no JSON');
    const headers = headersOf(init.headers);
    if (!headers.has('content-type')) headers.set('content-type', 'application/json');
    return new OutgoingResponse(text, { status: init.status, statusText: init.statusText, headers });
  }

  static error() {
    return NodeResponse.error();
  }

  static redirect(url, status) {
    return NodeResponse.redirect(url, status);
  }

  get status() {
    return this.#whole?.status ?? this.#init?.status ?? 200;
  }

  get ok() {
    return this.status >= 200 && this.status <= 299;
  }

  get headers() {
    if (this.#whole) return this.#whole.headers;
    this.#headers ??= withType(headersOf(this.#init?.headers), this.#body);
    return this.#headers;
  }

  /** What may be written as it is: a text, bytes or null; undefined where the body is a stream that Node's response holds. */
  get plainBody() {
    return this.#whole ? undefined : this.#body;
  }

  /** Node's own response of the same content. */
  whole() {
    this.#whole ??= new NodeResponse(this.#body, { ...this.#init, headers: this.headers });
    return this.#whole;
  }
}

const REQUEST_FIELDS = [
  'body', 'cache', 'credentials', 'destination', 'duplex', 'integrity', 'keepalive', 'mode', 'redirect', 'referrer', 'referrerPolicy', 'signal',
];
const REQUEST_METHODS = ['blob', 'bytes', 'clone', 'formData'];
const RESPONSE_FIELDS = ['body', 'bodyUsed', 'redirected', 'statusText', 'type', 'url'];
const RESPONSE_METHODS = ['arrayBuffer', 'blob', 'bytes', 'clone', 'formData', 'json', 'text'];

standFor(IncomingRequest, NodeRequest, REQUEST_FIELDS, REQUEST_METHODS);
standFor(OutgoingResponse, NodeResponse, RESPONSE_FIELDS, RESPONSE_METHODS);
Object.defineProperty(OutgoingResponse, Symbol.hasInstance, { value: (it) => isOf(NodeResponse, it) });

/** Has this process make such responses, and lets `new Request` and `fetch` take an incoming request. */
export function installWeb() {
  globalThis.Response = OutgoingResponse;
  globalThis.Request = class Request extends NodeRequest {
    constructor(input, init) {
      super(wholeOf(input), init);
    }

    static [Symbol.hasInstance](it) {
      return isOf(NodeRequest, it);
    }
  };
  globalThis.fetch = (input, init) => nodeFetch(wholeOf(input), init);
}

function isOf(nodes, it) {
  return it !== null && typeof it === 'object' && Object.prototype.isPrototypeOf.call(nodes.prototype, it);
}

function wholeOf(input) {
  return input instanceof IncomingRequest ? input.whole() : input;
}

// What the class doesn't have itself is that of Node's object, which is made for it.
function standFor(own, nodes, fields, methods) {
  Object.setPrototypeOf(own.prototype, nodes.prototype);
  for (const name of fields) {
    Object.defineProperty(own.prototype, name, { configurable: true, get() { return this.whole()[name]; } });
  }
  for (const name of methods) {
    Object.defineProperty(own.prototype, name, { configurable: true, value(...args) { return this.whole()[name](...args); } });
  }
}

function isPlain(body, init) {
  if (typeof body !== 'string' && body !== null && !(body instanceof Uint8Array)) return false;
  const status = init?.status ?? 200;
  const isBodiless = status === 204 || status === 205 || status === 304;
  return init?.statusText === undefined && Number.isInteger(status) && status >= 200 && status <= 599 && !(isBodiless && body !== null);
}

function withType(headers, body) {
  if (typeof body === 'string' && !headers.has('content-type')) headers.set('content-type', 'text/plain;charset=UTF-8');
  return headers;
}

function headersOf(given) {
  if (!Array.isArray(given) || Array.isArray(given[0])) return new Headers(given);
  const headers = new Headers();
  for (let at = 0; at < given.length; at += 2) headers.append(given[at], given[at + 1]);
  return headers;
}
