// Values as the lines carry them: null, truth values, whole numbers, texts, lists and records. What a call is given is read once, as it is called.
import { LineTooLong, UnsupportedValue, objectOf } from './failures.mjs';

/** The levels of lists and records that a value may have. */
export const DEPTH_LIMIT = 16;
/** The bytes of a value's encoding. */
export const SIZE_LIMIT = 4_194_304;
/** The bytes of a line of the input, before its LF. */
export const LINE_LIMIT = 1_048_576;
/** The bytes of an object's name. */
export const NAME_LIMIT = 1_024;

// What stands before the rest of a line of a call or an answer, at most: `["fetched",9007199254740991,`.
const HEAD_LIMIT = 28;
const SURROGATE = /[\ud800-\udfff]/;
const LONE_SURROGATE = /\p{Surrogate}/u;
// Texts that stand between quotes as they are.
const PLAIN = /^[\w .,:/-]{0,256}$/;

/** The text of a value in JSON; `what` names it where it is refused. */
export function encode(value, what) {
  if (typeof value === 'string' && PLAIN.test(value)) return `"${value}"`;
  return new Encoding(what).textOf(value, 0);
}

/** The text of a list of arguments. Those at the end that are undefined are left out, since the script finds undefined for them too. */
export function encodeArguments(args) {
  if (!Array.isArray(args)) throw new UnsupportedValue(`the arguments are ${kindOf(args)}: they have to be a list`);
  let count = args.length;
  while (count > 0 && args[count - 1] === undefined) count -= 1;
  let text = '[';
  for (let at = 0; at < count; at += 1) {
    text += (at === 0 ? '' : ',') + encode(args[at], `argument ${at + 1}`);
  }
  return text + ']';
}

/** What stands behind `["call",n,` in the line of a call. */
export function encodeCall(className, name, method, args) {
  const words = `${encodeWord(className, 'the class')},${encodeName(name)},${encodeWord(method, 'the method')}`;
  const text = `${words},${encodeArguments(args)}]`;
  if (isTooLong(text)) {
    throw new LineTooLong(`the call of ${method} of ${objectOf({ className, name })} is too long: its line would pass ${LINE_LIMIT} bytes`);
  }
  return text;
}

/** What stands behind `["fetched",k,` in the line of a fetch's answer. */
export function encodeAnswer(value) {
  const text = `${encode(value, 'the answer of a fetch')}]`;
  if (isTooLong(text)) throw new LineTooLong(`the answer of a fetch is too long: its line would pass ${LINE_LIMIT} bytes`);
  return text;
}

/** The text of an object's name. */
export function encodeName(name) {
  const text = encodeWord(name, 'the name of an object');
  if (name.length * 3 <= NAME_LIMIT) return text;
  const size = Buffer.byteLength(name);
  if (size > NAME_LIMIT) throw new UnsupportedValue(`the name of an object has at most ${NAME_LIMIT} bytes, and this one has ${size}`);
  return text;
}

function encodeWord(text, what) {
  if (typeof text !== 'string') throw new UnsupportedValue(`${what} is ${kindOf(text)}: it has to be a text`);
  return encode(text, what);
}

function isTooLong(text) {
  const most = LINE_LIMIT - HEAD_LIMIT;
  return text.length > most || (text.length * 3 > most && Buffer.byteLength(text) > most);
}

function kindOf(value) {
  if (value === undefined) return 'undefined';
  if (value === null) return 'null';
  if (typeof value === 'bigint') return `the big integer ${value}`;
  if (typeof value !== 'object') return `a ${typeof value}`;
  if (Array.isArray(value)) return 'a list';
  return `an object of ${value.constructor?.name ?? 'some class'}`;
}

// The text of one value, with the bytes of its encoding so far and the way to the part that is written.
class Encoding {
  #what;
  #size = 0;
  #way = [];

  constructor(what) {
    this.#what = what;
  }

  textOf(value, depth) {
    switch (typeof value) {
      case 'string':
        this.#count(5 + Buffer.byteLength(value));
        return this.#quoted(value);
      case 'number':
        this.#count(9);
        return Number.isSafeInteger(value) ? String(value) : this.#refuse(`is ${value}: a number is whole, from -(2^53 - 1) to 2^53 - 1`);
      case 'boolean':
        this.#count(1);
        return value ? 'true' : 'false';
      case 'object':
        this.#count(value === null ? 1 : 5);
        return value === null ? 'null' : this.#partsOf(value, depth + 1);
      default:
        return this.#refuse(`is ${kindOf(value)}: the lines carry null, truth values, whole numbers, texts, lists and records`);
    }
  }

  #partsOf(value, depth) {
    if (depth > DEPTH_LIMIT) this.#refuse(`stands in ${DEPTH_LIMIT} lists and records already, the most that a value has`);
    if (Array.isArray(value)) return this.#listText(value, depth);
    const base = Object.getPrototypeOf(value);
    if (base !== null && Object.getPrototypeOf(base) !== null) this.#refuse(`is ${kindOf(value)}: a record is a plain object`);
    return this.#recordText(value, depth);
  }

  #listText(list, depth) {
    const place = this.#way.push(0) - 1;
    let text = '[';
    for (let at = 0; at < list.length; at += 1) {
      this.#way[place] = at;
      text += (at === 0 ? '' : ',') + this.textOf(list[at], depth);
    }
    this.#way.pop();
    return `${text}]`;
  }

  // A field that is undefined is left out, since the script finds undefined for it too.
  #recordText(record, depth) {
    const place = this.#way.push('') - 1;
    let text = '';
    for (const key of Object.keys(record)) {
      const value = record[key];
      if (value === undefined) continue;
      this.#way[place] = key;
      this.#count(4 + Buffer.byteLength(key));
      text += `${text === '' ? '' : ','}${this.#quoted(key)}:${this.textOf(value, depth)}`;
    }
    this.#way.pop();
    return `{${text}}`;
  }

  #quoted(text) {
    if (SURROGATE.test(text) && LONE_SURROGATE.test(text)) this.#refuse('has half of a surrogate pair: a text is UTF-8');
    return JSON.stringify(text);
  }

  #count(bytes) {
    this.#size += bytes;
    if (this.#size > SIZE_LIMIT) this.#refuse(`passes ${SIZE_LIMIT} encoded bytes, the most that a value has`);
  }

  #refuse(why) {
    const way = this.#way.map((step) => (typeof step === 'number' ? `[${step}]` : `[${JSON.stringify(step)}]`)).join('');
    throw new UnsupportedValue(`${this.#what}${way} ${why}`);
  }
}
