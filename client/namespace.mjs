// The objects of a class as a Worker sees them: a namespace gives ids, an id or a name gives a stub, and a stub's methods are the object's.
import { WrongId } from './failures.mjs';
import { encodeName } from './values.mjs';

/** What tells an object among those of its class. */
export class ObjectId {
  #className;

  constructor(className, name) {
    this.#className = className;
    this.name = name;
    Object.freeze(this);
  }

  /** Whether it is an id of this class. */
  isOf(className) {
    return this.#className === className;
  }

  equals(other) {
    return other instanceof ObjectId && other.isOf(this.#className) && other.name === this.name;
  }

  toString() {
    return this.name;
  }
}

/** The objects of one class: `env.Counter` of a Worker. */
export class Namespace {
  #className;
  #call;

  /** `call(className, name, method, args)` makes a call and promises its value. */
  constructor(className, call) {
    this.#className = className;
    this.#call = call;
    Object.freeze(this);
  }

  idFromName(name) {
    encodeName(name);
    return new ObjectId(this.#className, name);
  }

  get(id) {
    if (!(id instanceof ObjectId) || !id.isOf(this.#className)) {
      throw new WrongId(`get of ${this.#className} takes an id that ${this.#className}.idFromName gave; getByName takes a name`);
    }
    return stubOf(this.#className, id, this.#call);
  }

  getByName(name) {
    return this.get(this.idFromName(name));
  }
}

// Each name but `id` and `name` is a method that promises its value. `then` is none, or a stub couldn't be the value of a promise.
function stubOf(className, id, call) {
  return new Proxy(Object.freeze({ id, name: id.name }), {
    get(own, word) {
      if (typeof word !== 'string' || word === 'then') return undefined;
      if (Object.hasOwn(own, word)) return own[word];
      return (...args) => call(className, id.name, word, args);
    },
  });
}
