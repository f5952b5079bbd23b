/** First in, first out. */
export class Queue {
  #items = [];
  #first = 0;

  get size() {
    return this.#items.length - this.#first;
  }

  add(item) {
    this.#items.push(item);
  }

  peek() {
    return this.#items[this.#first];
  }

  take() {
    const item = this.#items[this.#first];
    this.#items[this.#first] = undefined;
    this.#first += 1;
    if (this.#first >= 1_024 && this.#first * 2 >= this.#items.length) {
      this.#items = this.#items.slice(this.#first);
      this.#first = 0;
    }
    return item;
  }
}
