// Numbers that look drawn, each row of them fixed by its seed (mulberry32).
export class Draw {
  constructor(seed) {
    this.state = seed >>> 0;
  }

  /** A whole number below the limit. */
  below(limit) {
    this.state = (this.state + 0x6d2b79f5) >>> 0;
    let mixed = Math.imul(this.state ^ (this.state >>> 15), this.state | 1);
    mixed ^= mixed + Math.imul(mixed ^ (mixed >>> 7), mixed | 61);
    return ((mixed ^ (mixed >>> 14)) >>> 0) % limit;
  }

  /** True once in so many times. */
  once(times) {
    return this.below(times) === 0;
  }

  /** One of the list, or `undefined` where it is empty. */
  of(list) {
    return list[this.below(list.length)];
  }

  several(least, most, make) {
    return Array.from({ length: least + this.below(most - least + 1) }, make);
  }

  /** The list in another order. */
  mixed(list) {
    const left = [...list];
    return list.map(() => left.splice(this.below(left.length), 1)[0]);
  }
}
