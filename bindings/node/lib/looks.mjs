// How the members of a node are found by its names, one after another, in the order in which it has them.

// How many looks are kept for a type. A parser gives nodes of one type few orders of names; what has others is looked at anew each time.
const MOST_KEPT = 64;

/** In place of what a member holds, where it isn't known. */
export const UNKNOWN = 0;

/** The look at a node of a type before any of its names is met. `byName` are the members of the type, and `needed` the names of those it needs. */
export function firstLook(byName, needed) {
  return new Look({ byName, count: 0 }, null, needed);
}

/**
 * What is known of a node when some of its names were met: the `member` of the last of these and what that `holds`, null and UNKNOWN where the
 * type has none of that name, and the names that are needed and weren't among them, `missing`. `after(name)` is the look when one more is met.
 * So the looks of a type are a tree by names, in which each has that of the name at hand that came behind it the last time.
 */
class Look {
  constructor(type, member, missing) {
    this.type = type;
    this.member = member;
    this.holds = member === null ? UNKNOWN : member.holds;
    this.missing = missing;
    // the name that came last, and the look behind it
    this.name = undefined;
    this.next = null;
    this.others = null;
  }

  after(name) {
    return name === this.name ? this.next : this.changedTo(name);
  }

  changedTo(name) {
    const known = this.others?.get(name);
    const look = known ?? this.madeFor(name);
    if (known === undefined && !this.keeps(name, look)) return look;
    this.name = name;
    this.next = look;
    return look;
  }

  madeFor(name) {
    const missing = this.missing.includes(name) ? this.missing.filter((other) => other !== name) : this.missing;
    return new Look(this.type, this.type.byName.get(name) ?? null, missing);
  }

  // Whether there was room to keep it.
  keeps(name, look) {
    if (this.type.count === MOST_KEPT) return false;
    this.type.count += 1;
    this.others ??= new Map();
    this.others.set(name, look);
    return true;
  }
}
