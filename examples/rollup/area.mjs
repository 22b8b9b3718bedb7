/*! area.mjs: do with it what you like. */

/** The area of a circle. */
export function area(radius) {
  return Math.PI * radius ** 2;
}
