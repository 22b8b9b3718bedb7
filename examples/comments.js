/*! comments.js: do with it what you like. */
/**
* Twice a number.
*/
export function twice(number) {
  // A shift would do, too.
  return 2 * number;
}
