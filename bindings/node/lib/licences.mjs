// The comments of a source that hold a licence, in a file of their own.

/** The texts of the lines that the program's word `legal` writes: each tells where a comment begins and ends, in bytes of the source. */
export function licencesOf(lines, source) {
  const bytes = Buffer.from(source);
  const places = lines.split("\n").filter((line) => line !== "").map((line) => line.split(" ").map(Number));
  return places.map(([start, end]) => bytes.subarray(start, end).toString());
}

/** The text of a file of them: each on lines of its own. */
export function licenceFile(licences) {
  return licences.map((licence) => `${licence}\n`).join("");
}
