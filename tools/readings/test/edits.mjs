// Edits of rows that take something out of the grammar, for tests.

/** An array or an object is taken for a simple target, which it is itself. */
export function arraysAreTargets(row) {
  return { ...row, premises: row.premises.map((premise) => (premise.guard === "simple_target" ? isTarget(premise) : premise)) };
}

function isTarget(premise) {
  const holds = (found) => {
    if (premise(found)) return true;
    found.u = found.t;
    return ["tree.array", "tree.object_expression"].includes(found.t.tree.name);
  };
  return Object.assign(holds, { binds: premise.binds });
}

/** One text of a reading in place of another. */
export const reads = (from, to) => (row) => {
  if (!row.reading.includes(from)) throw new Error(`${from} isn't in ${row.reading}`);
  return { ...row, reading: row.reading.replace(from, to) };
};
