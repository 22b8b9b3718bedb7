// The words of the commands.
import { PROFILES } from "./profiles.mjs";

/** The profile and the size that a command is given. What is wrong with them is told, and ends it. */
export function profileAndSize(command) {
  const [name, size] = process.argv.slice(2);
  if (PROFILES[name] && /^\d+$/.test(size ?? "") && process.argv.length === 4) return { name, profile: PROFILES[name], size: Number(size) };
  process.stderr.write(`node ${command} PROFILE SIZE, where PROFILE is one of ${Object.keys(PROFILES).join(", ")}\n`);
  process.exit(2);
}
