import defaults, { "max retries" as retries, wait } from "./settings.js";
import * as log from "./log.js";
import "./polyfill.js";
export const limit = retries ?? defaults.limit;
export async function attempt(task) {
	for (let round = 0; round < limit; round++) {
		try {
			return await task(round);
		} catch (error) {
			log.warn(`round ${round}: ${error}`);
			await wait(round);
		}
	}
}
export default class {}
export { wait as pause, log as default_log };
export * from "./settings.js";
