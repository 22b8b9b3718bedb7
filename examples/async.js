const first = async (stream) => {
	for await (const part of stream) return part;
};
function* pairs(list, [last, ...others] = list) {
	yield* others.map((other) => [last, other]);
	return yield;
}
const later = async function() {
	const { default: start } = await import("./start.js");
	await start(import.meta.url);
};
