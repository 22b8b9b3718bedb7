class Counter extends Base {
	static made = [];
	static {
		this.made.push("none");
	}
	#c = 0;
	get count() {
		return this.#c;
	}
	set count(value) {
		this.#c = value;
	}
	static isOne(other) {
		return #c in other;
	}
}
