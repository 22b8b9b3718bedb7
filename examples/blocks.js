if (a) {
	if (b) f();
} else if (c);
else if (d) {
	const e = 1;
}
