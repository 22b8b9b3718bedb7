("use strict");
console.log("it's", a.b[0], 1 .x);
f(x)("say \"hi\"").y;
