const a = (b, c = "!") => ({
  name: b,
  b,
  text: "Hello, " + b + c
});
console.log(a("world").text);

/*! For license information please see licences.txt */