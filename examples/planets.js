// A report on the planets: what jsgen reads by now, in a program that node runs.
"use strict";

const KILOMETERS_IN_AU = 149_597_870.7;
const GRAVITY = 6.6743e-11;
const report = [];

const mercury = {
  name: "Mercury",
  orbit: {
    axis: 57.909e6,
    eccentricity: 0.2056,
    period: 88.0,
  },
  diameter: 4879,
  mass: 0.3301e24,
  atmosphere: "no",
};

const venus = {
  name: "Venus",
  orbit: {
    axis: 108.21e6,
    eccentricity: 0.0068,
    period: 224.7,
  },
  diameter: 12104,
  mass: 4.8673e24,
  atmosphere: "thick",
};

const earth = {
  name: "Earth",
  orbit: {
    axis: 149.598e6,
    eccentricity: 0.0167,
    period: 365.2,
  },
  diameter: 12756,
  mass: 5.9722e24,
  atmosphere: "thin",
  moons: {
    count: 1,
    known: ["Moon"],
  },
};

const mars = {
  name: "Mars",
  orbit: {
    axis: 227.956e6,
    eccentricity: 0.0935,
    period: 687.0,
  },
  diameter: 6792,
  mass: 0.64169e24,
  atmosphere: "thin",
  moons: {
    count: 2,
    known: ["Phobos", "Deimos"],
  },
};

const jupiter = {
  name: "Jupiter",
  orbit: {
    axis: 778.479e6,
    eccentricity: 0.0487,
    period: 4331,
  },
  diameter: 142984,
  mass: 1898.13e24,
  atmosphere: "thick",
  moons: {
    count: 95,
    known: ["Io", "Europa", "Ganymede", "Callisto"],
  },
};

const saturn = {
  name: "Saturn",
  orbit: {
    axis: 1432.041e6,
    eccentricity: 0.052,
    period: 10747,
  },
  diameter: 120536,
  mass: 568.32e24,
  atmosphere: "thick",
  moons: {
    count: 146,
    known: ["Titan", "Rhea", "Iapetus"],
  },
};

const uranus = {
  name: "Uranus",
  orbit: {
    axis: 2867.043e6,
    eccentricity: 0.0469,
    period: 30589,
  },
  diameter: 51118,
  mass: 86.811e24,
  atmosphere: "thick",
  moons: {
    count: 28,
    known: ["Titania", "Oberon"],
  },
};

const neptune = {
  name: "Neptune",
  orbit: {
    axis: 4514.953e6,
    eccentricity: 0.0097,
    period: 59800,
  },
  diameter: 49528,
  mass: 102.409e24,
  atmosphere: "thick",
  moons: {
    count: 16,
    known: ["Triton"],
  },
};

const inner = [mercury, venus, earth, mars];
const outer = [jupiter, saturn, uranus, neptune];
const planets = [...inner, ...outer];

report.push(mercury.name + ": " + (mercury.orbit.axis / KILOMETERS_IN_AU).toFixed(2) + " AU, " + (mercury.moons?.count ?? 0) + " moons");
if (mercury.atmosphere !== "no") report.push("  an atmosphere that is " + mercury.atmosphere);
else report.push("  no atmosphere");
if (mercury.moons?.known?.[0]) {
  report.push("  first moon: " + mercury.moons.known[0]);
}

report.push(venus.name + ": " + (venus.orbit.axis / KILOMETERS_IN_AU).toFixed(2) + " AU, " + (venus.moons?.count ?? 0) + " moons");
if (venus.atmosphere !== "no") report.push("  an atmosphere that is " + venus.atmosphere);
else report.push("  no atmosphere");
if (venus.moons?.known?.[0]) {
  report.push("  first moon: " + venus.moons.known[0]);
}

report.push(earth.name + ": " + (earth.orbit.axis / KILOMETERS_IN_AU).toFixed(2) + " AU, " + (earth.moons?.count ?? 0) + " moons");
if (earth.atmosphere !== "no") report.push("  an atmosphere that is " + earth.atmosphere);
else report.push("  no atmosphere");
if (earth.moons?.known?.[0]) {
  report.push("  first moon: " + earth.moons.known[0]);
}

report.push(mars.name + ": " + (mars.orbit.axis / KILOMETERS_IN_AU).toFixed(2) + " AU, " + (mars.moons?.count ?? 0) + " moons");
if (mars.atmosphere !== "no") report.push("  an atmosphere that is " + mars.atmosphere);
else report.push("  no atmosphere");
if (mars.moons?.known?.[0]) {
  report.push("  first moon: " + mars.moons.known[0]);
}

report.push(jupiter.name + ": " + (jupiter.orbit.axis / KILOMETERS_IN_AU).toFixed(2) + " AU, " + (jupiter.moons?.count ?? 0) + " moons");
if (jupiter.atmosphere !== "no") report.push("  an atmosphere that is " + jupiter.atmosphere);
else report.push("  no atmosphere");
if (jupiter.moons?.known?.[0]) {
  report.push("  first moon: " + jupiter.moons.known[0]);
}

report.push(saturn.name + ": " + (saturn.orbit.axis / KILOMETERS_IN_AU).toFixed(2) + " AU, " + (saturn.moons?.count ?? 0) + " moons");
if (saturn.atmosphere !== "no") report.push("  an atmosphere that is " + saturn.atmosphere);
else report.push("  no atmosphere");
if (saturn.moons?.known?.[0]) {
  report.push("  first moon: " + saturn.moons.known[0]);
}

report.push(uranus.name + ": " + (uranus.orbit.axis / KILOMETERS_IN_AU).toFixed(2) + " AU, " + (uranus.moons?.count ?? 0) + " moons");
if (uranus.atmosphere !== "no") report.push("  an atmosphere that is " + uranus.atmosphere);
else report.push("  no atmosphere");
if (uranus.moons?.known?.[0]) {
  report.push("  first moon: " + uranus.moons.known[0]);
}

report.push(neptune.name + ": " + (neptune.orbit.axis / KILOMETERS_IN_AU).toFixed(2) + " AU, " + (neptune.moons?.count ?? 0) + " moons");
if (neptune.atmosphere !== "no") report.push("  an atmosphere that is " + neptune.atmosphere);
else report.push("  no atmosphere");
if (neptune.moons?.known?.[0]) {
  report.push("  first moon: " + neptune.moons.known[0]);
}

// Gravity at the surface, in meters in a second squared; twice the radius is the diameter, in kilometers.
mercury.gravity = GRAVITY * mercury.mass / (mercury.diameter * 500) ** 2;
venus.gravity = GRAVITY * venus.mass / (venus.diameter * 500) ** 2;
earth.gravity = GRAVITY * earth.mass / (earth.diameter * 500) ** 2;
mars.gravity = GRAVITY * mars.mass / (mars.diameter * 500) ** 2;
jupiter.gravity = GRAVITY * jupiter.mass / (jupiter.diameter * 500) ** 2;
saturn.gravity = GRAVITY * saturn.mass / (saturn.diameter * 500) ** 2;
uranus.gravity = GRAVITY * uranus.mass / (uranus.diameter * 500) ** 2;
neptune.gravity = GRAVITY * neptune.mass / (neptune.diameter * 500) ** 2;

const heavy = earth.gravity > 9 && jupiter.gravity > 20 ? "as expected" : "not as expected";
report.push("Gravity is " + heavy + ": " + earth.gravity.toFixed(2) + " here, " + mars.gravity.toFixed(2) + " on Mars");
report.push("last" in report ? "" : "Venus is " + (venus.diameter / earth.diameter * 100 | 0) + "% of the Earth");

// Signs that must stand apart, grouping, and characters past ASCII.
const counter = { value: 3, "year of discovery": -1, ["Åström"]: "πλανήτης", 0x10: 1n };
const total = counter.value++ + ++counter.value - -counter.value;
const first = (total, planets.length) || (void 0 ?? null);
delete counter["year of discovery"], counter.value **= 2;
if (typeof first === "number") {
  if (first > 8) report.push("more");
} else {
  report.push("less");
}
report.push("\u{1F310} " + counter["\u00c5str\u00f6m"] + " " + (-1) ** 2 + " " + !(first in counter) + " " + [, 1].length);
report.push("</script" + ">".repeat(1) + " 'single' \"double\" `backticks`");

// A class, whose count is private, and patterns of what planets have.
class Census {
  static #taken = 0;
  static {
    Census.#taken += 1;
  }

  #count = 0;

  get count() {
    return this.#count;
  }

  set count(value) {
    this.#count = value < 0 ? 0 : value;
  }

  add({ name, moons: { count = 0, known: [nearest, ...others] = [] } = {} }) {
    this.count += count;
    return nearest === undefined ? name : name + " with " + nearest + " and " + others.length + " more";
  }

  static isOne(value) {
    return Census.#taken > 0 && #count in value;
  }
}

const census = new Census();
let nearest, rest;
[nearest, ...{ length: rest }] = planets.map((planet) => census.add(planet));
({ count: census.total, none: census.none = nearest } = census);
for (const [name, value] of Object.entries(census)) report.push("  " + name + ": " + value);
report.push(rest + " further lines, " + Census.isOne(census) + ", " + Census.isOne({}));

// What is told last, by a generator and by what is waited for.
function* partsOf(planet, depth = 1) {
  for (const [name, part] of Object.entries(planet)) {
    yield `${"  ".repeat(depth)}${name}`;
    if (typeof part === "object") yield* partsOf(part, depth + 1);
  }
}

const tell = async ({ name, ...planet }) => {
  report.push(`${name} has: ${"$"}{`);
  for await (const line of partsOf(planet)) report.push(line);
  report.push(await import("node:path").then(({ sep }) => `\`${sep.length}\` \${} ${String.raw`\u`}`));
  console.log(report.join("\n"), planets.length, new Date(0).getTime());
};
tell(earth);
