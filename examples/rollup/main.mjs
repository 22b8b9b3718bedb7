import { area } from "./area.mjs";

// The area of a pizza, in square centimetres.
const centimetres = 32;
console.log(`${Math.round(area(centimetres / 2))} cm²`);
