import { jsgen } from "./jsgen.mjs";

export default {
  input: "main.mjs",
  output: { file: "bundle.mjs", format: "es", sourcemap: true },
  plugins: [jsgen()],
};
