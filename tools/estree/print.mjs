// `node tools/estree/print.mjs`: `jsgen-print`, the command of the package for node; `--help` says how.
import { printSources } from "../../bindings/node/lib/print_command.mjs";

await printSources("node tools/estree/print.mjs");
