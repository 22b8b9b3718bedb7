#!/usr/bin/env node
// Prints source files; `--help` says how.
import { printSources } from "../lib/print_command.mjs";

await printSources("jsgen-print");
