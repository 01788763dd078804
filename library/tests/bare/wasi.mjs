// Runs a program of the tests that was compiled for WASI: wasi.mjs PROGRAM [WORD..]
import fs from "node:fs";
import { WASI } from "node:wasi";

const [, , program, ...words] = process.argv;
const wasi = new WASI({ version: "preview1", args: [program, ...words], preopens: { "/": "/" }, returnOnExit: true });
const { instance } = await WebAssembly.instantiate(fs.readFileSync(program), wasi.getImportObject());
process.exitCode = wasi.start(instance);
