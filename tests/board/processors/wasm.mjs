// Runs a C program for WASI over the library's module: node wasm.mjs LIBRARY PROGRAM. The program has the library's memory for its own, so that pointers
// mean the same in both; processors.sh links it to begin behind the library's stack. `library_stack` tells the program where that stack begins: at the heap's
// base, since the library has no data.
import { readFileSync } from "node:fs";
import { WASI } from "node:wasi";

const PROGRAM_BEGIN = 131072;

const [library, program] = process.argv.slice(2).map((path) => new WebAssembly.Module(readFileSync(path)));
const wasi = new WASI({ version: "preview1", preopens: { ".": "." }, returnOnExit: true });
const { exports: env } = new WebAssembly.Instance(library);
if (!(env.__heap_base.value <= PROGRAM_BEGIN)) throw new Error("the library's stack reaches into the program's memory");
env.memory.grow(16);
const library_stack = () => env.__heap_base.value;
const { exports } = new WebAssembly.Instance(program, { wasi_snapshot_preview1: wasi.wasiImport, env: { ...env, library_stack } });
process.exitCode = wasi.start({ exports: { ...exports, memory: env.memory } });
