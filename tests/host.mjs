// Asks the module as the page does, by the page's own script: a question in JSON on each line of standard input, an answer in JSON
// on each line of standard output. Called as: node --experimental-wasm-memory64 host.mjs PAGE.JS MODULE
import { readFileSync } from 'node:fs';
import { createInterface } from 'node:readline';
import { createContext, runInContext } from 'node:vm';

const [script, file] = process.argv.slice(2);
const bytes = readFileSync(file);
const module = new WebAssembly.Module(bytes);
if (WebAssembly.Module.imports(module).length) throw new Error('the module has imports');

// Node 20 takes the pages of a 64-bit memory as a number, where browsers and later versions take a BigInt.
const grow = WebAssembly.Memory.prototype.grow;
WebAssembly.Memory.prototype.grow = function (pages) {
  try {
    return grow.call(this, pages);
  } catch (error) {
    if (!(error instanceof TypeError)) throw error;
    return grow.call(this, Number(pages));
  }
};
const page = createContext({ document: { addEventListener() {} }, WebAssembly, TextDecoder, TextEncoder, RangeError });
runInContext(readFileSync(script, 'utf8'), page);

const valueOf = ({ text, number, heaps, base64 }) => {
  if (text !== undefined) return new TextEncoder().encode(text);
  if (number !== undefined) return BigInt(number);
  return heaps ? BigUint64Array.from(heaps.map(BigInt)) : new Uint8Array(Buffer.from(base64, 'base64'));
};
for await (const line of createInterface({ input: process.stdin })) {
  const { name, values, loan, room } = JSON.parse(line);
  const lines = name === 'report' || name === 'catalogue';
  const found = page.answer({ module, name, values: values.map(valueOf), lines, loan, room });
  console.log(JSON.stringify(found));
}
