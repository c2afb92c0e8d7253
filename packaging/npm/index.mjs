// What programs in JavaScript call. The module is read once, when this file is imported.
import { Library } from './library.mjs';

const url = new URL('der_page.wasm', import.meta.url);

async function octetsOf() {
  if (url.protocol !== 'file:')
    return (await fetch(url)).arrayBuffer();
  const { readFile } = await import('node:fs/promises');
  return readFile(url);
}

const { instance } = await WebAssembly.instantiate(await octetsOf(), {});
const library = new Library(instance.exports);

/** The version of the module. */
export const version = library.version();

/** Reads octets as one value: see index.d.ts. */
export function read(octets, { schema = null, type = null, label = '' } = {}) {
  if (schema && !library.isSchema(schema))
    throw new TypeError('the schema is no table of types');
  library.load(octets, schema);
  let { word: kind, node } = schema ? { word: 'value', node: 0 } : library.kind(label);
  if (type !== null) {
    node = library.typeNamed(type);
    if (node === null)
      throw new TypeError(`there is no type ${type}`);
  }
  const found = library.read(0, octets.length, node);
  return { kind, verdict: found.verdict, elements: library.elements(found), departures: found.departures, more: found.lost };
}

/** The blocks of a PEM text: see index.d.ts. */
export function decodePem(text) {
  return library.blocks(typeof text === 'string' ? new TextEncoder().encode(text) : text);
}
