// Gives the files that are named in a list to the module of WebAssembly, and prints what it says of each as a list of JSON.
// usage: module.mjs MODULE LIST, where LIST holds [["source" or "image", PATH], ..]
import fs from 'node:fs';

const [moduleFile, listFile] = process.argv.slice(2);
const module = new WebAssembly.Module(fs.readFileSync(moduleFile));
const imports = WebAssembly.Module.imports(module).length;
const fresh = () => new WebAssembly.Instance(module, {}).exports;
let calls = fresh();

function put(bytes) {
  const place = calls.take(bytes.length);
  new Uint8Array(calls.memory.buffer, place, bytes.length).set(bytes);
  return place;
}

function got(count) {
  return Buffer.from(new Uint8Array(calls.memory.buffer, calls.out(), count));
}

function compiled(text) {
  const place = put(text);
  const said = BigInt.asUintN(64, calls.compile(place, text.length));
  calls.release(place, text.length);
  const bytes = got(Number(said >> 32n));
  return (said & 1n) ? { refused: bytes.toString() } : { image: bytes };
}

function shown(image) {
  const place = put(image);
  const loaded = calls.load_image(place, image.length);
  if (!loaded) return { refused: got(calls.reason()).toString() };
  const count = calls.variables(loaded);
  const lines = got(calls.show(loaded, put(new Uint8Array(8 * count)), count));
  return { lines: lines.toString('base64') };
}

// A panic ends the instance: then the next file has another one.
function said(kind, path) {
  try {
    return spoken(kind, fs.readFileSync(path));
  } catch (error) {
    calls = fresh();
    return { stopped: error.message };
  }
}

function spoken(kind, bytes) {
  if (kind === 'image') return shown(bytes);
  const made = compiled(bytes);
  if (made.refused !== undefined) return made;
  return { image: made.image.toString('base64'), ...shown(made.image) };
}

const list = JSON.parse(fs.readFileSync(listFile));
console.log(JSON.stringify({ imports, said: list.map(([kind, path]) => said(kind, path)) }));
