// Starts the page, or says why the browser cannot.

// The smallest module with a memory of 64-bit addresses.
const PROBE = Uint8Array.of(0, 0x61, 0x73, 0x6d, 1, 0, 0, 0, 5, 3, 1, 4, 1);

async function start() {
  const told = find('unsupported');
  if (typeof WebAssembly !== 'object' || !WebAssembly.validate(PROBE)) {
    told.textContent = 'This browser cannot run WebAssembly with a memory of 64-bit addresses (memory64), which this page '
      + 'needs. Chromium and Chrome from version 133 and Firefox from version 134 can.';
    return;
  }
  try {
    const packed = new Blob([Uint8Array.from(atob(WASM), it => it.charCodeAt(0))]).stream();
    const module = await new Response(packed.pipeThrough(new DecompressionStream('gzip'))).arrayBuffer();
    const { instance } = await WebAssembly.instantiate(module, {});
    window.yotremul = new Page(new Library(instance.exports));
    told.remove();
    document.body.classList.add('started');
  } catch (error) {
    told.textContent = `The reader does not start: ${error}`;
  }
}

start();
