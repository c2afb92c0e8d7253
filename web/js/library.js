// The proved module (crates/der_page) in a WebAssembly memory of 64-bit addresses. Each call writes into memory that is
// given to it; pointers and sizes are BigInt. Offsets count from the start of the value.

const PAGE = 65536;
const ENTRY_SIZE = 40;
const FOUND_SIZE = 40;
const READER_SIZE = 32;
const BLOCK_SIZE = 32;
const NO_ROOM = -1n;
const NONE = 0xffffffff;
const FULL = 0xfffffffe;
const BLOCKS = ['block', 'none', 'malformed', 'encrypted'];

class Library {
  constructor(exports) {
    this.calls = exports;
    this.top = Math.ceil(Number(exports.__heap_base.value) / 16) * 16;
    const room = Number(exports.page_table_room()), at = this.take(room);
    this.own = { at, length: Number(exports.page_table(BigInt(at), BigInt(room))) };
    this.free = this.top;
  }

  version() {
    const number = this.calls.page_version();
    return [number / 10000, number / 100 % 100, number % 100].map(Math.floor).join('.');
  }

  // Takes memory above what is in use, and returns its address.
  take(size) {
    const at = this.top;
    this.top = Math.ceil((at + size) / 16) * 16;
    const missing = this.top - this.calls.memory.buffer.byteLength;
    if (missing > 0)
      this.grow(Math.ceil(missing / PAGE));
    return at;
  }

  // Engines from before the end of the proposal memory64, as that of Node 20, take a number here.
  grow(pages) {
    try {
      this.calls.memory.grow(BigInt(pages));
    } catch (error) {
      if (!(error instanceof TypeError))
        throw error;
      this.calls.memory.grow(pages);
    }
  }

  // Calls a function, and gives back the memory that it took.
  within(act) {
    const { top } = this;
    try {
      return act();
    } finally {
      this.top = top;
    }
  }

  bytes(at, length) { return new Uint8Array(this.calls.memory.buffer, at, length); }

  put(octets) {
    const at = this.take(octets.length);
    this.bytes(at, octets.length).set(octets);
    return { at, length: octets.length };
  }

  words(...parts) { return parts.flatMap(it => [BigInt(it.at), BigInt(it.length)]); }

  // What a call prints, which is told the memory for it.
  printed(call, room = PAGE) {
    for (let size = room; ; size *= 4) {
      const text = this.within(() => {
        const at = this.take(size), length = call(BigInt(at), BigInt(size));
        return length === NO_ROOM ? null : new TextDecoder().decode(this.bytes(at, Number(length)));
      });
      if (text !== null)
        return text;
    }
  }

  // Puts a value into the memory, where it stays until the next, and a table of types, if it has one of its own.
  load(octets, schema = null) {
    this.top = this.free;
    this.table = schema ? this.put(schema) : this.own;
    this.file = this.put(octets);
    this.length = octets.length;
  }

  octets(start, end) { return this.bytes(this.file.at + start, end - start); }

  part(start, end) { return { at: this.file.at + start, length: end - start }; }

  // Whether octets are a table of types, as `asn1_compile --schema` writes it.
  isSchema(octets) {
    return this.within(() => this.calls.page_types(...this.words(this.put(octets))) > 0);
  }

  // The index of a type in the table; null if it has none of this name.
  typeNamed(name) {
    const found = this.within(() => this.calls.page_type(...this.words(this.table, this.put(new TextEncoder().encode(name)))) >>> 0);
    return found === NONE ? null : found;
  }

  // Calls a function with room for elements, and for what is needed on the way, until it has enough.
  withRoom(length, call) {
    for (let entries = Math.max(256, length >> 3), marks = 4096; ; entries *= 4) {
      const { top } = this;
      const found = call({ at: this.take(entries * ENTRY_SIZE), length: entries },
        { at: this.take(4 * marks), length: marks }, { at: this.take(length + 1), length: length + 1 });
      if (found !== null)
        return found;
      this.top = top;
      if (entries > length) {
        if (marks > 2 ** 24)
          throw new Error('there is no memory for this value');
        marks *= 16;
      }
    }
  }

  // The kind of the value: that of the label of its PEM block, or else the one that its octets have.
  kind(label = '') {
    const promised = this.within(() => this.calls.page_kind_of_label(...this.words(this.put(new TextEncoder().encode(label)))) >>> 0);
    const found = this.within(() => this.withRoom(this.length, (...room) => {
      const answer = this.calls.page_find(...this.words(this.table, this.file, ...room)) >>> 0;
      return answer === FULL ? null : answer;
    }));
    const kind = found === NONE ? promised : found;
    return { word: this.printed((at, size) => this.calls.page_kind_word(kind, at, size), 64), node: this.calls.page_node(kind) };
  }

  // The elements of a part of the value, which is read as a value of a type.
  read(start, end, node) {
    return this.withRoom(end - start, (entries, ...room) => {
      for (let size = 2 ** 20; ; size *= 4) {
        const { top } = this, list = { at: this.take(size), length: size }, at = this.take(FOUND_SIZE);
        const part = this.part(start, end);
        if (!this.calls.page_read(...this.words(this.table), node, ...this.words(part, entries, ...room, list), BigInt(at)))
          return null;
        const view = new DataView(this.calls.memory.buffer, at, FOUND_SIZE), number = slot => view.getBigInt64(8 * slot, true);
        if (number(3) === NO_ROOM) {
          this.top = top;
          continue;
        }
        const departures = JSON.parse(new TextDecoder().decode(this.bytes(list.at, Number(number(3)))));
        const found = { start, end, entries: { at: entries.at, length: Number(number(0)) }, lost: Number(number(2)),
          verdict: ['DER', 'BER', 'neither'][view.getUint32(32, true)],
          departures: departures.map(({ node, departure }) => ({ ...departure, node, offset: departure.offset + start })) };
        this.top = Math.ceil((entries.at + found.entries.length * ENTRY_SIZE) / 16) * 16;
        return found;
      }
    });
  }

  // What lines say of elements of a tree: names, types, tags and the texts of values.
  rows({ start, end, entries }, first, count) {
    const lines = this.printed((at, size) => this.calls.page_rows(...this.words(this.table, this.part(start, end), entries),
      BigInt(first), BigInt(count), at, size));
    return lines.split('\n').slice(0, -1).map(line => {
      const [name, alternative, type, tag, text] = line.split('\t');
      return { name: name || alternative, type, tag, text };
    });
  }

  // A letter for each element of a tree: `x` if it stands for the value inside of it, `l` for a list.
  shapes({ start, end, entries }) {
    return this.within(() => {
      const at = this.take(entries.length);
      this.calls.page_shapes(...this.words(this.table, this.part(start, end), entries, { at, length: entries.length }));
      return this.bytes(at, entries.length).slice();
    });
  }

  // All elements of a tree, with what their lines say.
  elements(found) {
    const { at, length } = found.entries, rows = this.rows(found, 0, length);
    const view = new DataView(this.calls.memory.buffer, at, length * ENTRY_SIZE);
    return rows.map((row, it) => ({ ...row, offset: view.getUint32(it * ENTRY_SIZE, true), headerLength: view.getUint8(it * ENTRY_SIZE + 36),
      contentsLength: view.getUint32(it * ENTRY_SIZE + 8, true), depth: view.getUint8(it * ENTRY_SIZE + 37) }));
  }

  // The blocks of a PEM text, each with its label, its line and its octets; of a block that is malformed or encrypted the
  // octets are null, and `error` says which.
  blocks(text) {
    return this.within(() => {
      const all = this.put(text), found = [], out = { at: this.take(text.length), length: text.length };
      const reader = this.take(READER_SIZE), block = this.take(BLOCK_SIZE);
      const start = new DataView(this.calls.memory.buffer, reader, READER_SIZE);
      [...this.words(all), 0n, 0n].forEach((word, slot) => start.setBigUint64(8 * slot, word, true));
      for (;;) {
        const answer = BLOCKS[this.calls.page_block(BigInt(reader), ...this.words(out), BigInt(block))];
        if (answer === 'none')
          return found;
        const view = new DataView(this.calls.memory.buffer, block, BLOCK_SIZE), number = slot => Number(view.getBigUint64(8 * slot, true));
        const label = new TextDecoder().decode(this.bytes(all.at + number(0), number(1)));
        const error = answer === 'block' ? null : answer;
        found.push({ label, line: number(2), octets: error ? null : this.bytes(out.at, number(3)).slice(), error });
      }
    });
  }

  // The octets that base64 encodes, or null.
  base64(text) {
    return this.within(() => {
      const all = this.put(new TextEncoder().encode(text)), out = { at: this.take(all.length), length: all.length };
      const length = this.calls.page_base64(...this.words(all, out));
      return length === NO_ROOM ? null : this.bytes(out.at, Number(length)).slice();
    });
  }
}
