// The elements of a value, each before those inside of it, as the module reads them. The contents of a string may be
// read too: then their elements follow it.

const FIELDS_OF_NODE = ['start', 'body', 'end', 'depth', 'flags', 'line'];
const FLAG = { constructed: 1, indefinite: 2, collapsed: 4, opened: 8, inner: 16, departs: 32 };
const CHUNK = 64;

class Tree {
  constructor(count) {
    this.count = count;
    this.start = new Uint32Array(count);
    this.body = new Uint32Array(count);
    this.end = new Uint32Array(count);
    this.depth = new Uint16Array(count);
    this.flags = new Uint8Array(count);
    this.line = new Int32Array(count);
  }

  // The tree of what `read` of the library gives. The lines of its elements are numbered from `line` on.
  static of(library, found, depth, flags, line = 0) {
    const { at, length } = found.entries, tree = new Tree(length), octets = library.octets(0, library.length);
    const view = new DataView(library.calls.memory.buffer, at, length * ENTRY_SIZE);
    for (let it = 0, from = 0; it < length; it += 1, from += ENTRY_SIZE) {
      const start = found.start + view.getUint32(from, true), header = view.getUint8(from + 36);
      tree.start[it] = start;
      tree.body[it] = start + header;
      tree.end[it] = start + header + view.getUint32(from + 8, true);
      tree.depth[it] = depth + view.getUint8(from + 37);
      tree.line[it] = line + it;
      const parent = view.getUint32(from + 16, true), isInside = parent !== it && !(tree.flags[parent] & FLAG.constructed);
      tree.flags[it] = flags | flagsOf(octets, start, header) | (isInside ? FLAG.inner : tree.flags[parent] & FLAG.inner);
    }
    return tree;
  }

  has(at, flag) { return (this.flags[at] & flag) !== 0; }

  // Puts the nodes of another tree after the node `at`.
  insert(at, other) {
    const merged = new Tree(this.count + other.count);
    for (const name of FIELDS_OF_NODE) {
      merged[name].set(this[name].subarray(0, at + 1));
      merged[name].set(other[name], at + 1);
      merged[name].set(this[name].subarray(at + 1), at + 1 + other.count);
      this[name] = merged[name];
    }
    this.count = merged.count;
  }

  hasChildren(at) { return at + 1 < this.count && this.depth[at + 1] > this.depth[at]; }

  parent(at) {
    for (let it = at - 1; it >= 0; it -= 1)
      if (this.depth[it] < this.depth[at])
        return it;
    return -1;
  }

  // The first node that is not inside of this one.
  after(at) {
    let it = at + 1;
    while (it < this.count && this.depth[it] > this.depth[at])
      it += 1;
    return it;
  }

  // The last node that starts before `offset`, or at it.
  lastFrom(offset) {
    let low = 0, high = this.count;
    while (low < high) {
      const middle = (low + high) >> 1;
      if (this.start[middle] <= offset)
        low = middle + 1;
      else
        high = middle;
    }
    return low - 1;
  }

  // Where the octets of the node end, with end-of-contents octets.
  finish(at) { return this.end[at] + (this.has(at, FLAG.indefinite) ? 2 : 0); }

  // The innermost node that has this octet, or -1.
  nodeAt(offset) {
    let at = this.lastFrom(offset);
    while (at >= 0 && this.finish(at) <= offset)
      at = this.parent(at);
    return at;
  }

  startingAt(offset) {
    const at = this.lastFrom(offset);
    return at >= 0 && this.start[at] === offset ? at : -1;
  }

  // The nodes that are not inside of a collapsed one.
  shown() {
    const found = new Uint32Array(this.count);
    let length = 0;
    for (let at = 0; at < this.count;) {
      found[length] = at;
      length += 1;
      at = this.has(at, FLAG.collapsed) ? this.after(at) : at + 1;
    }
    return found.subarray(0, length);
  }

  // Expands what is around a node, and returns whether anything was collapsed.
  reveal(at) {
    let found = false;
    for (let it = this.parent(at); it >= 0; it = this.parent(it)) {
      found ||= this.has(it, FLAG.collapsed);
      this.flags[it] &= ~FLAG.collapsed;
    }
    return found;
  }
}

// Whether an element is constructed, and of indefinite length, as its header says.
function flagsOf(octets, start, header) {
  let length = start + 1;
  if ((octets[start] & 31) === 31)
    while (octets[length++] & 128);
  const isIndefinite = octets[length] === 128 && header === length + 1 - start;
  return (octets[start] & 32 ? FLAG.constructed : 0) | (isIndefinite ? FLAG.indefinite : 0);
}

// The lines that the module prints of elements, by their numbers. They are printed when they are asked for.
class Lines {
  constructor(library) {
    Object.assign(this, { library, parts: [], count: 0, chunks: new Map() });
  }

  // Adds the elements that `read` found, and returns the number of the first of their lines.
  add(found) {
    const first = this.count;
    this.parts.push({ found, first });
    this.count += found.entries.length;
    return first;
  }

  of(number) {
    const { found, first } = this.parts.findLast(it => it.first <= number);
    const chunk = Math.floor((number - first) / CHUNK), key = `${first}:${chunk}`;
    if (!this.chunks.has(key)) {
      if (this.chunks.size > 256)
        this.chunks.clear();
      this.chunks.set(key, this.library.rows(found, chunk * CHUNK, Math.min(CHUNK, found.entries.length - chunk * CHUNK)));
    }
    return this.chunks.get(key)[(number - first) % CHUNK];
  }
}
