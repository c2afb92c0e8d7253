// The fields of the value as a list of rows, each a link to its element. An element that stands for the value inside of
// it, as an EXPLICIT tag does, gives its name to that value, and has no row.

// Parts of keys that are secret: they are in the tree, but not in these rows.
const SECRET = new Set(['privateExponent', 'prime1', 'prime2', 'exponent1', 'exponent2', 'coefficient', 'privateKey']);
const X = 'x'.charCodeAt(0), L = 'l'.charCodeAt(0);

// Which elements of a tree have rows: those that the value has when it is opened.
class Fields {
  constructor(library, found, lines) {
    const { entries } = found, count = entries.length;
    Object.assign(this, { found, lines, shapes: library.shapes(found), starts: new Uint32Array(count) });
    const view = new DataView(library.calls.memory.buffer, entries.at, count * ENTRY_SIZE);
    this.parents = Uint32Array.from({ length: count }, (_, at) => view.getUint32(at * ENTRY_SIZE + 16, true));
    this.depths = new Uint16Array(count);
    this.numbers = new Uint32Array(count);
    const children = new Uint32Array(count), rows = new Uint32Array(count);
    let length = 0;
    for (let at = 0; at < count; at += 1) {
      const parent = this.parents[at], isInner = this.shapes[parent] === X;
      this.starts[at] = found.start + view.getUint32(at * ENTRY_SIZE, true);
      this.numbers[at] = children[parent]++;
      this.depths[at] = at === 0 ? 0 : this.depths[parent] + (isInner ? 0 : 1);
      const hasInner = this.shapes[at] === X && at + 1 < count && view.getUint32((at + 1) * ENTRY_SIZE + 16, true) === at;
      if (at > 0 && !hasInner)
        rows[length++] = at;
    }
    this.rows = rows.subarray(0, length);
  }

  get count() { return this.rows.length; }

  // The name of a field, or that of the one around it that it stands for, or the number of an item of a list.
  label(at) {
    const { name, type, tag } = this.lines.of(at), parent = this.parents[at];
    if (name)
      return name;
    if (this.shapes[parent] === X && parent !== at)
      return this.label(parent);
    return this.shapes[parent] === L ? `[${this.numbers[at]}]` : type || tag;
  }

  row(index) {
    const at = this.rows[index], label = this.label(at), { text } = this.lines.of(at);
    return { depth: this.depths[at] - 1, label, offset: this.starts[at], text: SECRET.has(label) ? 'in the tree' : text };
  }
}

class FieldView {
  constructor(place, page) {
    Object.assign(this, { place, page, fields: null });
    this.list = new RowList(place, ROW_HEIGHT, index => this.draw(index));
    place.addEventListener('click', event => {
      const offset = event.target.closest?.('.row')?.dataset.offset;
      if (offset !== undefined) {
        event.preventDefault();
        page.selectStart(Number(offset));
      }
    });
    place.addEventListener('keydown', event => this.list.key(event));
  }

  open(fields) {
    this.fields = fields;
    this.list.top = 0;
    this.place.scrollTop = 0;
    this.place.style.setProperty('--rows', fields.count);
    this.list.resize(fields.count);
  }

  draw(index) {
    const { depth, label, text, offset } = this.fields.row(index);
    const row = element('div', 'row'), name = element('span', 'name', label);
    name.style.paddingLeft = `${STEP * Math.min(DEEPEST, depth)}px`;
    const place = element('a', 'offset', String(offset)), value = element('span', 'text', text);
    row.dataset.offset = offset;
    place.href = `#offset=${offset}`;
    value.title = text;
    row.append(place, name, value);
    return row;
  }
}
