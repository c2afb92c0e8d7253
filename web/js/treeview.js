// The tree as a list of rows, with the keys of a tree (ARIA Authoring Practices, "Tree View").

const ROW_HEIGHT = 22;
const STEP = 14;
const DEEPEST = 40;

class TreeView {
  // `page` is called back: `select(node)`, `hover(node)`.
  constructor(place, page) {
    Object.assign(this, { place, page, tree: null, shown: new Uint32Array(0), selected: -1, hovered: -1 });
    this.list = new RowList(place, ROW_HEIGHT, index => this.draw(index));
    place.addEventListener('keydown', event => this.key(event));
    place.addEventListener('click', event => this.click(event));
    place.addEventListener('mouseover', event => page.hover(this.nodeOf(event.target)));
    place.addEventListener('mouseleave', () => page.hover(-1));
  }

  open(library, tree, lines) {
    Object.assign(this, { library, tree, lines, selected: -1, hovered: -1 });
    this.list.top = 0;
    this.place.scrollTop = 0;
    this.refresh();
  }

  refresh() {
    this.shown = this.tree.shown();
    this.list.resize(this.shown.length);
  }

  nodeOf(target) {
    const row = target.closest?.('.row');
    return row ? Number(row.dataset.node) : -1;
  }

  // The index of the row of a node, or of the last row before it.
  indexOf(node) {
    let low = 0, high = this.shown.length;
    while (low < high) {
      const middle = (low + high) >> 1;
      if (this.shown[middle] <= node)
        low = middle + 1;
      else
        high = middle;
    }
    return low - 1;
  }

  show(node) {
    this.selected = node;
    if (node >= 0) {
      if (this.tree.reveal(node))
        this.refresh();
      this.list.show(this.indexOf(node));
    } else {
      this.list.redraw();
    }
  }

  // Whether the contents of a node that has no nodes inside may be read as elements.
  canOpen(at) {
    const { tree } = this, length = tree.end[at] - tree.body[at];
    if (tree.has(at, FLAG.opened | FLAG.constructed) || tree.hasChildren(at) || length < 2)
      return false;
    const first = this.library.octets(tree.start[at], tree.start[at] + 1)[0], from = this.contentsOf(at);
    const isString = first === 0x04 || first === 0x03 && length > 2 && this.library.octets(tree.body[at], from)[0] === 0;
    return isString && looksLikeElements(this.library.octets(from, tree.end[at]));
  }

  // Where the octets of a string begin: after the number of unused bits of a BIT STRING.
  contentsOf(at) {
    const { tree } = this, isBits = this.library.octets(tree.start[at], tree.start[at] + 1)[0] === 0x03;
    return tree.body[at] + (isBits ? 1 : 0);
  }

  // Reads the contents of a string, and puts their elements below it.
  openContents(at) {
    const { tree, library } = this, found = library.read(this.contentsOf(at), tree.end[at], library.calls.page_node(NONE));
    const inside = Tree.of(library, found, tree.depth[at] + 1, FLAG.inner, this.lines.add(found));
    tree.insert(at, inside);
    tree.flags[at] |= FLAG.opened;
    if (this.selected > at)
      this.selected += inside.count;
    this.page.inserted(at, inside.count);
    this.refresh();
  }

  toggle(at) {
    const { tree } = this;
    if (tree.hasChildren(at)) {
      tree.flags[at] ^= FLAG.collapsed;
      this.refresh();
    } else if (this.canOpen(at)) {
      this.openContents(at);
    }
  }

  click(event) {
    const node = this.nodeOf(event.target);
    if (node < 0)
      return;
    if (event.target.classList.contains('expander'))
      this.toggle(node);
    this.page.select(node);
  }

  key(event) {
    if (!this.tree || event.ctrlKey || event.altKey || event.metaKey)
      return;
    const index = Math.max(0, this.indexOf(this.selected)), last = this.shown.length - 1;
    const to = { ArrowDown: this.selected < 0 ? 0 : index + 1, ArrowUp: index - 1, Home: 0, End: last,
      PageDown: index + this.list.page, PageUp: index - this.list.page }[event.key];
    if (to !== undefined)
      this.page.select(this.shown[Math.max(0, Math.min(last, to))]);
    else if (!this.keyOfNode(event.key))
      return;
    event.preventDefault();
  }

  keyOfNode(key) {
    const { tree, selected } = this;
    if (selected < 0)
      return false;
    const isOpen = tree.hasChildren(selected) && !tree.has(selected, FLAG.collapsed);
    if (key === 'Enter' || key === ' ' || (key === 'ArrowRight' && !isOpen) || (key === 'ArrowLeft' && isOpen))
      this.toggle(selected);
    else if (key === 'ArrowRight')
      this.page.select(selected + 1);
    else if (key === 'ArrowLeft' && tree.parent(selected) >= 0)
      this.page.select(tree.parent(selected));
    else
      return key === 'ArrowLeft';
    return true;
  }

  expander(at) {
    const { tree } = this;
    if (tree.hasChildren(at))
      return tree.has(at, FLAG.collapsed) ? '▸' : '▾';
    return this.canOpen(at) ? '▹' : '';
  }

  draw(index) {
    const { tree } = this, at = this.shown[index], sign = this.expander(at);
    const row = element('div', 'row');
    const part = element('span', 'part');
    part.style.paddingLeft = `${STEP * Math.min(DEEPEST, tree.depth[at])}px`;
    const expander = element('span', 'expander', sign);
    if (sign === '▹')
      expander.title = 'Show the elements in these octets';
    const { tag, name, text } = this.lines.of(tree.line[at]);
    part.append(expander, element('span', 'tag', tag.replace(/^CONTEXT-SPECIFIC |^UNIVERSAL (?=\[)| \((constructed|primitive)\)$/g, '')));
    if (name)
      part.append(element('span', 'label', name));
    const departures = this.page.departuresAt(at);
    if (departures.length)
      part.append(element('span', 'value wrong', departures.map(it => `${it.rule} (${it.section})`).join('; ')));
    part.append(element('span', 'value', text));
    row.append(element('span', 'offset', String(tree.start[at])), this.lengths(at), part);
    this.mark(row, at, sign);
    return row;
  }

  lengths(at) {
    const { tree } = this, length = tree.has(at, FLAG.indefinite) ? '∞' : String(tree.end[at] - tree.body[at]);
    return element('span', 'length', `${tree.body[at] - tree.start[at]} + ${length}`);
  }

  // What the row says to readers of screens, and to tests.
  mark(row, at, sign) {
    const { tree } = this, isSelected = at === this.selected;
    row.dataset.node = at;
    row.id = `node${at}`;
    row.setAttribute('role', 'treeitem');
    row.setAttribute('aria-level', tree.depth[at] + 1);
    row.setAttribute('aria-selected', isSelected);
    if (sign)
      row.setAttribute('aria-expanded', sign === '▾');
    row.classList.toggle('selected', isSelected);
    row.classList.toggle('hovered', at === this.hovered);
    row.classList.toggle('inner', tree.has(at, FLAG.inner));
    row.classList.toggle('departs', tree.has(at, FLAG.departs));
    if (isSelected)
      this.place.setAttribute('aria-activedescendant', row.id);
  }
}

// Whether octets may be elements, one after another: their lengths end where the octets do.
function looksLikeElements(octets) {
  let at = 0;
  for (let count = 0; at < octets.length && count < 1000; count += 1) {
    if ((octets[at] & 31) === 31 || octets[at] === 0 || octets.length - at < 2)
      return false;
    const first = octets[at + 1], size = first & 127;
    if (first === 128 || (first > 128 && (size > 4 || octets.length - at < 2 + size)))
      return false;
    const length = first < 128 ? first : octets.subarray(at + 2, at + 2 + size).reduce((sum, it) => sum * 256 + it, 0);
    at += 2 + (first < 128 ? 0 : size) + length;
  }
  return at === octets.length;
}
