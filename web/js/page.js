// The page: it opens files, and keeps the tree, the octets, the fields and the details on one element.

// The section on contents of which octets are missing.
const CUT = 'X.690 8.1.4';

const find = id => document.getElementById(id);

class Page {
  constructor(library) {
    this.library = library;
    this.files = [];
    this.selected = -1;
    this.link = linkOf(library, location.hash);
    this.fields = new FieldView(find('fields'), this);
    this.treeView = new TreeView(find('tree'), this);
    this.octetView = new OctetView(find('octets'), this);
    new Opening(this);
    this.list = new DepartureList(this);
    this.schema = null;
    find('block').addEventListener('change', () => this.show());
    window.addEventListener('hashchange', () => this.follow(linkOf(library, location.hash)));
    for (const tab of document.querySelectorAll('[data-tab]'))
      tab.addEventListener('click', () => this.choose(tab.dataset.tab));
    find('version').textContent = library.version();
    this.choose('tree');
    if (this.link.octets)
      this.openFiles('link', [{ label: '', octets: this.link.octets }]);
  }

  // On a narrow screen one of the parts is visible.
  choose(tab) {
    document.body.dataset.visible = tab;
    for (const it of document.querySelectorAll('[data-tab]'))
      it.setAttribute('aria-pressed', it.dataset.tab === tab);
  }

  // Opens the octets of a file, or what a text in it has.
  open(name, octets) {
    try {
      if (octets[0] === 0x59 && this.library.isSchema(octets))
        this.useSchema(name, octets);
      else
        this.openFiles(name, fromOctets(this.library, octets));
    } catch (error) {
      this.refuse(name, error);
    }
  }

  openText(text) {
    try {
      this.openFiles('pasted', fromText(this.library, text));
    } catch (error) {
      this.refuse('The text', error);
    }
  }

  refuse(name, error) {
    this.say(`${visible(name)}: ${error.message}`, true);
  }

  openFiles(name, files) {
    Object.assign(this, { name, files });
    const block = find('block');
    block.replaceChildren(...files.map((it, at) => new Option(`${at + 1}: ${visible(it.label || 'block')}`, at)));
    block.hidden = files.length < 2;
    this.show();
  }

  // Reads the files that are opened next, and this one again, by a table of types of the user.
  useSchema(name, octets) {
    this.schema = { name, octets };
    this.say(`${visible(name)}: files are read as values of its first type from now on.`, false);
    this.show();
  }

  // Reads the chosen file, and shows it.
  show() {
    const file = this.files[find('block').value || 0];
    if (!file)
      return;
    const { library, schema } = this;
    library.load(file.octets, schema?.octets);
    const kind = schema ? { word: visible(schema.name), node: 0 } : library.kind(file.label);
    const found = library.read(0, file.octets.length, kind.node);
    this.lines = new Lines(library);
    this.tree = Tree.of(library, found, 0, 0, this.lines.add(found));
    this.found = found;
    this.noted = Map.groupBy(found.departures, it => it.node);
    for (const node of this.noted.keys())
      if (node < this.tree.count)
        this.tree.flags[node] |= FLAG.departs;
    document.body.classList.add('opened');
    find('title').textContent = kind.word;
    this.selected = -1;
    find('details').replaceChildren();
    this.fields.open(new Fields(library, found, this.lines));
    this.readCut(found);
    this.treeView.open(library, this.tree, this.lines);
    this.octetView.open(file.octets);
    this.octetView.setFaults(found.departures.map(it => octetsOf(this.tree, it)));
    this.list.open(found);
    this.report(file);
    this.follow(this.link);
    this.link = {};
  }

  // Reads what is there of an element whose contents are cut off, and of the last one inside of it.
  readCut(found) {
    const { library, tree } = this;
    for (let level = 0, first = 0, cut = found; cut && level < 64; level += 1) {
      const last = cut.departures.findLast(it => it.section === CUT && it.node < cut.entries.length);
      const at = last === undefined ? -1 : first + last.node;
      if (at < 0 || !tree.has(at, FLAG.constructed) || tree.hasChildren(at) || tree.body[at] >= library.length)
        return;
      tree.end[at] = library.length;
      cut = library.read(tree.body[at], library.length, library.calls.page_node(NONE));
      tree.insert(at, Tree.of(library, cut, tree.depth[at] + 1, 0, this.lines.add(cut)));
      first = at + 1;
    }
  }

  // The departures of a node of the tree.
  departuresAt(at) { return this.tree.has(at, FLAG.departs) ? this.noted.get(this.tree.line[at]) ?? [] : []; }

  // Says what was read, and shows the first departure.
  report(file) {
    const label = file.label ? `${visible(this.name)} (${visible(file.label)})` : visible(this.name);
    const { departures, verdict } = this.found, [first] = departures;
    const said = `${label}: ${counted(file.octets.length, 'octet')}, ${counted(this.tree.count, 'element')}`;
    if (!first) {
      this.say(`${said}. These octets are DER.`, false);
      return;
    }
    const is = verdict === 'BER' ? 'These octets are BER, but not DER' : 'These octets are not BER';
    this.say(`${said}. ${is}: ${first.rule} (${first.section}), at offset ${first.offset}.`, true);
    this.goTo(first.offset);
  }

  say(text, isWrong) {
    find('status').textContent = text;
    find('status').classList.toggle('wrong', isWrong);
    document.body.classList.add('said');
  }

  // Shows an octet, and the element that has it.
  goTo(offset) {
    const node = this.tree.nodeAt(offset === this.library.length ? offset - 1 : offset);
    if (node >= 0)
      this.select(node);
    this.octetView.show(offset);
  }

  // Follows a link to an offset, which waits for the first file.
  follow({ offset }) {
    if (offset !== undefined && this.tree && offset <= this.library.length)
      this.goTo(offset);
  }

  selectStart(offset) {
    const node = this.tree.startingAt(offset);
    this.select(node < 0 ? this.tree.nodeAt(offset) : node);
    this.choose('tree');
  }

  selectOffset(offset) { this.select(this.tree.nodeAt(offset)); }

  select(node) {
    this.selected = node;
    this.treeView.show(node);
    if (node < 0)
      return;
    const start = this.tree.start[node];
    this.putLink(start);
    this.markOctets();
    this.octetView.show(start);
    showDetails(find('details'), this);
  }

  // Puts the offset into the address when the selection rests: browsers limit how often that is done.
  putLink(offset) {
    clearTimeout(this.linking);
    this.linking = setTimeout(() => history.replaceState(null, '', `#offset=${offset}`), 250);
  }

  hover(node) {
    if (this.treeView.hovered === node)
      return;
    this.treeView.hovered = node;
    this.treeView.list.redraw();
    this.markOctets();
  }

  hoverOffset(offset) { this.hover(this.tree.nodeAt(offset)); }

  // Nodes were put after this one.
  inserted(at, count) {
    if (this.selected > at)
      this.selected += count;
  }

  markOctets() {
    const { tree } = this, marks = [];
    for (const [node, name] of [[this.selected, 'selected'], [this.treeView.hovered, 'hovered']])
      if (node >= 0 && node < tree.count) {
        marks.push({ name: `${name} head`, start: tree.start[node], end: tree.body[node] });
        marks.push({ name, start: tree.body[node], end: tree.finish(node) });
      }
    this.octetView.mark(marks);
  }
}

// What a link has: the octets of a file in base64url, an offset, or both.
function linkOf(library, hash) {
  const [, octets, offset] = hash.match(/^#(?:der=([\w-]+)&?)?(?:offset=(\d+))?$/) ?? [];
  const text = octets && octets.replace(/-/g, '+').replace(/_/g, '/');
  return { octets: text && library.base64(text.padEnd(4 * Math.ceil(text.length / 4), '=')), offset: offset && Number(offset) };
}
