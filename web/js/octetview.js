// The octets in rows of 16, or of 8 if there is little space, each with its character.

class OctetView {
  constructor(place, page) {
    Object.assign(this, { place, page, octets: new Uint8Array(0), width: 16, marks: [], faults: [] });
    this.list = new RowList(place, ROW_HEIGHT, index => this.draw(index));
    place.addEventListener('click', event => this.at(event.target, it => page.selectOffset(it)));
    place.addEventListener('mouseover', event => this.at(event.target, it => page.hoverOffset(it)));
    place.addEventListener('mouseleave', () => page.hover(-1));
    place.addEventListener('keydown', event => this.list.key(event, { Home: -this.list.count, End: this.list.count }));
    new ResizeObserver(() => this.fit()).observe(place);
  }

  open(octets) {
    Object.assign(this, { octets, marks: [], faults: [] });
    this.list.top = 0;
    this.place.scrollTop = 0;
    this.fit(true);
  }

  fit(isNew = false) {
    const width = this.place.clientWidth < 560 ? 8 : 16;
    if (width === this.width && !isNew)
      return;
    this.width = width;
    this.resize();
  }

  // A departure may be at the end, one place after the octets.
  resize() {
    const places = Math.max(this.octets.length, ...this.faults.map(it => it.end));
    this.list.resize(Math.ceil(places / this.width));
  }

  // Marks the octets of departures, each a start and an end.
  setFaults(places) {
    this.faults = places;
    this.resize();
  }

  at(target, then) {
    const offset = target.closest?.('[data-at]')?.dataset.at;
    if (offset !== undefined && Number(offset) < this.octets.length)
      then(Number(offset));
  }

  // Marks parts: each has a class, a start and an end. The last that has an octet counts.
  mark(marks) {
    this.marks = marks;
    this.list.redraw();
  }

  show(offset) { this.list.show(Math.floor(offset / this.width)); }

  isFault(at) { return this.faults.some(it => at >= it.start && at < it.end); }

  classOf(at) {
    let found = '';
    for (const { name, start, end } of this.marks)
      if (at >= start && at < end)
        found = name;
    return this.isFault(at) ? `${found} fault` : found;
  }

  draw(index) {
    const from = index * this.width, row = element('div', 'row');
    const digits = element('span', 'digits'), characters = element('span', 'characters');
    for (let at = from; at < from + this.width; at += 1) {
      const octet = this.octets[at], name = this.classOf(at);
      const isEnd = at === this.octets.length && this.isFault(at);
      const digit = element('span', name, octet === undefined ? (isEnd ? '··' : '  ') : octet.toString(16).padStart(2, '0'));
      digit.dataset.at = at;
      digits.append(digit);
      if (octet === undefined)
        continue;
      const character = element('span', name, octet >= 0x20 && octet < 0x7f ? String.fromCharCode(octet) : '·');
      character.dataset.at = at;
      characters.append(character);
    }
    row.append(element('span', 'offset', String(from)), digits, characters);
    return row;
  }
}
