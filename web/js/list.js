// A list of which only the rows are made that are visible. It has one row height, and as many rows as
// wanted: where the browser cannot make so high a box, the bar of the box moves several rows at once.

const HIGHEST = 8_000_000;

class RowList {
  // `draw` makes the element of the row of an index.
  constructor(place, rowHeight, draw) {
    Object.assign(this, { place, rowHeight, draw, count: 0, top: 0, ours: -1, wanted: -1 });
    this.space = element('div', 'space');
    this.window = element('div', 'window');
    this.space.append(this.window);
    place.replaceChildren(this.space);
    place.addEventListener('scroll', () => this.scrolled(), { passive: true });
    place.addEventListener('wheel', event => this.wheel(event), { passive: false });
    new ResizeObserver(() => this.settle()).observe(place);
  }

  get height() { return Math.min(HIGHEST, this.count * this.rowHeight); }
  get page() { return Math.max(1, Math.floor(this.place.clientHeight / this.rowHeight)); }
  get last() { return Math.max(0, this.count * this.rowHeight - this.place.clientHeight); }

  // How far the rows move while the bar moves by one.
  get scale() {
    const range = this.height - this.place.clientHeight;
    return this.height < HIGHEST || range <= 0 ? 1 : this.last / range;
  }

  resize(count) {
    this.count = count;
    this.space.style.height = `${this.height}px`;
    this.wanted = -1;
    this.moveTo(this.top);
  }

  scrolled() {
    // the scroll that we caused is rounded by the browser: the place is known better here
    if (Math.abs(this.place.scrollTop - this.ours) < 1.5)
      return;
    this.ours = -1;
    this.wanted = -1;
    this.top = Math.min(this.last, this.place.scrollTop * this.scale);
    this.redraw();
  }

  wheel(event) {
    if (this.scale === 1 || event.ctrlKey || !event.deltaY)
      return;
    event.preventDefault();
    this.wanted = -1;
    this.moveTo(this.top + (event.deltaMode === 1 ? event.deltaY * this.rowHeight : event.deltaY));
  }

  moveTo(top) {
    this.top = Math.max(0, Math.min(this.last, top));
    this.ours = this.top / this.scale;
    this.place.scrollTop = this.ours;
    if (this.scale === 1 && this.place.clientHeight)
      this.top = this.place.scrollTop;
    this.redraw();
  }

  // Scrolls as little as possible so that the row is visible; if it was not, it is put into the middle.
  show(index) {
    this.wanted = index;
    const from = index * this.rowHeight, height = this.place.clientHeight;
    if (from < this.top - this.rowHeight || from > this.top + height)
      this.moveTo(from - height / 2);
    else if (from < this.top)
      this.moveTo(from);
    else if (from + this.rowHeight > this.top + height)
      this.moveTo(from + this.rowHeight - height);
    else
      this.redraw();
  }

  // After a change of size: a part that was hidden has lost where it was, and a row that was shown may
  // be covered now.
  settle() {
    if (this.wanted >= 0 && this.wanted < this.count)
      this.show(this.wanted);
    else
      this.moveTo(this.top);
  }

  // Moves by the keys of a list; `more` has further ones.
  key(event, more = {}) {
    const rows = { ArrowDown: 1, ArrowUp: -1, PageDown: this.page, PageUp: -this.page, ...more }[event.key];
    if (!rows)
      return;
    this.moveTo(this.top + rows * this.rowHeight);
    event.preventDefault();
  }

  redraw() {
    if (this.isDue)
      return;
    this.isDue = true;
    requestAnimationFrame(() => { this.isDue = false; this.drawRows(); });
  }

  drawRows() {
    const first = Math.max(0, Math.floor(this.top / this.rowHeight) - 2);
    const last = Math.min(this.count, first + this.page + 6);
    const rows = [];
    for (let index = first; index < last; index += 1)
      rows.push(this.draw(index));
    this.window.replaceChildren(...rows);
    const shift = this.scale === 1 ? 0 : this.place.scrollTop - this.top;
    this.window.style.transform = `translateY(${first * this.rowHeight + shift}px)`;
  }
}

// An element with a class and texts or elements inside of it. Texts are inserted as texts.
function element(name, className, ...inside) {
  const made = document.createElement(name);
  if (className)
    made.className = className;
  made.append(...inside);
  return made;
}
