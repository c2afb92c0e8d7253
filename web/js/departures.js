// The departures from DER: a list of them in a dialog, and the octets that they are at.

// The octets of a departure: those of the header of the element there, or of all of it if it is primitive.
function octetsOf(tree, { offset }) {
  const at = tree.startingAt(offset);
  if (at < 0)
    return { start: offset, end: offset + 1 };
  return { start: offset, end: Math.max(offset + 1, tree.has(at, FLAG.constructed) ? tree.body[at] : tree.end[at]) };
}

class DepartureList {
  constructor(page) {
    this.page = page;
    find('departures').addEventListener('click', () => find('list').showModal());
    find('close').addEventListener('click', () => find('list').close());
    find('items').addEventListener('click', event => {
      const offset = event.target.closest?.('[data-offset]')?.dataset.offset;
      if (offset === undefined)
        return;
      find('list').close();
      page.goTo(Number(offset));
    });
  }

  open({ departures, lost }) {
    find('departures').hidden = departures.length === 0;
    find('departures').textContent = counted(departures.length + lost, 'departure');
    find('items').replaceChildren(...departures.map(it => {
      const item = element('li', '', element('b', '', it.section), `: ${it.rule}, at offset ${it.offset}`,
        it.path ? ` (${it.path})` : '', it.ber ? '; BER allows it' : '');
      item.dataset.offset = it.offset;
      item.tabIndex = 0;
      return item;
    }), ...(lost ? [element('li', '', `and ${lost.toLocaleString('en')} more`)] : []));
  }
}
