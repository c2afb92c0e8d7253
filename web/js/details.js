// All about one element: where it is, its whole value, and buttons that copy or save it.

const MOST_LINKED = 16384;
const MOST_COPIED = 1 << 20;
const MOST_DIGESTED = 1 << 24;

function button(label, act) {
  const made = element('button', '', label);
  made.type = 'button';
  made.addEventListener('click', () => act(made));
  return made;
}

function copy(made, text) {
  const label = made.textContent;
  navigator.clipboard.writeText(text).then(() => 'Copied', () => 'Not allowed here').then(said => {
    made.textContent = said;
    setTimeout(() => { made.textContent = label; }, 1500);
  });
}

function save(octets, name) {
  const link = element('a');
  link.href = URL.createObjectURL(new Blob([octets], { type: 'application/octet-stream' }));
  link.download = name;
  link.click();
  setTimeout(() => URL.revokeObjectURL(link.href), 1000);
}

// A link to this place of the page with the whole file in it: it is no request, but it may be long.
function linkTo(library, offset) {
  const octets = library.octets(0, library.length);
  const letters = btoa(String.fromCharCode(...octets)).replaceAll('+', '-').replaceAll('/', '_').replaceAll('=', '');
  return `${location.href.split('#')[0]}#der=${letters}&offset=${offset}`;
}

// Puts the SHA-256 of octets into an element, where the browser computes one.
async function putDigest(place, octets) {
  const digest = await crypto.subtle?.digest('SHA-256', octets);
  place.textContent = digest ? hexadecimal(new Uint8Array(digest)).replaceAll(' ', '') : 'not here';
}

// The names of the elements around a node and of itself, from the outside.
function pathOf(tree, lines, node) {
  const names = [];
  for (let at = node; at >= 0; at = tree.parent(at)) {
    const { name, type, tag } = lines.of(tree.line[at]);
    names.unshift(name || type || tag);
  }
  return names.join(' › ');
}

function showDetails(place, page) {
  const { library, tree, lines, selected: at } = page;
  const start = tree.start[at], body = tree.body[at], end = tree.end[at], finish = tree.finish(at);
  const { text, type, tag } = lines.of(tree.line[at]);
  const facts = [
    ['Type', `${type && `${type}: `}${tag.replace(/ \(\w+\)$/, '')}, ${tree.has(at, FLAG.constructed) ? 'constructed' : 'primitive'}`],
    ['Place', `offset ${start} (0x${start.toString(16)}), header ${counted(body - start, 'octet')}, contents ${counted(end - body, 'octet')} to ${end}`
      + (finish > end ? `, then ${finish - end} end-of-contents octets` : '')],
    ['Inside of', pathOf(tree, lines, at)],
  ];
  const list = element('dl', '', ...facts.flatMap(([name, fact]) => [element('dt', '', name), element('dd', '', fact)]));
  if (text)
    list.append(element('dt', '', 'Value'), element('dd', 'whole', text));
  for (const it of page.departuresAt(at))
    list.append(element('dt', '', it.section), element('dd', 'whole wrong', `${it.rule}${it.ber ? '; BER allows it' : ''}`));
  const digits = () => hexadecimal(library.octets(start, finish)).replaceAll(' ', '');
  const buttons = element('p', 'buttons',
    ...(finish - start <= MOST_COPIED ? [button('Copy hexadecimal', it => copy(it, digits()))] : []),
    ...(text ? [button('Copy value', it => copy(it, text))] : []),
    button('Save octets', () => save(library.octets(start, finish).slice(), `element-${start}.der`)));
  if (library.length <= MOST_LINKED)
    buttons.append(button('Copy link with the file', it => copy(it, linkTo(library, start))));
  if (finish - start <= MOST_DIGESTED) {
    const digest = element('dd');
    list.append(element('dt', '', 'SHA-256'), digest);
    putDigest(digest, library.octets(start, finish).slice());
  }
  place.replaceChildren(list, buttons);
}
