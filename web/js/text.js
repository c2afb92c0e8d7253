// Texts for people. What the module prints is escaped there; names of files and labels are escaped here by what they
// are not: printing characters.

function visible(text) {
  return text.replace(/[^\p{L}\p{M}\p{N}\p{P}\p{S} ]/gu, it => `\\u{${it.codePointAt(0).toString(16).toUpperCase()}}`);
}

// Octets in hexadecimal.
function hexadecimal(octets) {
  return Array.from(octets, it => it.toString(16).padStart(2, '0')).join(' ');
}

function counted(number, one) { return `${number.toLocaleString('en')} ${one}${number === 1 ? '' : 's'}`; }
