// Tests of the package in the folder that YOTREMUL_PACKAGE names. Expected values are those of the files of openssl beside
// the tests of der_show, or derived from X.690.
import assert from 'node:assert/strict';
import { readFile } from 'node:fs/promises';
import { test } from 'node:test';

const { decodePem, read, version } = await import(`file://${process.env.YOTREMUL_PACKAGE}/index.mjs`);
const octets = digits => Uint8Array.from(digits.match(/../g), it => parseInt(it, 16));

test('the version is that of the package', async () => {
  const { version: wanted } = JSON.parse(await readFile(`${process.env.YOTREMUL_PACKAGE}/package.json`, 'utf8'));
  assert.equal(version, wanted);
});

test('an element of no kind', () => {
  const { kind, verdict, departures } = read(octets('02012a'));
  assert.deepEqual([kind, verdict, departures], ['elements', 'DER', []]);
});

test('a length in more octets than needed is BER (X.690 10.1)', () => {
  const { verdict, departures } = read(octets('0281012a'));
  assert.equal(verdict, 'BER');
  assert.deepEqual(departures.map(it => [it.offset, it.section, it.ber]), [[0, 'X.690 10.1', true]]);
});

test('contents that are cut off are neither', () => {
  const { verdict, departures } = read(octets('02042a'));
  assert.equal(verdict, 'neither');
  assert.deepEqual(departures.map(it => it.section), ['X.690 8.1.4']);
});

test('more departures than are listed are counted', () => {
  const item = '0281012a', body = item.repeat(1500), length = (body.length / 2).toString(16).padStart(4, '0');
  const { verdict, departures, more } = read(octets(`3082${length}${body}`));
  assert.deepEqual([verdict, departures.length, more], ['BER', 1000, 500]);
});

test('a public key of Ed25519 (RFC 8410, 10.1)', () => {
  const [block] = decodePem('-----BEGIN PUBLIC KEY-----\nMCowBQYDK2VwAyEAGb9ECWmEzf6FQbrBZ9w7lshQhqowtrbLDFw4rXAxZuE=\n-----END PUBLIC KEY-----\n');
  assert.deepEqual([block.label, block.line, block.octets.length], ['PUBLIC KEY', 1, 44]);
  const { kind, verdict, elements } = read(block.octets, { label: block.label });
  assert.deepEqual([kind, verdict], ['public-key', 'DER']);
  assert.match(elements.find(it => it.tag === 'OBJECT IDENTIFIER').text, /1\.3\.101\.112/);
});

test('two blocks, and text around them', () => {
  const block = '-----BEGIN X-----\nAAEC\n-----END X-----\n';
  const found = decodePem(`before\n${block}between\n${block}after\n`);
  assert.deepEqual(found.map(it => [it.label, it.line, [...it.octets]]), [['X', 2, [0, 1, 2]], ['X', 6, [0, 1, 2]]]);
});

// RFC 7468, section 3: the labels of both lines are the same, and the text between them is base64.
test('the blocks after a malformed or an encrypted one follow', () => {
  const good = '-----BEGIN X-----\nAAEC\n-----END X-----\n';
  const bad = ['-----BEGIN X-----\nA*EC\n-----END X-----\n', '-----BEGIN X-----\nAAEC\n-----END Y-----\n', '-----BEGIN X-----\nAAEC\n',
    '-----BEGIN X\n', '-----BEGIN X-----\nProc-Type: 4,ENCRYPTED\n\nAAEC\n-----END X-----\n'];
  const rows = found => found.map(it => [it.label, it.line, it.octets && [...it.octets], it.error]);
  const wanted = [['X', 2, null, 'malformed'], ['', 3, null, 'malformed'], ['', 3, null, 'malformed'], ['', 1, null, 'malformed'],
    ['X', 1, null, 'encrypted']];
  bad.forEach((text, at) => {
    const line = text.split('\n').length;
    assert.deepEqual(rows(decodePem(text + good)), [wanted[at], ['X', line, [0, 1, 2], null]]);
  });
  assert.deepEqual(rows(decodePem('-----BEGIN X-----')), [['', 1, null, 'malformed']]);
});

test('octets that are no table are refused as a schema', () => {
  assert.throws(() => read(octets('0500'), { schema: octets('0500') }), TypeError);
});

test('an unknown type is refused', () => {
  assert.throws(() => read(octets('0500'), { type: 'NoSuchType' }), TypeError);
});

test('64 levels are read, and 65 are a departure', () => {
  const nested = count => Array.from({ length: count }).reduce(inner => {
    const size = inner.length / 2;
    return `30${size < 128 ? '' : '81'}${size.toString(16).padStart(2, '0')}${inner}`;
  }, '');
  assert.equal(read(octets(nested(64))).verdict, 'DER');
  assert.equal(read(octets(nested(65))).verdict, 'neither');
});

test('a departure of what may be a private key has no octets', () => {
  // RFC 8410, 10.3; the tag of the OCTET STRING is that of a BIT STRING
  const key = '302e020100300506032b65700322' + '0420d4ee72dbf913584ad5b6d8f1f769f8ad3afe7c28cbf1d4fbe097a88f44755842';
  const { departures } = read(octets(key), { label: 'PRIVATE KEY' });
  assert.notEqual(departures.length, 0);
  assert.deepEqual(new Set(departures.map(it => it.found)), new Set(['']));
});
