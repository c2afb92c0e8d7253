/** A place where octets break a rule of DER. */
export interface Departure {
  /** The path of the element, as `tbsCertificate.extensions[4].extnValue`; empty for the whole value. */
  path: string;
  /** The offset of the element, in octets from the start. */
  offset: number;
  /** The section that has the rule, with its standard, as `X.690 11.2.2`. */
  section: string;
  /** The rule, or how octets break it. */
  rule: string;
  /** Whether octets that break it may still be BER. */
  ber: boolean;
  /** The first octets there, in hexadecimal; empty if the value may be a private key. */
  found: string;
  /** The index of the element, in the order of the input. */
  node: number;
}

/** An element of a value. */
export interface Element {
  /** The name of the field, or of the alternative of a CHOICE; empty if it has none. */
  name: string;
  /** The name of the type; empty if it has none. */
  type: string;
  tag: string;
  /** The value as `der_show` prints it on a line; empty for most constructed elements. Control characters are escaped. */
  text: string;
  offset: number;
  headerLength: number;
  contentsLength: number;
  /** How many elements are around it. */
  depth: number;
}

/** What `read` returns. */
export interface Reading {
  /** The word for the kind, as `der_show --as` has it; `elements` if the value is of no kind, and `value` with a schema. */
  kind: string;
  /** Whether the octets are DER, BER alone, or neither: exact, as the contracts of the module say. */
  verdict: 'DER' | 'BER' | 'neither';
  /** The elements, each before those inside of it. */
  elements: Element[];
  /** The departures from DER, at most 1000. */
  departures: Departure[];
  /** How many more there are. */
  more: number;
}

/** A block of a PEM text. */
export interface Block {
  /** The label, as `CERTIFICATE`; empty if the lines of the block are malformed. */
  label: string;
  /** The line of `-----BEGIN`, counted from 1. If the block is malformed, the line of the error. */
  line: number;
  /** The octets; null if there is an error. */
  octets: Uint8Array | null;
  /** Why there are no octets: the block is malformed, or PEM itself encrypts it (RFC 1421); null if there are. */
  error: 'malformed' | 'encrypted' | null;
}

/** How to read. */
export interface ReadOptions {
  /** A table of types, as `asn1_compile --schema` writes it. Without one, the octets are of the kinds that `der_show` knows. */
  schema?: Uint8Array | null;
  /** The name of the type; without one, the first type of the schema, or the type of the kind. */
  type?: string | null;
  /** The label of the PEM block that the octets are from. */
  label?: string;
}

/** The version of the module. */
export const version: string;

/** Reads octets as one value. Octets that are not DER are read as far as they can be. */
export function read(octets: Uint8Array, options?: ReadOptions): Reading;

/** The blocks of a PEM text, in order. One that is malformed or encrypted has an `error`, and those after it follow. */
export function decodePem(text: string | Uint8Array): Block[];
