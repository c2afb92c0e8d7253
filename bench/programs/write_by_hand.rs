//! Certificates and public keys (RFC 5280, 4.1), written by hand with an index: all lengths are
//! computed first, and then each element is written at its position.
use crate::put::put_octet;
use crate::put_keys::{element_len, put_header};
use crate::read_by_hand::{
    Algorithm, BIT_STRING, Certificate, EXTENSIONS, GENERALIZED_TIME, INTEGER, ISSUER_ID,
    OBJECT_IDENTIFIER, PublicKey, SEQUENCE, SUBJECT_ID, Time, UTC_TIME, VERSION,
};

/// The number of octets of contents of each SEQUENCE of a certificate.
struct Lengths {
    signed_by: usize,
    validity: usize,
    key: KeyLengths,
    extensions: usize,
    inner: usize,
    algorithm: usize,
    outer: usize,
}

/// The same for a public key.
struct KeyLengths {
    algorithm: usize,
    all: usize,
}

pub fn certificate_to_slice<'b>(one: &Certificate<'_>, out: &'b mut [u8]) -> Option<&'b [u8]> {
    let lengths = lengths_of(one)?;
    let after = put_certificate(out, one, &lengths)?;
    out.get(..after)
}

pub fn certificate_to_der(one: &Certificate<'_>) -> Option<Vec<u8>> {
    let lengths = lengths_of(one)?;
    let mut out = vec![0; element_len(lengths.outer)?];
    put_certificate(&mut out, one, &lengths)?;
    Some(out)
}

pub fn public_key_to_slice<'b>(key: &PublicKey<'_>, out: &'b mut [u8]) -> Option<&'b [u8]> {
    let lengths = key_lengths_of(key)?;
    let after = put_public_key(out, 0, key, &lengths)?;
    out.get(..after)
}

pub fn public_key_to_der(key: &PublicKey<'_>) -> Option<Vec<u8>> {
    let lengths = key_lengths_of(key)?;
    let mut out = vec![0; element_len(lengths.all)?];
    put_public_key(&mut out, 0, key, &lengths)?;
    Some(out)
}

#[inline(always)]
fn algorithm_len(one: &Algorithm<'_>) -> Option<usize> {
    let parameters = match one.parameters {
        Some((_, contents)) => element_len(contents.len())?,
        None => 0,
    };
    Some(element_len(one.oid.len())? + parameters)
}

#[inline(always)]
fn time_len(time: &Time) -> usize {
    if time.is_utc { 15 } else { 17 }
}

#[inline(always)]
fn perhaps_len(contents: Option<&[u8]>) -> Option<usize> {
    contents.map_or(Some(0), |it| element_len(it.len()))
}

#[inline(always)]
fn key_lengths_of(key: &PublicKey<'_>) -> Option<KeyLengths> {
    let algorithm = algorithm_len(&key.algorithm)?;
    let all = element_len(algorithm)? + element_len(key.key.len())?;
    Some(KeyLengths { algorithm, all })
}

#[inline(always)]
fn lengths_of(one: &Certificate<'_>) -> Option<Lengths> {
    let signed_by = algorithm_len(&one.signed_by)?;
    let validity = time_len(&one.not_before) + time_len(&one.not_after);
    let key = key_lengths_of(&one.public_key)?;
    let extensions = perhaps_len(one.extensions)?;
    let inner = if one.version == 0 { 0 } else { 5 }
        + element_len(one.serial_number.len())?
        + element_len(signed_by)?
        + element_len(one.issuer.len())?
        + element_len(validity)?
        + element_len(one.subject.len())?
        + element_len(key.all)?
        + perhaps_len(one.issuer_id)?
        + perhaps_len(one.subject_id)?
        + if one.extensions.is_some() {
            element_len(extensions)?
        } else {
            0
        };
    let algorithm = algorithm_len(&one.algorithm)?;
    let outer = element_len(inner)? + element_len(algorithm)? + element_len(one.signature.len())?;
    Some(Lengths {
        signed_by,
        validity,
        key,
        extensions,
        inner,
        algorithm,
        outer,
    })
}

#[inline(always)]
fn put(out: &mut [u8], at: usize, first: u8, contents: &[u8]) -> Option<usize> {
    let at = put_header(out, at, first, contents.len())?;
    let after = at + contents.len();
    out.get_mut(at..after)?.copy_from_slice(contents);
    Some(after)
}

#[inline(always)]
fn put_perhaps(out: &mut [u8], at: usize, first: u8, contents: Option<&[u8]>) -> Option<usize> {
    match contents {
        Some(contents) => put(out, at, first, contents),
        None => Some(at),
    }
}

#[inline(always)]
fn put_algorithm(out: &mut [u8], at: usize, one: &Algorithm<'_>, len: usize) -> Option<usize> {
    let at = put_header(out, at, SEQUENCE, len)?;
    let at = put(out, at, OBJECT_IDENTIFIER, one.oid)?;
    match one.parameters {
        Some((first, contents)) => put(out, at, first, contents),
        None => Some(at),
    }
}

#[inline(always)]
fn put_time(out: &mut [u8], at: usize, time: &Time) -> Option<usize> {
    let two = |number: u8| [b'0' + number / 10, b'0' + number % 10];
    let [a, b] = two((time.year / 100) as u8);
    let [c, d] = two((time.year % 100) as u8);
    let [e, f] = two(time.month);
    let [g, h] = two(time.day);
    let [i, j] = two(time.hour);
    let [k, l] = two(time.minute);
    let [m, n] = two(time.second);
    let octets = [a, b, c, d, e, f, g, h, i, j, k, l, m, n, b'Z'];
    if time.is_utc {
        return put(out, at, UTC_TIME, &octets[2..]);
    }
    put(out, at, GENERALIZED_TIME, &octets)
}

#[inline(always)]
fn put_public_key(
    out: &mut [u8],
    at: usize,
    key: &PublicKey<'_>,
    lengths: &KeyLengths,
) -> Option<usize> {
    let at = put_header(out, at, SEQUENCE, lengths.all)?;
    let at = put_algorithm(out, at, &key.algorithm, lengths.algorithm)?;
    put(out, at, BIT_STRING, key.key)
}

#[inline(always)]
fn put_certificate(out: &mut [u8], one: &Certificate<'_>, lengths: &Lengths) -> Option<usize> {
    let mut at = put_header(out, 0, SEQUENCE, lengths.outer)?;
    at = put_header(out, at, SEQUENCE, lengths.inner)?;
    if one.version != 0 {
        at = put_header(out, at, VERSION, 3)?;
        at = put_header(out, at, INTEGER, 1)?;
        at = put_octet(out, at, one.version)?;
    }
    at = put(out, at, INTEGER, one.serial_number)?;
    at = put_algorithm(out, at, &one.signed_by, lengths.signed_by)?;
    at = put(out, at, SEQUENCE, one.issuer)?;
    at = put_header(out, at, SEQUENCE, lengths.validity)?;
    at = put_time(out, at, &one.not_before)?;
    at = put_time(out, at, &one.not_after)?;
    at = put(out, at, SEQUENCE, one.subject)?;
    at = put_public_key(out, at, &one.public_key, &lengths.key)?;
    at = put_perhaps(out, at, ISSUER_ID, one.issuer_id)?;
    at = put_perhaps(out, at, SUBJECT_ID, one.subject_id)?;
    if let Some(extensions) = one.extensions {
        at = put_header(out, at, EXTENSIONS, lengths.extensions)?;
        at = put(out, at, SEQUENCE, extensions)?;
    }
    at = put_algorithm(out, at, &one.algorithm, lengths.algorithm)?;
    put(out, at, BIT_STRING, one.signature)
}
