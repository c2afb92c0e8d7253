//! Public keys with the grammar of `spki::SubjectPublicKeyInfoRef`, whose types are written by
//! hand, to measure what the types of the compiler cost beside them. The functions that read and
//! write are inlined, as those of `example_calls` that write.
ghost use Rattle.std.specs.Prelude.{◌≡◌};
ghost use Rattle.std.proofs.Common.{refl};
ghost use Rattle.der.specs.Prelude.{map_ok};
ghost use Rattle.der_asn1.specs.Meaning.{alternative, any_element, field, optional, sequence, two_fields};

use der::{Decode, DecodeValue, Encode, EncodeValue, Error, FromFields, Header, Length, Lends, Reader, Sequence, SliceReader, Writer, decode_sequence, field_refs};
use der_asn1::{AnyRef, BitStringRef, Described, ObjectIdentifierRef, Optional};
use std::alloc::Global;

// An algorithm with its parameters (RFC 5280, 4.1.1.2).
#[derive(Clone, Copy, Drop)]
pub(crate) struct KeyAlgorithm<'a> {
    pub(crate) oid: ObjectIdentifierRef<'a>,
    pub(crate) parameters: Optional<AnyRef<'a>>,
}

type KeyAlgorithmFields<'a> = (ObjectIdentifierRef<'a>, Optional<AnyRef<'a>>);

impl<'a> FromFields<KeyAlgorithmFields<'a>> for KeyAlgorithm<'a> {
    ghost fields = { λ v. (v.oid, v.parameters) };

    #[inline(always)]
    fn from_fields((oid, parameters): KeyAlgorithmFields<'a>) -> Self {
        KeyAlgorithm { oid, parameters }
    }
}

impl<'a> Sequence for KeyAlgorithm<'a> {
    ghost meaning = { sequence (two_fields (field (alternative
        ⟦<ObjectIdentifierRef<'a> as Described>⟧.element)) (optional any_element))
        ⟦<KeyAlgorithm<'a> as FromFields<KeyAlgorithmFields<'a>>>⟧.fields };

    ghost fits = { (refl, refl) };
}

impl<'a, R: Lends<Borrowed = &'a [u8]>> DecodeValue<R> for KeyAlgorithm<'a> {
    type Error = Error;

    ghost decode_value_answers = { λ h s result t.
        ⟦<KeyAlgorithmFields<'a> as Decode<SliceReader<'a>>>⟧.decode_answers s (map_ok
        ⟦<KeyAlgorithm<'a> as FromFields<KeyAlgorithmFields<'a>>>⟧.fields result) t };

    #[inline(always)]
    fn decode_value(alloc: Global, reader: &mut R, header: Header) -> Result<Self, Error>
    where
        R: Reader,
    {
        decode_sequence::<R, KeyAlgorithmFields<'a>, Self>(alloc, reader, header)
    }
}

impl<'a> EncodeValue for KeyAlgorithm<'a> {
    ghost value_size = { λ v. ⟦<KeyAlgorithmFields<'a> as Encode>⟧.size
        (⟦<KeyAlgorithm<'a> as FromFields<KeyAlgorithmFields<'a>>>⟧.fields v) };

    ghost encode_value_answers = { λ v.
        ⟦<KeyAlgorithmFields<'a> as Encode>⟧.encode_answers
        (⟦<KeyAlgorithm<'a> as FromFields<KeyAlgorithmFields<'a>>>⟧.fields v) };

    #[inline(always)]
    fn value_len(&self) -> Result<Length, Error> {
        field_refs!(self, (oid, parameters)).encoded_len()
    }

    #[inline(always)]
    fn encode_value<W: Writer>(&self, writer: &mut W) -> Result<(), Error> {
        field_refs!(self, (oid, parameters)).encode(writer)
    }

    #[inline(always)]
    fn value_len_before(&self) -> Option<u32> {
        field_refs!(self, (oid, parameters)).len_before()
    }

    #[inline(always)]
    fn encode_value_before(&self, buf: &mut [u8], end: u32) -> u32 {
        field_refs!(self, (oid, parameters)).encode_before(buf, end)
    }
}

// A public key with its algorithm (RFC 5280, 4.1.2.7).
#[derive(Clone, Copy, Drop)]
pub(crate) struct PublicKey<'a> {
    pub(crate) algorithm: KeyAlgorithm<'a>,
    pub(crate) key: BitStringRef<'a>,
}

type PublicKeyFields<'a> = (KeyAlgorithm<'a>, BitStringRef<'a>);

impl<'a> FromFields<PublicKeyFields<'a>> for PublicKey<'a> {
    ghost fields = { λ v. (v.algorithm, v.key) };

    #[inline(always)]
    fn from_fields((algorithm, key): PublicKeyFields<'a>) -> Self {
        PublicKey { algorithm, key }
    }
}

impl<'a> Sequence for PublicKey<'a> {
    ghost meaning = { sequence (two_fields (field (alternative
        ⟦<KeyAlgorithm<'a> as Described>⟧.element)) (field (alternative
        ⟦<BitStringRef<'a> as Described>⟧.element)))
        ⟦<PublicKey<'a> as FromFields<PublicKeyFields<'a>>>⟧.fields };

    ghost fits = { (refl, refl) };
}

impl<'a, R: Lends<Borrowed = &'a [u8]>> DecodeValue<R> for PublicKey<'a> {
    type Error = Error;

    ghost decode_value_answers = { λ h s result t.
        ⟦<PublicKeyFields<'a> as Decode<SliceReader<'a>>>⟧.decode_answers s (map_ok
        ⟦<PublicKey<'a> as FromFields<PublicKeyFields<'a>>>⟧.fields result) t };

    #[inline(always)]
    fn decode_value(alloc: Global, reader: &mut R, header: Header) -> Result<Self, Error>
    where
        R: Reader,
    {
        decode_sequence::<R, PublicKeyFields<'a>, Self>(alloc, reader, header)
    }
}

impl<'a> EncodeValue for PublicKey<'a> {
    ghost value_size = { λ v. ⟦<PublicKeyFields<'a> as Encode>⟧.size
        (⟦<PublicKey<'a> as FromFields<PublicKeyFields<'a>>>⟧.fields v) };

    ghost encode_value_answers = { λ v. ⟦<PublicKeyFields<'a> as Encode>⟧.encode_answers
        (⟦<PublicKey<'a> as FromFields<PublicKeyFields<'a>>>⟧.fields v) };

    #[inline(always)]
    fn value_len(&self) -> Result<Length, Error> {
        field_refs!(self, (algorithm, key)).encoded_len()
    }

    #[inline(always)]
    fn encode_value<W: Writer>(&self, writer: &mut W) -> Result<(), Error> {
        field_refs!(self, (algorithm, key)).encode(writer)
    }

    #[inline(always)]
    fn value_len_before(&self) -> Option<u32> {
        field_refs!(self, (algorithm, key)).len_before()
    }

    #[inline(always)]
    fn encode_value_before(&self, buf: &mut [u8], end: u32) -> u32 {
        field_refs!(self, (algorithm, key)).encode_before(buf, end)
    }
}
