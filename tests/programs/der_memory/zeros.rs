//! A type with contents of any length, for calls that fail to write.
ghost use Rattle.std.specs.Prelude.{◌≡◌, Ok, Err, replicate};
ghost use Rattle.der.specs.Prelude.{definite_length, error_of_kind, OctetString};
ghost use Rattle.der.specs.ErrorKinds.{Overlength};

use der::{EncodeValue, Error, ErrorKind, Length, Tag, Tagged, Writer, WrittenValue};

/// An OCTET STRING of `count` zero octets. Writing its contents always fails with `Overlength`.
#[derive(Drop)]
pub struct Zeros {
    pub count: u32,
}

impl Tagged for Zeros {
    ghost tag_of = { λ _. OctetString };

    fn tag(&self) -> Tag {
        Tag::OctetString
    }
}

impl WrittenValue for Zeros {
    ghost contents = { λ zeros. replicate zeros.count 0 };

    ghost writable = { λ _. ⊥ };
}

impl EncodeValue for Zeros {
    ghost value_size = { λ zeros. Ok (definite_length zeros.count) };

    ghost encode_value_answers = { λ _ s r t. (r ≡ Err (error_of_kind Overlength)) × (t ≡ s) };

    fn value_len(&self) -> Result<Length, Error> {
        Ok(Length::new(self.count))
    }

    fn encode_value<W: Writer>(&self, _writer: &mut W) -> Result<(), Error> {
        Err(ErrorKind::Overlength.to_error())
    }
}
