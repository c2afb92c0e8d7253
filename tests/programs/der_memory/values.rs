//! Calls of the types in `der_base`: lengths, tags, classes, tagging modes, encoding rules and
//! errors.
use crate::print::{print_result, print_text, print_value};
use der::{Class, EncodingRules, Error, ErrorKind, Length, Tag, TagMode, TagNumber};
use std::io;
use std::str::FromStr;

pub fn lengths(rt: &impl Print) -> io::Result<()> {
    print_value(rt, "new", Length::new(5))?;
    print_value(rt, "new_indefinite", Length::new_indefinite(5))?;
    print_result(rt, "new_usize", Length::new_usize(4294967296))?;
    print_result(rt, "try_from", Length::try_from(7usize))?;
    print_value(rt, "from", Length::from(7u16))?;
    print_value(rt, "is_zero", Length::ZERO.is_zero())?;
    print_value(rt, "is_indefinite", Length::ONE.is_indefinite())?;
    print_text(rt, "sans_eoc", Length::new_indefinite(9).sans_eoc())?;
    print_result(rt, "for_tlv", Length::new(256).for_tlv(Tag::Sequence))?;
    print_value(rt, "u32", u32::from(Length::MAX))
}

pub fn sums(rt: &impl Print) -> io::Result<()> {
    print_value(
        rt,
        "saturating_add",
        Length::MAX.saturating_add(Length::ONE),
    )?;
    print_value(
        rt,
        "saturating_sub",
        Length::ZERO.saturating_sub(Length::ONE),
    )?;
    print_result(rt, "+", Length::MAX + Length::ONE)?;
    print_result(rt, "+ u8", Length::ONE + 1u8)?;
    print_result(rt, "-", Length::new(5) - Length::new(3))?;
    print_value(rt, "cmp", Length::ZERO < Length::ONE)?;
    print_value(rt, "==", Length::new(2) == Length::new_indefinite(2))
}

pub fn tags(rt: &impl Print) -> io::Result<()> {
    print_value(rt, "tag", Tag::Sequence)?;
    print_text(rt, "tag text", Tag::OctetString)?;
    print_value(rt, "class", Tag::Sequence.class())?;
    print_text(rt, "number", Tag::Sequence.number())?;
    print_value(rt, "is_constructed", Tag::Sequence.is_constructed())?;
    print_value(rt, "is_universal", Tag::Null.is_universal())?;
    print_result(rt, "assert_eq", Tag::Null.assert_eq(Tag::Set))?;
    print_text(rt, "length_error", Tag::Null.length_error().to_error())?;
    print_text(rt, "value_error", Tag::Null.value_error().to_error())
}

pub fn numbers(rt: &impl Print) -> io::Result<()> {
    let number = TagNumber::new(31);
    print_value(rt, "value", number.value())?;
    print_text(rt, "application", number.application(true))?;
    print_text(rt, "context_specific", number.context_specific(false))?;
    print_text(rt, "private", number.private(false))?;
    print_value(rt, "bits", Class::Private.bits())?;
    print_text(rt, "from_bits", Class::from_bits(0x5F))
}

pub fn names(rt: &impl Print) -> io::Result<()> {
    print_result(rt, "mode", TagMode::from_str("IMPLICIT"))?;
    print_result(rt, "no mode", TagMode::from_str("Explicit"))?;
    print_result(rt, "rules", EncodingRules::from_str("ber"))?;
    print_result(rt, "no rules", EncodingRules::from_str("CER"))?;
    print_value(rt, "is_der", EncodingRules::default().is_der())
}

pub fn errors(rt: &impl Print) -> io::Result<()> {
    let error = Error::new(ErrorKind::Overflow, Length::new(3));
    print_text(rt, "error", error)?;
    print_value(rt, "kind", error.kind() == ErrorKind::Overflow)?;
    print_value(rt, "position", error.position())?;
    print_text(rt, "incomplete", Error::incomplete(Length::ONE))?;
    print_text(rt, "at", ErrorKind::Failed.at(Length::ONE))?;
    print_text(rt, "from kind", Error::from(ErrorKind::DateTime))
}
