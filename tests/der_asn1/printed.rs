//! What `{:?}` prints of values that borrow their octets. The names of types are those of X.680.
use crate::checks::same;
use der::{Error, Tag, TagNumber};
use der_asn1::{
    AnyRef, BitStringRef, BooleanRef, DateTime, DefaultU8, Defaulted, Either, EnumeratedOf,
    Explicit, ExplicitAny, Implicit, InClass, IntRef, IntegerOf, NamedBitsRef, Null,
    ObjectIdentifierRef, OctetStringRef, Optional, Private, SequenceOf, SetOf, UtcTime,
    Utf8StringRef, WithDefault,
};
use std::alloc::{AllocError, Global};
use std::fmt::Debug;
use std::process::Abort;
use std::test::Fail;

// Aborts the test if `{:?}` does not print this text of the value.
fn prints<T: Debug + Drop>(
    rt: &impl Abort,
    alloc: Global,
    value: T,
    text: &str,
) -> Result<(), AllocError> {
    same(rt, format!(in alloc; "{value:?}")?.as_str(), text);
    Ok(())
}

#[test]
fn each_octet_is_two_digits(rt: HostRuntime) -> Result<(), Fail> {
    let alloc = rt.alloc();
    let octets = OctetStringRef::new(&[0x00, 0x09, 0x0A, 0x0F, 0x10, 0x99, 0x9A, 0xA0, 0xFF]);
    prints(&rt, alloc, octets, "Some(OCTET STRING(00090A0F10999AA0FF))")?;
    prints(&rt, alloc, OctetStringRef::new(&[]), "Some(OCTET STRING())")?;
    Ok(())
}

#[test]
fn contents_have_the_name_of_their_type(rt: HostRuntime) -> Result<(), Fail> {
    let alloc = rt.alloc();
    prints(&rt, alloc, IntRef::new(&[0x2A]), "Some(INTEGER(2A))")?;
    prints(&rt, alloc, IntRef::new(&[0x00, 0x2A]), "None")?;
    prints(&rt, alloc, BooleanRef::new(&[0xFF]), "Some(BOOLEAN(FF))")?;
    prints(&rt, alloc, Null::new(&[]), "Some(NULL())")?;
    let bits = BitStringRef::new(&[0x00, 0x80]);
    prints(&rt, alloc, bits, "Some(BIT STRING(0080))")?;
    let bits = NamedBitsRef::new(&[0x07, 0x80]);
    prints(&rt, alloc, bits, "Some(BIT STRING(0780))")?;
    let identifier = ObjectIdentifierRef::new(&[0x2A, 0x86, 0x48]);
    prints(&rt, alloc, identifier, "Some(OBJECT IDENTIFIER(2A8648))")?;
    prints(&rt, alloc, Utf8StringRef::new(b"Az"), "Some(UTF8String(417A))")?;
    Ok(())
}

#[test]
fn an_element_of_any_tag_has_the_name_of_its_tag(rt: HostRuntime) -> Result<(), Fail> {
    let alloc = rt.alloc();
    let contents: &[u8] = &[0xAB];
    let rows = [
        (Tag::Integer, "INTEGER(AB)"),
        (Tag::Sequence, "SEQUENCE(AB)"),
        (TagNumber(5).context_specific(true), "CONTEXT-SPECIFIC [5] (constructed)(AB)"),
    ];
    for (tag, text) in rows {
        prints(&rt, alloc, AnyRef { tag, contents }, text)?;
    }
    Ok(())
}

#[test]
fn lists_print_the_encodings_of_their_items(rt: HostRuntime) -> Result<(), Fail> {
    let alloc = rt.alloc();
    let octets = [2, 1, 6, 2, 1, 5];
    let list: Result<SequenceOf<'_, IntRef<'_>>, Error> = SequenceOf::new(alloc, &octets);
    prints(&rt, alloc, list.ok(), "Some(SEQUENCE(020106020105))")?;
    let set: Result<SetOf<'_, IntRef<'_>>, Error> = SetOf::new(alloc, &[2, 1, 5, 2, 1, 6]);
    prints(&rt, alloc, set.ok(), "Some(SET(020105020106))")?;
    let none: Result<SetOf<'_, IntRef<'_>>, Error> = SetOf::new(alloc, &[2, 1, 6, 2, 1, 5]);
    prints(&rt, alloc, none.ok(), "None")?;
    Ok(())
}

#[test]
fn numbers_and_times_print_their_contents(rt: HostRuntime) -> Result<(), Fail> {
    let alloc = rt.alloc();
    prints(&rt, alloc, IntegerOf { number: 255u8 }, "INTEGER(00FF)")?;
    prints(&rt, alloc, IntegerOf { number: -1i64 }, "INTEGER(FF)")?;
    prints(&rt, alloc, EnumeratedOf { number: 2u8 }, "ENUMERATED(02)")?;
    let midnight = DateTime {
        year: 1992,
        month: 5,
        day: 21,
        hour: 0,
        minute: 0,
        second: 0,
    };
    let text = "Some(UTCTime(3932303532313030303030305A))";
    prints(&rt, alloc, UtcTime::new(midnight), text)?;
    Ok(())
}

#[test]
fn tags_are_printed_around_values(rt: HostRuntime) -> Result<(), Fail> {
    let alloc = rt.alloc();
    let two = IntegerOf { number: 2u8 };
    let explicit: Explicit<IntegerOf<u8>, 3> = Explicit(two);
    prints(&rt, alloc, explicit, "CONTEXT-SPECIFIC [3] (constructed)(INTEGER(02))")?;
    let implicit: Implicit<IntegerOf<u8>, 3> = Implicit(two);
    prints(&rt, alloc, implicit, "CONTEXT-SPECIFIC [3] (primitive)(INTEGER(02))")?;
    let private: Private<Implicit<IntegerOf<u8>, 3>> = InClass(implicit);
    let text = "PRIVATE [3] (primitive)(CONTEXT-SPECIFIC [3] (primitive)(INTEGER(02)))";
    prints(&rt, alloc, private, text)?;
    let any: ExplicitAny<'_, 3> = ExplicitAny(AnyRef {
        tag: Tag::Null,
        contents: &[],
    });
    prints(&rt, alloc, any, "CONTEXT-SPECIFIC [3] (constructed)(NULL())")?;
    Ok(())
}

#[test]
fn fields_and_choices_print_their_value(rt: HostRuntime) -> Result<(), Fail> {
    let alloc = rt.alloc();
    let two = IntegerOf { number: 2u8 };
    prints(&rt, alloc, Optional(Some(two)), "Some(INTEGER(02))")?;
    let absent: Optional<IntegerOf<u8>> = Optional(None);
    prints(&rt, alloc, absent, "None")?;
    prints(&rt, alloc, Defaulted(two), "INTEGER(02)")?;
    let with_default: WithDefault<IntegerOf<u8>, DefaultU8<7>> = WithDefault::new(two);
    prints(&rt, alloc, with_default, "INTEGER(02)")?;
    let first: Either<IntegerOf<u8>, EnumeratedOf<u8>> = Either::First(two);
    prints(&rt, alloc, first, "First(INTEGER(02))")?;
    let second: Either<EnumeratedOf<u8>, IntegerOf<u8>> = Either::Second(two);
    prints(&rt, alloc, second, "Second(INTEGER(02))")?;
    Ok(())
}
