//! The constants of types of ASN.1, which no clause can name, and the functions that return the
//! same.
use crate::checks::holds;
use der::{Tag, TagNumber};
use der_asn1::{
    BitStringRef, BmpStringRef, BooleanRef, EnumeratedRef, Explicit, GeneralizedTime, Ia5StringRef,
    Implicit, IntRef, IntegerOf, Null, NumericStringRef, ObjectIdentifierRef, OctetStringRef,
    PrintableStringRef, SequenceOf, SetOf, TeletexStringRef, UtcTime, Utf8StringRef,
    VisibleStringRef,
};
use crate::fixtures::constants::tags_agree;

#[test]
fn types_of_a_form_report_equal_tags(rt: HostRuntime) {
    holds(&rt, tags_agree::<BooleanRef>(Tag::Boolean, false));
    holds(&rt, tags_agree::<IntRef>(Tag::Integer, false));
    holds(&rt, tags_agree::<BitStringRef>(Tag::BitString, false));
    holds(&rt, tags_agree::<OctetStringRef>(Tag::OctetString, false));
    holds(&rt, tags_agree::<Null>(Tag::Null, false));
    holds(
        &rt,
        tags_agree::<ObjectIdentifierRef>(Tag::ObjectIdentifier, false),
    );
    holds(&rt, tags_agree::<EnumeratedRef>(Tag::Enumerated, false));
}

#[test]
fn texts_and_times_report_equal_tags(rt: HostRuntime) {
    holds(&rt, tags_agree::<Utf8StringRef>(Tag::Utf8String, false));
    holds(
        &rt,
        tags_agree::<NumericStringRef>(Tag::NumericString, false),
    );
    holds(
        &rt,
        tags_agree::<PrintableStringRef>(Tag::PrintableString, false),
    );
    holds(
        &rt,
        tags_agree::<TeletexStringRef>(Tag::TeletexString, false),
    );
    holds(&rt, tags_agree::<Ia5StringRef>(Tag::Ia5String, false));
    holds(
        &rt,
        tags_agree::<VisibleStringRef>(Tag::VisibleString, false),
    );
    holds(&rt, tags_agree::<BmpStringRef>(Tag::BmpString, false));
    holds(&rt, tags_agree::<UtcTime>(Tag::UtcTime, false));
    holds(
        &rt,
        tags_agree::<GeneralizedTime>(Tag::GeneralizedTime, false),
    );
}

#[test]
fn types_of_others_report_equal_tags(rt: HostRuntime) {
    holds(&rt, tags_agree::<IntegerOf<u8>>(Tag::Integer, false));
    holds(
        &rt,
        tags_agree::<SequenceOf<'_, IntRef<'_>>>(Tag::Sequence, true),
    );
    holds(&rt, tags_agree::<SetOf<'_, IntRef<'_>>>(Tag::Set, true));
    let third = TagNumber(3);
    holds(
        &rt,
        tags_agree::<Explicit<IntRef<'_>, 3>>(third.context_specific(true), true),
    );
    holds(
        &rt,
        tags_agree::<Implicit<IntRef<'_>, 3>>(third.context_specific(false), false),
    );
    holds(
        &rt,
        tags_agree::<Implicit<SequenceOf<'_, IntRef<'_>>, 3>>(third.context_specific(true), true),
    );
}
