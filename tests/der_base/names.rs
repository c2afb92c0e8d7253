//! Names of tagging modes and of encoding rules.
use crate::checks::{holds, same, same_at};
use der::{EncodingRules, Error, ErrorKind, TagMode};
use std::str::FromStr;
use std::test::Fail;

#[test]
fn modes_are_read_in_capitals_or_small_letters_alone(rt: HostRuntime) {
    for text in ["EXPLICIT", "explicit"] {
        same(&rt, TagMode::from_str(text), Ok(TagMode::Explicit));
    }
    for text in ["IMPLICIT", "implicit"] {
        same(&rt, TagMode::from_str(text), Ok(TagMode::Implicit));
    }
    let unknown = Error::from(ErrorKind::TagModeUnknown);
    for text in ["Explicit", "Implicit", "", "explicit ", "EXPLICI", "DER"] {
        same_at(&rt, text, TagMode::from_str(text), Err(unknown));
    }
}

#[test]
fn rules_are_read_in_capitals_or_small_letters_alone(rt: HostRuntime) {
    for text in ["ber", "BER"] {
        same(&rt, EncodingRules::from_str(text), Ok(EncodingRules::Ber));
    }
    for text in ["der", "DER"] {
        same(&rt, EncodingRules::from_str(text), Ok(EncodingRules::Der));
    }
    let unknown = Error::from(ErrorKind::EncodingRules);
    for text in ["CER", "Der", "Ber", "", "DER ", "BE", "explicit"] {
        same_at(&rt, text, EncodingRules::from_str(text), Err(unknown));
    }
}

#[test]
fn rules_tell_themselves_and_der_and_explicit_are_defaults(rt: HostRuntime) {
    holds(
        &rt,
        EncodingRules::Ber.is_ber() && !EncodingRules::Ber.is_der(),
    );
    holds(
        &rt,
        EncodingRules::Der.is_der() && !EncodingRules::Der.is_ber(),
    );
    same(&rt, EncodingRules::default(), EncodingRules::Der);
    same(&rt, TagMode::default(), TagMode::Explicit);
    holds(&rt, EncodingRules::Ber < EncodingRules::Der);
    holds(&rt, TagMode::Explicit < TagMode::Implicit);
}

#[test]
fn modes_and_rules_are_printed_in_capitals(rt: HostRuntime) -> Result<(), Fail> {
    for (mode, text) in [
        (TagMode::Explicit, "EXPLICIT"),
        (TagMode::Implicit, "IMPLICIT"),
    ] {
        same(&rt, mode.to_string(rt.alloc())?.as_str(), text);
    }
    for (rules, text) in [(EncodingRules::Ber, "BER"), (EncodingRules::Der, "DER")] {
        same(&rt, rules.to_string(rt.alloc())?.as_str(), text);
    }
    Ok(())
}
