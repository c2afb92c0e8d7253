//! Which rule is broken first: the examples of X.680 46 and 47 and of X.690 11.7 and 11.8, and one
//! breach of each other rule.
use crate::checks::{same, same_at};
use schema_rules::{ContentsRule, broken_rule, named_bits_rule};
use ber::Universal;
use std::process::Abort;

fn breaks(rt: &impl Abort, universal: Universal, contents: &[u8], rule: ContentsRule) {
    same_at(rt, rule, broken_rule(universal, contents), Some(rule));
}

fn keeps(rt: &impl Abort, universal: Universal, contents: &[u8]) {
    same_at(rt, universal.name(), broken_rule(universal, contents), None);
}

#[test]
fn numbers_and_bits(rt: HostRuntime) {
    breaks(&rt, Universal::Boolean, &[], ContentsRule::BooleanLength);
    breaks(&rt, Universal::Boolean, &[1], ContentsRule::BooleanValue);
    breaks(&rt, Universal::Integer, &[], ContentsRule::IntegerEmpty);
    breaks(
        &rt,
        Universal::Enumerated,
        &[0, 1],
        ContentsRule::IntegerLong,
    );
    breaks(&rt, Universal::BitString, &[], ContentsRule::BitStringEmpty);
    breaks(&rt, Universal::BitString, &[8, 0], ContentsRule::UnusedBits);
    breaks(
        &rt,
        Universal::BitString,
        &[1],
        ContentsRule::UnusedBitsOfNone,
    );
    breaks(
        &rt,
        Universal::BitString,
        &[1, 1],
        ContentsRule::UnusedBitsNotZero,
    );
    breaks(&rt, Universal::Null, &[0], ContentsRule::NullLength);
    // X.690 8.6.4.2
    keeps(
        &rt,
        Universal::BitString,
        &[0x04, 0x0A, 0x3B, 0x5F, 0x29, 0x1C, 0xD0],
    );
    same(
        &rt,
        named_bits_rule(&[1, 0x40]),
        Some(ContentsRule::TrailingZeroBits),
    );
    same(&rt, named_bits_rule(&[6, 0x40]), None);
    same(&rt, named_bits_rule(&[0]), None);
}

#[test]
fn identifiers(rt: HostRuntime) {
    // X.690 8.19.5, 8.20.5
    keeps(&rt, Universal::ObjectIdentifier, &[0x88, 0x37, 0x03]);
    keeps(&rt, Universal::RelativeOid, &[0xC2, 0x7B, 0x03, 0x02]);
    breaks(
        &rt,
        Universal::ObjectIdentifier,
        &[],
        ContentsRule::IdentifierEmpty,
    );
    breaks(
        &rt,
        Universal::RelativeOid,
        &[0xC2],
        ContentsRule::IdentifierCut,
    );
    breaks(
        &rt,
        Universal::ObjectIdentifier,
        &[0x80, 1],
        ContentsRule::IdentifierLong,
    );
    keeps(
        &rt,
        Universal::OidIri,
        b"/ISO/Registration_Authority/19785.CBEFF",
    );
    breaks(&rt, Universal::OidIri, b"ISO", ContentsRule::IriSolidus);
    breaks(&rt, Universal::OidIri, &[0x2F, 0xFF], ContentsRule::IriUtf8);
    keeps(&rt, Universal::RelativeOidIri, b"19785.CBEFF/Organizations");
    breaks(
        &rt,
        Universal::RelativeOidIri,
        b"/ISO",
        ContentsRule::RelativeIriSolidus,
    );
}

#[test]
fn binary_reals(rt: HostRuntime) {
    keeps(&rt, Universal::Real, &[]);
    for special in 0x40..0x44 {
        keeps(&rt, Universal::Real, &[special]);
    }
    breaks(&rt, Universal::Real, &[0x44], ContentsRule::RealSpecial);
    breaks(&rt, Universal::Real, &[0x40, 0], ContentsRule::RealSpecial);
    breaks(&rt, Universal::Real, &[0xB0, 0, 1], ContentsRule::RealBase);
    breaks(&rt, Universal::Real, &[0x81, 0], ContentsRule::RealExponent);
    breaks(
        &rt,
        Universal::Real,
        &[0x83, 0, 1],
        ContentsRule::RealExponent,
    );
    breaks(
        &rt,
        Universal::Real,
        &[0x83, 2, 0, 1, 1],
        ContentsRule::RealExponent,
    );
    breaks(&rt, Universal::Real, &[0x80, 5], ContentsRule::RealZero);
    breaks(&rt, Universal::Real, &[0x80, 5, 0], ContentsRule::RealZero);
    breaks(
        &rt,
        Universal::Real,
        &[0x90, 5, 1],
        ContentsRule::RealBaseTwo,
    );
    breaks(
        &rt,
        Universal::Real,
        &[0x84, 5, 1],
        ContentsRule::RealBaseTwo,
    );
    breaks(
        &rt,
        Universal::Real,
        &[0x81, 0, 5, 1],
        ContentsRule::RealExponentLong,
    );
    breaks(
        &rt,
        Universal::Real,
        &[0x83, 1, 5, 1],
        ContentsRule::RealExponentLong,
    );
    breaks(
        &rt,
        Universal::Real,
        &[0x80, 5, 2],
        ContentsRule::RealMantissa,
    );
    breaks(
        &rt,
        Universal::Real,
        &[0x80, 5, 0, 1],
        ContentsRule::RealMantissa,
    );
}

#[test]
fn decimal_reals(rt: HostRuntime) {
    for number in ["3.E0", "-15.E-1", "3.E+0", "1.E10"] {
        let expected = if number == "3.E0" {
            Some(ContentsRule::RealDigits)
        } else {
            None
        };
        same_at(&rt, number, decimal(3, number), expected);
    }
    for number in ["3", " -0032", "+7"] {
        same_at(
            &rt,
            number,
            decimal(1, number),
            Some(ContentsRule::RealForm),
        );
    }
    for number in ["3.", ".5", " -1,50"] {
        same_at(
            &rt,
            number,
            decimal(2, number),
            Some(ContentsRule::RealForm),
        );
    }
    for number in [
        "3E1", "30.E1", "03.E1", "3.e1", "3.0E1", "+3.E1", " 3.E1", "3,E1", "3.E+1", "3.E-0",
        "3.E01",
    ] {
        let expected = if number == "3E1" {
            ContentsRule::RealDecimal
        } else {
            ContentsRule::RealDigits
        };
        same_at(&rt, number, decimal(3, number), Some(expected));
    }
    for number in ["", ".", "3.5x", "- 3.", "3.E", "3 .E1"] {
        same_at(
            &rt,
            number,
            decimal(3, number),
            Some(ContentsRule::RealDecimal),
        );
        same_at(
            &rt,
            number,
            decimal(2, number),
            Some(ContentsRule::RealDecimal),
        );
    }
    same(&rt, decimal(0, "3"), Some(ContentsRule::RealDecimal));
    same(&rt, decimal(4, "3"), Some(ContentsRule::RealDecimal));
    same(&rt, decimal(2, "0.0"), Some(ContentsRule::RealZero));
    same(&rt, decimal(3, "0.E1"), Some(ContentsRule::RealZero));
}

// The rule that a REAL breaks whose first octet is the form.
fn decimal(form: u8, number: &str) -> Option<ContentsRule> {
    let mut contents = [form; 12];
    let digits = number.as_bytes();
    if digits.len() > 11 {
        return None;
    }
    contents[1..digits.len() + 1].copy_from_slice(digits);
    broken_rule(Universal::Real, &contents[..digits.len() + 1])
}

#[test]
fn characters(rt: HostRuntime) {
    keeps(&rt, Universal::NumericString, b"0123 456789");
    breaks(
        &rt,
        Universal::NumericString,
        b"1a",
        ContentsRule::NumericCharacters,
    );
    keeps(&rt, Universal::PrintableString, b"Aa0 '()+,-./:=?");
    breaks(
        &rt,
        Universal::PrintableString,
        b"a@b",
        ContentsRule::PrintableCharacters,
    );
    breaks(
        &rt,
        Universal::Ia5String,
        &[0x80],
        ContentsRule::Ia5Characters,
    );
    breaks(
        &rt,
        Universal::VisibleString,
        &[0x7F],
        ContentsRule::VisibleCharacters,
    );
    breaks(
        &rt,
        Universal::VisibleString,
        &[0x1F],
        ContentsRule::VisibleCharacters,
    );
    breaks(
        &rt,
        Universal::Utf8String,
        &[0xFF],
        ContentsRule::Utf8Characters,
    );
    breaks(&rt, Universal::BmpString, &[0], ContentsRule::BmpCharacters);
    breaks(
        &rt,
        Universal::UniversalString,
        &[0],
        ContentsRule::UniversalCharacters,
    );
    keeps(&rt, Universal::TeletexString, &[0xFF]);
    keeps(&rt, Universal::OctetString, &[]);
    breaks(&rt, Universal::Sequence, &[], ContentsRule::Constructed);
    breaks(
        &rt,
        Universal::CharacterString,
        &[],
        ContentsRule::Constructed,
    );
}

#[test]
fn times(rt: HostRuntime) {
    // X.690 11.7, 11.8: allowed, and not
    for time in ["19920521000000Z", "19920622123421Z", "19920722132100.3Z"] {
        keeps(&rt, Universal::GeneralizedTime, time.as_bytes());
    }
    for time in ["920521000000Z", "920622123421Z", "920722132100Z"] {
        keeps(&rt, Universal::UtcTime, time.as_bytes());
    }
    let generalized = Universal::GeneralizedTime;
    breaks(
        &rt,
        generalized,
        b"19920520240000Z",
        ContentsRule::GeneralizedTimeExists,
    );
    breaks(
        &rt,
        generalized,
        b"19920622123421.0Z",
        ContentsRule::GeneralizedTimeFraction,
    );
    breaks(
        &rt,
        generalized,
        b"19920722132100.30Z",
        ContentsRule::GeneralizedTimeFraction,
    );
    breaks(
        &rt,
        Universal::UtcTime,
        b"920520240000Z",
        ContentsRule::UtcTimeExists,
    );
    breaks(
        &rt,
        Universal::UtcTime,
        b"9207221321Z",
        ContentsRule::UtcTimeSeconds,
    );
    // X.680 46 and 47
    breaks(
        &rt,
        generalized,
        b"19851106210627.3",
        ContentsRule::GeneralizedTimeZone,
    );
    keeps(&rt, generalized, b"19851106210627.3Z");
    breaks(
        &rt,
        generalized,
        b"19851106210627.3-0500",
        ContentsRule::GeneralizedTimeZone,
    );
    breaks(
        &rt,
        Universal::UtcTime,
        b"8201021200Z",
        ContentsRule::UtcTimeSeconds,
    );
    breaks(
        &rt,
        Universal::UtcTime,
        b"8201020700-0500",
        ContentsRule::UtcTimeZone,
    );
    breaks(
        &rt,
        generalized,
        b"1985110621Z",
        ContentsRule::GeneralizedTimeSeconds,
    );
    breaks(
        &rt,
        generalized,
        b"1985110621,5",
        ContentsRule::GeneralizedTimeZone,
    );
    breaks(
        &rt,
        generalized,
        b"19851106210627,3Z",
        ContentsRule::GeneralizedTimePoint,
    );
    breaks(
        &rt,
        generalized,
        b"198511062106-05",
        ContentsRule::GeneralizedTimeZone,
    );
    breaks(
        &rt,
        generalized,
        b"19851106210627.",
        ContentsRule::GeneralizedTimeForm,
    );
}

#[test]
fn useful_times(rt: HostRuntime) {
    keeps(&rt, Universal::Date, b"20240229");
    breaks(&rt, Universal::Date, b"2024-02-29", ContentsRule::DateForm);
    breaks(&rt, Universal::Date, b"20230229", ContentsRule::DateExists);
    breaks(&rt, Universal::Date, b"15811231", ContentsRule::DateExists);
    keeps(&rt, Universal::TimeOfDay, b"240000");
    breaks(
        &rt,
        Universal::TimeOfDay,
        b"12:00:00",
        ContentsRule::TimeOfDayForm,
    );
    breaks(
        &rt,
        Universal::TimeOfDay,
        b"240001",
        ContentsRule::TimeOfDayExists,
    );
    keeps(&rt, Universal::DateTime, b"19851106210627");
    breaks(
        &rt,
        Universal::DateTime,
        b"1985110621062",
        ContentsRule::DateTimeForm,
    );
    breaks(
        &rt,
        Universal::DateTime,
        b"19851106216027",
        ContentsRule::DateTimeExists,
    );
    keeps(&rt, Universal::Duration, b"2Y10M15DT10H20M30S");
    breaks(
        &rt,
        Universal::Duration,
        b"",
        ContentsRule::DurationCharacters,
    );
    breaks(
        &rt,
        Universal::Time,
        b"1985 11",
        ContentsRule::TimeCharacters,
    );
}

#[test]
fn rules_say_their_class_and_section(rt: HostRuntime) {
    same(&rt, ContentsRule::BooleanValue.is_ber(), true);
    same(&rt, ContentsRule::IntegerLong.is_ber(), false);
    same(&rt, ContentsRule::UtcTimeSeconds.section(), "X.690 11.8.2");
    same(
        &rt,
        ContentsRule::PrintableCharacters.section(),
        "X.680 41.4",
    );
}
