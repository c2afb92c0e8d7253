//! What rules print, and where they stand.
use crate::checks::same_octets;
use schema_rules::ContentsRule;
use schema_read::Rule;
use std::alloc::AllocError;

#[test]
fn words_and_sections(rt: HostRuntime) -> Result<(), AllocError> {
    let rows = [
        (
            Rule::LongLength,
            "length in more octets than needed (X.690 10.1)",
        ),
        (
            Rule::Alphabet,
            "character outside the permitted alphabet (X.680 51.7)",
        ),
        (
            Rule::Contents(ContentsRule::BooleanValue),
            "contents break a rule: the octet of TRUE is FF (X.690 11.1)",
        ),
    ];
    for (rule, expected) in rows {
        let printed = format!(in rt.alloc(); "{rule} ({})", rule.section())?;
        same_octets(&rt, printed.as_bytes(), expected.as_bytes());
    }
    Ok(())
}
