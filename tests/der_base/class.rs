//! Classes of tags.
use crate::checks::{holds, same, same_at};
use der::{
    CLASS_APPLICATION, CLASS_CONTEXT_SPECIFIC, CLASS_PRIVATE, CLASS_UNIVERSAL, Class, Tag,
    TagNumber,
};
use std::test::Fail;

#[test]
fn class_bits_are_read_back_as_the_class(rt: HostRuntime) {
    for (class, bits) in [
        (Class::Universal, 0x00),
        (Class::Application, 0x40),
        (Class::ContextSpecific, 0x80),
        (Class::Private, 0xC0),
    ] {
        same(&rt, class.bits(), bits);
        same(&rt, Class::from_bits(bits), class);
        same(&rt, Class::from(bits | 0x3F), class);
    }
    same(&rt, Class::from_bits(0x5F), Class::Application);
    same(&rt, CLASS_UNIVERSAL, 0x00);
    same(&rt, CLASS_APPLICATION, 0x40);
    same(&rt, CLASS_CONTEXT_SPECIFIC, 0x80);
    same(&rt, CLASS_PRIVATE, 0xC0);
}

#[test]
fn classes_ascend_from_universal_to_private(rt: HostRuntime) {
    holds(&rt, Class::Universal < Class::Application);
    holds(&rt, Class::Application < Class::ContextSpecific);
    holds(&rt, Class::ContextSpecific < Class::Private);
}

#[test]
fn classes_are_printed_as_their_names(rt: HostRuntime) -> Result<(), Fail> {
    let rows = [
        (Class::Universal, "UNIVERSAL"),
        (Class::Application, "APPLICATION"),
        (Class::ContextSpecific, "CONTEXT-SPECIFIC"),
        (Class::Private, "PRIVATE"),
    ];
    for (class, text) in rows {
        same(&rt, class.to_string(rt.alloc())?.as_str(), text);
    }
    Ok(())
}

#[test]
fn tags_with_low_numbers_tell_their_class_number_and_bit(rt: HostRuntime) {
    for number in 0..31u32 {
        for constructed in [false, true] {
            let number = TagNumber::new(number);
            let application = number.application(constructed);
            let context_specific = number.context_specific(constructed);
            let private = number.private(constructed);
            same_at(&rt, number, application.class(), Class::Application);
            same_at(
                &rt,
                number,
                context_specific.class(),
                Class::ContextSpecific,
            );
            same_at(&rt, number, private.class(), Class::Private);
            same_at(&rt, number, application.is_constructed(), constructed);
            same_at(&rt, number, context_specific.number(), number);
            holds(
                &rt,
                application.is_application() && !application.is_universal(),
            );
            holds(
                &rt,
                context_specific.is_context_specific() && !context_specific.is_private(),
            );
            holds(&rt, private.is_private() && !private.is_application());
            same(
                &rt,
                private,
                Tag::Private {
                    constructed,
                    number,
                },
            );
        }
    }
}
