//! The structs of `der.h`. Written by tools/c_interface: change the crates that der_c uses instead.
use core::marker::PhantomData;

#[repr(C)]
#[derive(Clone, Copy, Default, PartialEq, Eq, Hash, Debug)]
pub struct RawTreeFound {
    pub entries: usize,
    pub departures: usize,
    pub lost: usize,
    pub listed: usize,
    pub verdict: u32,
}

#[repr(C)]
#[derive(Clone, Copy, Default, PartialEq, Eq, Hash, Debug)]
pub struct RawPemBlock {
    pub label: usize,
    pub label_length: usize,
    pub line: usize,
    pub length: usize,
}

#[repr(C)]
#[derive(Clone, Copy)]
pub struct RawPemReader<'a> {
    pub text: *const u8,
    pub length: usize,
    pub position: usize,
    pub line: usize,
    pub borrow: PhantomData<&'a [u8]>,
}

impl RawPemReader<'_> {
    pub const EMPTY: Self = RawPemReader {
        text: core::ptr::NonNull::dangling().as_ptr(),
        length: 0,
        position: 0,
        line: 0,
        borrow: PhantomData,
    };
}

#[repr(C)]
#[derive(Clone, Copy)]
pub struct RawAccessDescription<'a> {
    pub method: RawSpan<'a>,
    pub location: RawGeneralName<'a>,
}

impl RawAccessDescription<'_> {
    pub const EMPTY: Self = RawAccessDescription {
        method: RawSpan::EMPTY,
        location: RawGeneralName::EMPTY,
    };
}

#[repr(C)]
#[derive(Clone, Copy)]
pub struct RawAlgorithm<'a> {
    pub identifier: RawSpan<'a>,
    pub parameters: RawAny<'a>,
}

impl RawAlgorithm<'_> {
    pub const EMPTY: Self = RawAlgorithm {
        identifier: RawSpan::EMPTY,
        parameters: RawAny::EMPTY,
    };
}

#[repr(C)]
#[derive(Clone, Copy)]
pub struct RawAny<'a> {
    pub contents: RawSpan<'a>,
    pub tag: u64,
}

impl RawAny<'_> {
    pub const EMPTY: Self = RawAny {
        contents: RawSpan::EMPTY,
        tag: 0,
    };
}

#[repr(C)]
#[derive(Clone, Copy)]
pub struct RawCertificateParts<'a> {
    pub serial_number: RawSpan<'a>,
    pub signature_algorithm: RawSpan<'a>,
    pub issuer: RawSpan<'a>,
    pub validity: RawSpan<'a>,
    pub subject: RawSpan<'a>,
    pub public_key: RawSpan<'a>,
    pub extensions: RawSpan<'a>,
}

impl RawCertificateParts<'_> {
    pub const EMPTY: Self = RawCertificateParts {
        serial_number: RawSpan::EMPTY,
        signature_algorithm: RawSpan::EMPTY,
        issuer: RawSpan::EMPTY,
        validity: RawSpan::EMPTY,
        subject: RawSpan::EMPTY,
        public_key: RawSpan::EMPTY,
        extensions: RawSpan::EMPTY,
    };
}

#[repr(C)]
#[derive(Clone, Copy)]
pub struct RawAttribute<'a> {
    pub identifier: RawSpan<'a>,
    pub value: RawAny<'a>,
}

impl RawAttribute<'_> {
    pub const EMPTY: Self = RawAttribute {
        identifier: RawSpan::EMPTY,
        value: RawAny::EMPTY,
    };
}

#[repr(C)]
#[derive(Clone, Copy)]
pub struct RawAuthorityKey<'a> {
    pub key_identifier: RawSpan<'a>,
    pub issuer: RawSpan<'a>,
    pub serial_number: RawSpan<'a>,
    pub present: bool,
    pub critical: bool,
    pub has_key_identifier: bool,
    pub has_issuer: bool,
    pub has_serial_number: bool,
}

impl RawAuthorityKey<'_> {
    pub const EMPTY: Self = RawAuthorityKey {
        key_identifier: RawSpan::EMPTY,
        issuer: RawSpan::EMPTY,
        serial_number: RawSpan::EMPTY,
        present: false,
        critical: false,
        has_key_identifier: false,
        has_issuer: false,
        has_serial_number: false,
    };
}

#[repr(C)]
#[derive(Clone, Copy, Default, PartialEq, Eq, Hash, Debug)]
pub struct RawConstraints {
    pub path_length: u64,
    pub present: bool,
    pub critical: bool,
    pub is_authority: bool,
    pub has_path_length: bool,
}

#[repr(C)]
#[derive(Clone, Copy)]
pub struct RawCertificate<'a> {
    pub signed_part: RawSpan<'a>,
    pub serial_number: RawSpan<'a>,
    pub issuer: RawSpan<'a>,
    pub subject: RawSpan<'a>,
    pub signed_algorithm: RawAlgorithm<'a>,
    pub public_key: RawPublicKey<'a>,
    pub issuer_unique_id: RawBits<'a>,
    pub subject_unique_id: RawBits<'a>,
    pub extensions: RawSpan<'a>,
    pub signature_algorithm: RawAlgorithm<'a>,
    pub signature: RawBits<'a>,
    pub not_before: i64,
    pub not_after: i64,
    pub version: u8,
    pub has_issuer_unique_id: bool,
    pub has_subject_unique_id: bool,
    pub has_extensions: bool,
}

impl RawCertificate<'_> {
    pub const EMPTY: Self = RawCertificate {
        signed_part: RawSpan::EMPTY,
        serial_number: RawSpan::EMPTY,
        issuer: RawSpan::EMPTY,
        subject: RawSpan::EMPTY,
        signed_algorithm: RawAlgorithm::EMPTY,
        public_key: RawPublicKey::EMPTY,
        issuer_unique_id: RawBits::EMPTY,
        subject_unique_id: RawBits::EMPTY,
        extensions: RawSpan::EMPTY,
        signature_algorithm: RawAlgorithm::EMPTY,
        signature: RawBits::EMPTY,
        not_before: 0,
        not_after: 0,
        version: 0,
        has_issuer_unique_id: false,
        has_subject_unique_id: false,
        has_extensions: false,
    };
}

#[repr(C)]
#[derive(Clone, Copy)]
pub struct RawDistributionPoint<'a> {
    pub full_name: RawSpan<'a>,
    pub relative_name: RawSpan<'a>,
    pub list_issuer: RawSpan<'a>,
    pub reasons: u16,
    pub has_full_name: bool,
    pub has_relative_name: bool,
    pub has_reasons: bool,
    pub has_list_issuer: bool,
}

impl RawDistributionPoint<'_> {
    pub const EMPTY: Self = RawDistributionPoint {
        full_name: RawSpan::EMPTY,
        relative_name: RawSpan::EMPTY,
        list_issuer: RawSpan::EMPTY,
        reasons: 0,
        has_full_name: false,
        has_relative_name: false,
        has_reasons: false,
        has_list_issuer: false,
    };
}

#[repr(C)]
#[derive(Clone, Copy)]
pub struct RawExtension<'a> {
    pub identifier: RawSpan<'a>,
    pub value: RawSpan<'a>,
    pub critical: bool,
}

impl RawExtension<'_> {
    pub const EMPTY: Self = RawExtension {
        identifier: RawSpan::EMPTY,
        value: RawSpan::EMPTY,
        critical: false,
    };
}

#[repr(C)]
#[derive(Clone, Copy)]
pub struct RawFound<'a> {
    pub contents: RawSpan<'a>,
    pub present: bool,
    pub critical: bool,
}

impl RawFound<'_> {
    pub const EMPTY: Self = RawFound {
        contents: RawSpan::EMPTY,
        present: false,
        critical: false,
    };
}

#[repr(C)]
#[derive(Clone, Copy)]
pub struct RawGeneralName<'a> {
    pub contents: RawSpan<'a>,
    pub identifier: RawSpan<'a>,
    pub value: RawAny<'a>,
    pub kind: u8,
}

impl RawGeneralName<'_> {
    pub const EMPTY: Self = RawGeneralName {
        contents: RawSpan::EMPTY,
        identifier: RawSpan::EMPTY,
        value: RawAny::EMPTY,
        kind: 0,
    };
}

#[repr(C)]
#[derive(Clone, Copy, Default, PartialEq, Eq, Hash, Debug)]
pub struct RawUsage {
    pub bits: u16,
    pub present: bool,
    pub critical: bool,
}

#[repr(C)]
#[derive(Clone, Copy)]
pub struct RawPrivateKey<'a> {
    pub algorithm: RawAlgorithm<'a>,
    pub key: RawSpan<'a>,
    pub attributes: RawSpan<'a>,
    pub public_key: RawBits<'a>,
    pub version: u8,
    pub has_attributes: bool,
    pub has_public_key: bool,
}

impl RawPrivateKey<'_> {
    pub const EMPTY: Self = RawPrivateKey {
        algorithm: RawAlgorithm::EMPTY,
        key: RawSpan::EMPTY,
        attributes: RawSpan::EMPTY,
        public_key: RawBits::EMPTY,
        version: 0,
        has_attributes: false,
        has_public_key: false,
    };
}

#[repr(C)]
#[derive(Clone, Copy)]
pub struct RawPublicKey<'a> {
    pub whole: RawSpan<'a>,
    pub algorithm: RawAlgorithm<'a>,
    pub key: RawBits<'a>,
}

impl RawPublicKey<'_> {
    pub const EMPTY: Self = RawPublicKey {
        whole: RawSpan::EMPTY,
        algorithm: RawAlgorithm::EMPTY,
        key: RawBits::EMPTY,
    };
}

#[repr(C)]
#[derive(Clone, Copy)]
pub struct RawRequest<'a> {
    pub signed_part: RawSpan<'a>,
    pub subject: RawSpan<'a>,
    pub public_key: RawPublicKey<'a>,
    pub attributes: RawSpan<'a>,
    pub signature_algorithm: RawAlgorithm<'a>,
    pub signature: RawBits<'a>,
}

impl RawRequest<'_> {
    pub const EMPTY: Self = RawRequest {
        signed_part: RawSpan::EMPTY,
        subject: RawSpan::EMPTY,
        public_key: RawPublicKey::EMPTY,
        attributes: RawSpan::EMPTY,
        signature_algorithm: RawAlgorithm::EMPTY,
        signature: RawBits::EMPTY,
    };
}

#[repr(C)]
#[derive(Clone, Copy)]
pub struct RawRevocationList<'a> {
    pub signed_part: RawSpan<'a>,
    pub signed_algorithm: RawAlgorithm<'a>,
    pub issuer: RawSpan<'a>,
    pub entries: RawSpan<'a>,
    pub extensions: RawSpan<'a>,
    pub signature_algorithm: RawAlgorithm<'a>,
    pub signature: RawBits<'a>,
    pub this_update: i64,
    pub next_update: i64,
    pub version: u8,
    pub has_next_update: bool,
    pub has_entries: bool,
    pub has_extensions: bool,
}

impl RawRevocationList<'_> {
    pub const EMPTY: Self = RawRevocationList {
        signed_part: RawSpan::EMPTY,
        signed_algorithm: RawAlgorithm::EMPTY,
        issuer: RawSpan::EMPTY,
        entries: RawSpan::EMPTY,
        extensions: RawSpan::EMPTY,
        signature_algorithm: RawAlgorithm::EMPTY,
        signature: RawBits::EMPTY,
        this_update: 0,
        next_update: 0,
        version: 0,
        has_next_update: false,
        has_entries: false,
        has_extensions: false,
    };
}

#[repr(C)]
#[derive(Clone, Copy)]
pub struct RawRevoked<'a> {
    pub serial_number: RawSpan<'a>,
    pub extensions: RawSpan<'a>,
    pub revocation_date: i64,
    pub has_extensions: bool,
}

impl RawRevoked<'_> {
    pub const EMPTY: Self = RawRevoked {
        serial_number: RawSpan::EMPTY,
        extensions: RawSpan::EMPTY,
        revocation_date: 0,
        has_extensions: false,
    };
}

#[repr(C)]
#[derive(Clone, Copy)]
pub struct RawNames<'a> {
    pub names: RawSpan<'a>,
    pub present: bool,
    pub critical: bool,
}

impl RawNames<'_> {
    pub const EMPTY: Self = RawNames {
        names: RawSpan::EMPTY,
        present: false,
        critical: false,
    };
}

#[repr(C)]
#[derive(Clone, Copy)]
pub struct RawText<'a> {
    pub octets: *const u8,
    pub length: usize,
    pub string_type: u64,
    pub borrow: PhantomData<&'a [u8]>,
}

impl RawText<'_> {
    pub const EMPTY: Self = RawText {
        octets: core::ptr::NonNull::dangling().as_ptr(),
        length: 0,
        string_type: 0x0C,
        borrow: PhantomData,
    };
}

#[repr(C)]
#[derive(Clone, Copy, Default, PartialEq, Eq, Hash, Debug)]
pub struct RawTime {
    pub seconds: i64,
    pub year: u16,
    pub month: u8,
    pub day: u8,
    pub hour: u8,
    pub minute: u8,
    pub second: u8,
}

#[repr(C)]
#[derive(Clone, Copy)]
pub struct RawBits<'a> {
    pub octets: *const u8,
    pub length: usize,
    pub unused: u8,
    pub borrow: PhantomData<&'a [u8]>,
}

impl RawBits<'_> {
    pub const EMPTY: Self = RawBits {
        octets: core::ptr::NonNull::dangling().as_ptr(),
        length: 0,
        unused: 0,
        borrow: PhantomData,
    };
}

#[repr(C)]
#[derive(Clone, Copy, Default, PartialEq, Eq, Hash, Debug)]
pub struct RawCounter {
    pub innermost: usize,
    pub count: u32,
    pub failed: bool,
}

#[repr(C)]
#[derive(Clone, Copy)]
pub struct RawElement<'a> {
    pub contents: *const u8,
    pub length: usize,
    pub tag: u64,
    pub start: u32,
    pub contents_start: u32,
    pub constructed: bool,
    pub indefinite: bool,
    pub borrow: PhantomData<&'a [u8]>,
}

impl RawElement<'_> {
    pub const EMPTY: Self = RawElement {
        contents: core::ptr::NonNull::dangling().as_ptr(),
        length: 0,
        tag: 0,
        start: 0,
        contents_start: 0,
        constructed: false,
        indefinite: false,
        borrow: PhantomData,
    };
}

#[repr(C)]
#[derive(Clone, Copy, Default, PartialEq, Eq, Hash, Debug)]
pub struct RawError {
    pub kind: u8,
    pub has_position: bool,
    pub expected: u8,
    pub actual: u8,
    pub position: u32,
    pub first: u32,
    pub second: u32,
}

#[repr(C)]
#[derive(Clone, Copy, Default, PartialEq, Eq, Hash, Debug)]
pub struct RawHeader {
    pub tag: u64,
    pub length: u32,
    pub constructed: bool,
    pub indefinite: bool,
}

#[repr(C)]
#[derive(Clone, Copy, Default, PartialEq, Eq, Hash, Debug)]
pub struct RawMark {
    pub start: usize,
    pub outer: usize,
}

#[repr(C)]
#[derive(Clone, Copy)]
pub struct RawReader<'a> {
    pub octets: *const u8,
    pub length: usize,
    pub position: usize,
    pub end: u32,
    pub depth: u8,
    pub ber: bool,
    pub failed: bool,
    pub borrow: PhantomData<&'a [u8]>,
}

impl RawReader<'_> {
    pub const EMPTY: Self = RawReader {
        octets: core::ptr::NonNull::dangling().as_ptr(),
        length: 0,
        position: 0,
        end: 0,
        depth: 0,
        ber: false,
        failed: false,
        borrow: PhantomData,
    };
}

#[repr(C)]
#[derive(Clone, Copy)]
pub struct RawSpan<'a> {
    pub octets: *const u8,
    pub length: usize,
    pub borrow: PhantomData<&'a [u8]>,
}

impl RawSpan<'_> {
    pub const EMPTY: Self = RawSpan {
        octets: core::ptr::NonNull::dangling().as_ptr(),
        length: 0,
        borrow: PhantomData,
    };
}

/// An element of a tree. Positions are in octets from the start of the input.
#[repr(C)]
#[derive(Clone, Copy, Default, PartialEq, Eq, Hash, Debug)]
pub struct Node {
    /// The tag word, `der_tag` in C: the first octet of the identifier, plus 256 times the tag
    /// number if the number is 31 or more.
    pub tag: u64,
    /// The position at which the header begins.
    pub start: u32,
    /// The position at which the contents begin.
    pub contents_start: u32,
    /// The position at which the contents end, before any end-of-contents octets.
    pub end: u32,
    /// The number of elements of the tree that enclose this element. It is 0 for an outermost
    /// element.
    pub depth: u8,
    /// Whether the constructed bit of the identifier is set.
    pub constructed: bool,
    /// Whether the length was read in the indefinite form.
    pub indefinite: bool,
}

#[repr(C)]
pub struct RawWriter<'a> {
    pub octets: *mut u8,
    pub length: usize,
    pub position: usize,
    pub innermost: usize,
    pub failed: bool,
    pub borrow: PhantomData<&'a mut [u8]>,
}

impl RawWriter<'_> {
    pub const EMPTY: Self = RawWriter {
        octets: core::ptr::NonNull::dangling().as_ptr(),
        length: 0,
        position: 0,
        innermost: 0,
        failed: false,
        borrow: PhantomData,
    };
}

// The layouts that the library was compiled for.
const _: () = {
    use core::mem::{offset_of, size_of};
    assert!(size_of::<RawTreeFound>() == 40);
    assert!(offset_of!(RawTreeFound, departures) == 8);
    assert!(offset_of!(RawTreeFound, lost) == 16);
    assert!(offset_of!(RawTreeFound, listed) == 24);
    assert!(offset_of!(RawTreeFound, verdict) == 32);
    assert!(size_of::<RawPemBlock>() == 32);
    assert!(offset_of!(RawPemBlock, label_length) == 8);
    assert!(offset_of!(RawPemBlock, line) == 16);
    assert!(offset_of!(RawPemBlock, length) == 24);
    assert!(size_of::<RawPemReader>() == 32);
    assert!(offset_of!(RawPemReader, length) == 8);
    assert!(offset_of!(RawPemReader, position) == 16);
    assert!(offset_of!(RawPemReader, line) == 24);
    assert!(size_of::<RawAccessDescription>() == 80);
    assert!(offset_of!(RawAccessDescription, location) == 16);
    assert!(size_of::<RawAlgorithm>() == 40);
    assert!(offset_of!(RawAlgorithm, parameters) == 16);
    assert!(size_of::<RawAny>() == 24);
    assert!(offset_of!(RawAny, tag) == 16);
    assert!(size_of::<RawCertificateParts>() == 112);
    assert!(offset_of!(RawCertificateParts, signature_algorithm) == 16);
    assert!(offset_of!(RawCertificateParts, issuer) == 32);
    assert!(offset_of!(RawCertificateParts, validity) == 48);
    assert!(offset_of!(RawCertificateParts, subject) == 64);
    assert!(offset_of!(RawCertificateParts, public_key) == 80);
    assert!(offset_of!(RawCertificateParts, extensions) == 96);
    assert!(size_of::<RawAttribute>() == 40);
    assert!(offset_of!(RawAttribute, value) == 16);
    assert!(size_of::<RawAuthorityKey>() == 56);
    assert!(offset_of!(RawAuthorityKey, issuer) == 16);
    assert!(offset_of!(RawAuthorityKey, serial_number) == 32);
    assert!(offset_of!(RawAuthorityKey, present) == 48);
    assert!(offset_of!(RawAuthorityKey, critical) == 49);
    assert!(offset_of!(RawAuthorityKey, has_key_identifier) == 50);
    assert!(offset_of!(RawAuthorityKey, has_issuer) == 51);
    assert!(offset_of!(RawAuthorityKey, has_serial_number) == 52);
    assert!(size_of::<RawConstraints>() == 16);
    assert!(offset_of!(RawConstraints, present) == 8);
    assert!(offset_of!(RawConstraints, critical) == 9);
    assert!(offset_of!(RawConstraints, is_authority) == 10);
    assert!(offset_of!(RawConstraints, has_path_length) == 11);
    assert!(size_of::<RawCertificate>() == 336);
    assert!(offset_of!(RawCertificate, serial_number) == 16);
    assert!(offset_of!(RawCertificate, issuer) == 32);
    assert!(offset_of!(RawCertificate, subject) == 48);
    assert!(offset_of!(RawCertificate, signed_algorithm) == 64);
    assert!(offset_of!(RawCertificate, public_key) == 104);
    assert!(offset_of!(RawCertificate, issuer_unique_id) == 184);
    assert!(offset_of!(RawCertificate, subject_unique_id) == 208);
    assert!(offset_of!(RawCertificate, extensions) == 232);
    assert!(offset_of!(RawCertificate, signature_algorithm) == 248);
    assert!(offset_of!(RawCertificate, signature) == 288);
    assert!(offset_of!(RawCertificate, not_before) == 312);
    assert!(offset_of!(RawCertificate, not_after) == 320);
    assert!(offset_of!(RawCertificate, version) == 328);
    assert!(offset_of!(RawCertificate, has_issuer_unique_id) == 329);
    assert!(offset_of!(RawCertificate, has_subject_unique_id) == 330);
    assert!(offset_of!(RawCertificate, has_extensions) == 331);
    assert!(size_of::<RawDistributionPoint>() == 56);
    assert!(offset_of!(RawDistributionPoint, relative_name) == 16);
    assert!(offset_of!(RawDistributionPoint, list_issuer) == 32);
    assert!(offset_of!(RawDistributionPoint, reasons) == 48);
    assert!(offset_of!(RawDistributionPoint, has_full_name) == 50);
    assert!(offset_of!(RawDistributionPoint, has_relative_name) == 51);
    assert!(offset_of!(RawDistributionPoint, has_reasons) == 52);
    assert!(offset_of!(RawDistributionPoint, has_list_issuer) == 53);
    assert!(size_of::<RawExtension>() == 40);
    assert!(offset_of!(RawExtension, value) == 16);
    assert!(offset_of!(RawExtension, critical) == 32);
    assert!(size_of::<RawFound>() == 24);
    assert!(offset_of!(RawFound, present) == 16);
    assert!(offset_of!(RawFound, critical) == 17);
    assert!(size_of::<RawGeneralName>() == 64);
    assert!(offset_of!(RawGeneralName, identifier) == 16);
    assert!(offset_of!(RawGeneralName, value) == 32);
    assert!(offset_of!(RawGeneralName, kind) == 56);
    assert!(size_of::<RawUsage>() == 4);
    assert!(offset_of!(RawUsage, present) == 2);
    assert!(offset_of!(RawUsage, critical) == 3);
    assert!(size_of::<RawPrivateKey>() == 104);
    assert!(offset_of!(RawPrivateKey, key) == 40);
    assert!(offset_of!(RawPrivateKey, attributes) == 56);
    assert!(offset_of!(RawPrivateKey, public_key) == 72);
    assert!(offset_of!(RawPrivateKey, version) == 96);
    assert!(offset_of!(RawPrivateKey, has_attributes) == 97);
    assert!(offset_of!(RawPrivateKey, has_public_key) == 98);
    assert!(size_of::<RawPublicKey>() == 80);
    assert!(offset_of!(RawPublicKey, algorithm) == 16);
    assert!(offset_of!(RawPublicKey, key) == 56);
    assert!(size_of::<RawRequest>() == 192);
    assert!(offset_of!(RawRequest, subject) == 16);
    assert!(offset_of!(RawRequest, public_key) == 32);
    assert!(offset_of!(RawRequest, attributes) == 112);
    assert!(offset_of!(RawRequest, signature_algorithm) == 128);
    assert!(offset_of!(RawRequest, signature) == 168);
    assert!(size_of::<RawRevocationList>() == 192);
    assert!(offset_of!(RawRevocationList, signed_algorithm) == 16);
    assert!(offset_of!(RawRevocationList, issuer) == 56);
    assert!(offset_of!(RawRevocationList, entries) == 72);
    assert!(offset_of!(RawRevocationList, extensions) == 88);
    assert!(offset_of!(RawRevocationList, signature_algorithm) == 104);
    assert!(offset_of!(RawRevocationList, signature) == 144);
    assert!(offset_of!(RawRevocationList, this_update) == 168);
    assert!(offset_of!(RawRevocationList, next_update) == 176);
    assert!(offset_of!(RawRevocationList, version) == 184);
    assert!(offset_of!(RawRevocationList, has_next_update) == 185);
    assert!(offset_of!(RawRevocationList, has_entries) == 186);
    assert!(offset_of!(RawRevocationList, has_extensions) == 187);
    assert!(size_of::<RawRevoked>() == 48);
    assert!(offset_of!(RawRevoked, extensions) == 16);
    assert!(offset_of!(RawRevoked, revocation_date) == 32);
    assert!(offset_of!(RawRevoked, has_extensions) == 40);
    assert!(size_of::<RawNames>() == 24);
    assert!(offset_of!(RawNames, present) == 16);
    assert!(offset_of!(RawNames, critical) == 17);
    assert!(size_of::<RawText>() == 24);
    assert!(offset_of!(RawText, length) == 8);
    assert!(offset_of!(RawText, string_type) == 16);
    assert!(size_of::<RawTime>() == 16);
    assert!(offset_of!(RawTime, year) == 8);
    assert!(offset_of!(RawTime, month) == 10);
    assert!(offset_of!(RawTime, day) == 11);
    assert!(offset_of!(RawTime, hour) == 12);
    assert!(offset_of!(RawTime, minute) == 13);
    assert!(offset_of!(RawTime, second) == 14);
    assert!(size_of::<RawBits>() == 24);
    assert!(offset_of!(RawBits, length) == 8);
    assert!(offset_of!(RawBits, unused) == 16);
    assert!(size_of::<RawCounter>() == 16);
    assert!(offset_of!(RawCounter, count) == 8);
    assert!(offset_of!(RawCounter, failed) == 12);
    assert!(size_of::<RawElement>() == 40);
    assert!(offset_of!(RawElement, length) == 8);
    assert!(offset_of!(RawElement, tag) == 16);
    assert!(offset_of!(RawElement, start) == 24);
    assert!(offset_of!(RawElement, contents_start) == 28);
    assert!(offset_of!(RawElement, constructed) == 32);
    assert!(offset_of!(RawElement, indefinite) == 33);
    assert!(size_of::<RawError>() == 16);
    assert!(offset_of!(RawError, has_position) == 1);
    assert!(offset_of!(RawError, expected) == 2);
    assert!(offset_of!(RawError, actual) == 3);
    assert!(offset_of!(RawError, position) == 4);
    assert!(offset_of!(RawError, first) == 8);
    assert!(offset_of!(RawError, second) == 12);
    assert!(size_of::<RawHeader>() == 16);
    assert!(offset_of!(RawHeader, length) == 8);
    assert!(offset_of!(RawHeader, constructed) == 12);
    assert!(offset_of!(RawHeader, indefinite) == 13);
    assert!(size_of::<RawMark>() == 16);
    assert!(offset_of!(RawMark, outer) == 8);
    assert!(size_of::<RawReader>() == 32);
    assert!(offset_of!(RawReader, length) == 8);
    assert!(offset_of!(RawReader, position) == 16);
    assert!(offset_of!(RawReader, end) == 24);
    assert!(offset_of!(RawReader, depth) == 28);
    assert!(offset_of!(RawReader, ber) == 29);
    assert!(offset_of!(RawReader, failed) == 30);
    assert!(size_of::<RawSpan>() == 16);
    assert!(offset_of!(RawSpan, length) == 8);
    assert!(size_of::<Node>() == 24);
    assert!(offset_of!(Node, start) == 8);
    assert!(offset_of!(Node, contents_start) == 12);
    assert!(offset_of!(Node, end) == 16);
    assert!(offset_of!(Node, depth) == 20);
    assert!(offset_of!(Node, constructed) == 21);
    assert!(offset_of!(Node, indefinite) == 22);
    assert!(size_of::<RawWriter>() == 40);
    assert!(offset_of!(RawWriter, length) == 8);
    assert!(offset_of!(RawWriter, position) == 16);
    assert!(offset_of!(RawWriter, innermost) == 24);
    assert!(offset_of!(RawWriter, failed) == 32);
};
