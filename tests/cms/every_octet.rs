//! Messages that are cut, and messages of which one octet is changed: these are refused, or read
//! and written as they are.
use super::encrypted_octets::{
    AUTH_ENVELOPED, AUTHENTICATED, COMPRESSED, DIGESTED, ENCRYPTED, FOUR_RECIPIENTS, KEY_AGREEMENT,
    KEY_TRANSPORT, ORIGINATOR,
};
use super::signed_octets::{ATTACHED, BY_KEY, CADES, DEGENERATE, TWO};
use super::timestamp_octets::{
    FULL_REQUEST, REJECTED, REJECTED_ALGORITHM, REQUEST, RESPONSE, SHORT_RESPONSE,
};
use crate::checks::holds_at;
use crate::fixtures::changes::{Fate, Form, fate_as, read_changes, refuses_cuts};
use cms::{
    AuthEnvelopedData, AuthenticatedData, CompressedData, ContentInfo, DigestedData, EncryptedData,
    EnvelopedData, SignedData, SigningCertificate, SigningCertificateV2, TimeStampReq,
    TimeStampResp, TstInfo,
};
use std::alloc::Global;
use std::ops::Range;
use std::process::Abort;

impl Form for ContentInfo<'_> {
    fn fate(alloc: Global, octets: &[u8]) -> Fate {
        fate_as::<ContentInfo>(alloc, octets)
    }
}

impl Form for SignedData<'_> {
    fn fate(alloc: Global, octets: &[u8]) -> Fate {
        fate_as::<SignedData>(alloc, octets)
    }
}

impl Form for EnvelopedData<'_> {
    fn fate(alloc: Global, octets: &[u8]) -> Fate {
        fate_as::<EnvelopedData>(alloc, octets)
    }
}

impl Form for AuthEnvelopedData<'_> {
    fn fate(alloc: Global, octets: &[u8]) -> Fate {
        fate_as::<AuthEnvelopedData>(alloc, octets)
    }
}

impl Form for AuthenticatedData<'_> {
    fn fate(alloc: Global, octets: &[u8]) -> Fate {
        fate_as::<AuthenticatedData>(alloc, octets)
    }
}

impl Form for EncryptedData<'_> {
    fn fate(alloc: Global, octets: &[u8]) -> Fate {
        fate_as::<EncryptedData>(alloc, octets)
    }
}

impl Form for DigestedData<'_> {
    fn fate(alloc: Global, octets: &[u8]) -> Fate {
        fate_as::<DigestedData>(alloc, octets)
    }
}

impl Form for CompressedData<'_> {
    fn fate(alloc: Global, octets: &[u8]) -> Fate {
        fate_as::<CompressedData>(alloc, octets)
    }
}

impl Form for SigningCertificate<'_> {
    fn fate(alloc: Global, octets: &[u8]) -> Fate {
        fate_as::<SigningCertificate>(alloc, octets)
    }
}

impl Form for SigningCertificateV2<'_> {
    fn fate(alloc: Global, octets: &[u8]) -> Fate {
        fate_as::<SigningCertificateV2>(alloc, octets)
    }
}

impl Form for TimeStampReq<'_> {
    fn fate(alloc: Global, octets: &[u8]) -> Fate {
        fate_as::<TimeStampReq>(alloc, octets)
    }
}

impl Form for TimeStampResp<'_> {
    fn fate(alloc: Global, octets: &[u8]) -> Fate {
        fate_as::<TimeStampResp>(alloc, octets)
    }
}

impl Form for TstInfo<'_> {
    fn fate(alloc: Global, octets: &[u8]) -> Fate {
        fate_as::<TstInfo>(alloc, octets)
    }
}

// Aborts the test if what begins at a place of the file is read after a cut, or written as
// something else after a change of one octet, or if no change is read.
fn check<F: Form, const N: usize>(
    rt: &(impl Abort + AllocGlobal),
    row: &str,
    file: &[u8; N],
    part: Range<usize>,
) {
    let mut octets = *file;
    let part = &mut octets[part];
    holds_at(rt, row, refuses_cuts::<F>(rt.alloc(), part));
    match read_changes::<F>(rt.alloc(), part) {
        Some(count) => holds_at(rt, row, count > 0),
        None => holds_at(rt, row, false),
    }
}

#[test]
fn signed_messages_are_kept(rt: HostRuntime) {
    check::<SignedData, _>(&rt, "attached", &ATTACHED, 19..616);
    check::<SignedData, _>(&rt, "by key", &BY_KEY, 19..290);
    check::<SignedData, _>(&rt, "two", &TWO, 19..301);
    check::<SignedData, _>(&rt, "degenerate", &DEGENERATE, 19..415);
    check::<SigningCertificateV2, _>(&rt, "by SHA-256", &CADES, 222..285);
    check::<SigningCertificate, _>(&rt, "by SHA-1", &SHORT_RESPONSE, 276..304);
}

#[test]
fn enveloped_messages_are_kept(rt: HostRuntime) {
    check::<ContentInfo, _>(&rt, "content", &KEY_TRANSPORT, 0..260);
    check::<EnvelopedData, _>(&rt, "transport", &KEY_TRANSPORT, 18..260);
    check::<EnvelopedData, _>(&rt, "agreement", &KEY_AGREEMENT, 17..252);
    check::<EnvelopedData, _>(&rt, "four", &FOUR_RECIPIENTS, 19..601);
    check::<EnvelopedData, _>(&rt, "originator", &ORIGINATOR, 17..194);
    check::<AuthEnvelopedData, _>(&rt, "authenticated", &AUTH_ENVELOPED, 19..150);
}

#[test]
fn messages_without_recipients_are_kept(rt: HostRuntime) {
    check::<EncryptedData, _>(&rt, "encrypted", &ENCRYPTED, 15..82);
    check::<DigestedData, _>(&rt, "digested", &DIGESTED, 15..90);
    check::<CompressedData, _>(&rt, "compressed", &COMPRESSED, 17..68);
    check::<AuthenticatedData, _>(&rt, "authenticated", &AUTHENTICATED, 19..196);
}

#[test]
fn timestamps_are_kept(rt: HostRuntime) {
    check::<TimeStampReq, _>(&rt, "request", &REQUEST, 0..56);
    check::<TimeStampReq, _>(&rt, "full request", &FULL_REQUEST, 0..76);
    check::<TimeStampResp, _>(&rt, "response", &RESPONSE, 0..841);
    check::<TimeStampResp, _>(&rt, "rejected", &REJECTED, 0..50);
    check::<TimeStampResp, _>(&rt, "algorithm", &REJECTED_ALGORITHM, 0..57);
    check::<TstInfo, _>(&rt, "timestamp", &RESPONSE, 73..199);
    check::<TstInfo, _>(&rt, "short timestamp", &SHORT_RESPONSE, 71..153);
}
