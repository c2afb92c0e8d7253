//! The tests of policies of NIST's PKITS, with its results. Written by tools/path_policies.
use path_rules::{ANY_POLICY, Mapping, PolicyFacts, PolicyInputs};

const P1: &[u8] = &[0x60, 0x86, 0x48, 0x01, 0x65, 0x03, 0x02, 0x01, 0x30, 0x01];
const P2: &[u8] = &[0x60, 0x86, 0x48, 0x01, 0x65, 0x03, 0x02, 0x01, 0x30, 0x02];
const P3: &[u8] = &[0x60, 0x86, 0x48, 0x01, 0x65, 0x03, 0x02, 0x01, 0x30, 0x03];
const P4: &[u8] = &[0x60, 0x86, 0x48, 0x01, 0x65, 0x03, 0x02, 0x01, 0x30, 0x06];
const P5: &[u8] = &[0x60, 0x86, 0x48, 0x01, 0x65, 0x03, 0x02, 0x01, 0x30, 0x04];
const P6: &[u8] = &[0x60, 0x86, 0x48, 0x01, 0x65, 0x03, 0x02, 0x01, 0x30, 0x05];
const P7: &[u8] = &[0x60, 0x86, 0x48, 0x01, 0x65, 0x03, 0x02, 0x01, 0x30, 0x07];
const P8: &[u8] = &[0x60, 0x86, 0x48, 0x01, 0x65, 0x03, 0x02, 0x01, 0x30, 0x08];
// GoodCACert.crt
const C0: PolicyFacts<'static> = PolicyFacts { policies: &[P1], mappings: &[], require_explicit: None, inhibit_mapping: None, inhibit_any: None, is_self_issued: false };
// ValidCertificatePathTest1EE.crt
const C1: PolicyFacts<'static> = PolicyFacts { policies: &[P1], mappings: &[], require_explicit: None, inhibit_mapping: None, inhibit_any: None, is_self_issued: false };
// NoPoliciesCACert.crt
const C2: PolicyFacts<'static> = PolicyFacts { policies: &[], mappings: &[], require_explicit: None, inhibit_mapping: None, inhibit_any: None, is_self_issued: false };
// AllCertificatesNoPoliciesTest2EE.crt
const C3: PolicyFacts<'static> = PolicyFacts { policies: &[], mappings: &[], require_explicit: None, inhibit_mapping: None, inhibit_any: None, is_self_issued: false };
// PoliciesP2subCACert.crt
const C4: PolicyFacts<'static> = PolicyFacts { policies: &[P2], mappings: &[], require_explicit: None, inhibit_mapping: None, inhibit_any: None, is_self_issued: false };
// DifferentPoliciesTest3EE.crt
const C5: PolicyFacts<'static> = PolicyFacts { policies: &[P2], mappings: &[], require_explicit: None, inhibit_mapping: None, inhibit_any: None, is_self_issued: false };
// GoodsubCACert.crt
const C6: PolicyFacts<'static> = PolicyFacts { policies: &[P1], mappings: &[], require_explicit: Some(0), inhibit_mapping: None, inhibit_any: None, is_self_issued: false };
// DifferentPoliciesTest4EE.crt
const C7: PolicyFacts<'static> = PolicyFacts { policies: &[P2], mappings: &[], require_explicit: None, inhibit_mapping: None, inhibit_any: None, is_self_issued: false };
// PoliciesP2subCA2Cert.crt
const C8: PolicyFacts<'static> = PolicyFacts { policies: &[P2], mappings: &[], require_explicit: Some(0), inhibit_mapping: None, inhibit_any: None, is_self_issued: false };
// DifferentPoliciesTest5EE.crt
const C9: PolicyFacts<'static> = PolicyFacts { policies: &[P1], mappings: &[], require_explicit: None, inhibit_mapping: None, inhibit_any: None, is_self_issued: false };
// PoliciesP1234CACert.crt
const C10: PolicyFacts<'static> = PolicyFacts { policies: &[P1, P2, P3, P5], mappings: &[], require_explicit: Some(0), inhibit_mapping: None, inhibit_any: None, is_self_issued: false };
// PoliciesP1234subCAP123Cert.crt
const C11: PolicyFacts<'static> = PolicyFacts { policies: &[P1, P2, P3], mappings: &[], require_explicit: None, inhibit_mapping: None, inhibit_any: None, is_self_issued: false };
// PoliciesP1234subsubCAP123P12Cert.crt
const C12: PolicyFacts<'static> = PolicyFacts { policies: &[P1, P2], mappings: &[], require_explicit: None, inhibit_mapping: None, inhibit_any: None, is_self_issued: false };
// OverlappingPoliciesTest6EE.crt
const C13: PolicyFacts<'static> = PolicyFacts { policies: &[P1], mappings: &[], require_explicit: None, inhibit_mapping: None, inhibit_any: None, is_self_issued: false };
// PoliciesP123CACert.crt
const C14: PolicyFacts<'static> = PolicyFacts { policies: &[P1, P2, P3], mappings: &[], require_explicit: Some(0), inhibit_mapping: None, inhibit_any: None, is_self_issued: false };
// PoliciesP123subCAP12Cert.crt
const C15: PolicyFacts<'static> = PolicyFacts { policies: &[P1, P2], mappings: &[], require_explicit: None, inhibit_mapping: None, inhibit_any: None, is_self_issued: false };
// PoliciesP123subsubCAP12P1Cert.crt
const C16: PolicyFacts<'static> = PolicyFacts { policies: &[P1], mappings: &[], require_explicit: None, inhibit_mapping: None, inhibit_any: None, is_self_issued: false };
// DifferentPoliciesTest7EE.crt
const C17: PolicyFacts<'static> = PolicyFacts { policies: &[P2], mappings: &[], require_explicit: None, inhibit_mapping: None, inhibit_any: None, is_self_issued: false };
// PoliciesP12CACert.crt
const C18: PolicyFacts<'static> = PolicyFacts { policies: &[P1, P2], mappings: &[], require_explicit: Some(0), inhibit_mapping: None, inhibit_any: None, is_self_issued: false };
// PoliciesP12subCAP1Cert.crt
const C19: PolicyFacts<'static> = PolicyFacts { policies: &[P1], mappings: &[], require_explicit: None, inhibit_mapping: None, inhibit_any: None, is_self_issued: false };
// PoliciesP12subsubCAP1P2Cert.crt
const C20: PolicyFacts<'static> = PolicyFacts { policies: &[P2], mappings: &[], require_explicit: None, inhibit_mapping: None, inhibit_any: None, is_self_issued: false };
// DifferentPoliciesTest8EE.crt
const C21: PolicyFacts<'static> = PolicyFacts { policies: &[P2], mappings: &[], require_explicit: None, inhibit_mapping: None, inhibit_any: None, is_self_issued: false };
// PoliciesP123subsubCAP12P2Cert.crt
const C22: PolicyFacts<'static> = PolicyFacts { policies: &[P2], mappings: &[], require_explicit: None, inhibit_mapping: None, inhibit_any: None, is_self_issued: false };
// PoliciesP123subsubsubCAP12P2P1Cert.crt
const C23: PolicyFacts<'static> = PolicyFacts { policies: &[P1], mappings: &[], require_explicit: None, inhibit_mapping: None, inhibit_any: None, is_self_issued: false };
// DifferentPoliciesTest9EE.crt
const C24: PolicyFacts<'static> = PolicyFacts { policies: &[P1], mappings: &[], require_explicit: None, inhibit_mapping: None, inhibit_any: None, is_self_issued: false };
// AllCertificatesSamePoliciesTest10EE.crt
const C25: PolicyFacts<'static> = PolicyFacts { policies: &[P1, P2], mappings: &[], require_explicit: None, inhibit_mapping: None, inhibit_any: None, is_self_issued: false };
// anyPolicyCACert.crt
const C26: PolicyFacts<'static> = PolicyFacts { policies: &[&ANY_POLICY], mappings: &[], require_explicit: Some(0), inhibit_mapping: None, inhibit_any: None, is_self_issued: false };
// AllCertificatesanyPolicyTest11EE.crt
const C27: PolicyFacts<'static> = PolicyFacts { policies: &[&ANY_POLICY], mappings: &[], require_explicit: None, inhibit_mapping: None, inhibit_any: None, is_self_issued: false };
// PoliciesP3CACert.crt
const C28: PolicyFacts<'static> = PolicyFacts { policies: &[P3], mappings: &[], require_explicit: Some(0), inhibit_mapping: None, inhibit_any: None, is_self_issued: false };
// DifferentPoliciesTest12EE.crt
const C29: PolicyFacts<'static> = PolicyFacts { policies: &[P5], mappings: &[], require_explicit: None, inhibit_mapping: None, inhibit_any: None, is_self_issued: false };
// AllCertificatesSamePoliciesTest13EE.crt
const C30: PolicyFacts<'static> = PolicyFacts { policies: &[P1, P2, P3], mappings: &[], require_explicit: None, inhibit_mapping: None, inhibit_any: None, is_self_issued: false };
// AnyPolicyTest14EE.crt
const C31: PolicyFacts<'static> = PolicyFacts { policies: &[P1], mappings: &[], require_explicit: None, inhibit_mapping: None, inhibit_any: None, is_self_issued: false };
// UserNoticeQualifierTest15EE.crt
const C32: PolicyFacts<'static> = PolicyFacts { policies: &[P1], mappings: &[], require_explicit: None, inhibit_mapping: None, inhibit_any: None, is_self_issued: false };
// UserNoticeQualifierTest16EE.crt
const C33: PolicyFacts<'static> = PolicyFacts { policies: &[P1, P2], mappings: &[], require_explicit: None, inhibit_mapping: None, inhibit_any: None, is_self_issued: false };
// UserNoticeQualifierTest17EE.crt
const C34: PolicyFacts<'static> = PolicyFacts { policies: &[&ANY_POLICY], mappings: &[], require_explicit: None, inhibit_mapping: None, inhibit_any: None, is_self_issued: false };
// UserNoticeQualifierTest18EE.crt
const C35: PolicyFacts<'static> = PolicyFacts { policies: &[P1, &ANY_POLICY], mappings: &[], require_explicit: None, inhibit_mapping: None, inhibit_any: None, is_self_issued: false };
// UserNoticeQualifierTest19EE.crt
const C36: PolicyFacts<'static> = PolicyFacts { policies: &[P1], mappings: &[], require_explicit: None, inhibit_mapping: None, inhibit_any: None, is_self_issued: false };
// CPSPointerQualifierTest20EE.crt
const C37: PolicyFacts<'static> = PolicyFacts { policies: &[P1], mappings: &[], require_explicit: None, inhibit_mapping: None, inhibit_any: None, is_self_issued: false };
// requireExplicitPolicy10CACert.crt
const C38: PolicyFacts<'static> = PolicyFacts { policies: &[P1], mappings: &[], require_explicit: Some(10), inhibit_mapping: None, inhibit_any: None, is_self_issued: false };
// requireExplicitPolicy10subCACert.crt
const C39: PolicyFacts<'static> = PolicyFacts { policies: &[P1], mappings: &[], require_explicit: None, inhibit_mapping: None, inhibit_any: None, is_self_issued: false };
// requireExplicitPolicy10subsubCACert.crt
const C40: PolicyFacts<'static> = PolicyFacts { policies: &[P1], mappings: &[], require_explicit: None, inhibit_mapping: None, inhibit_any: None, is_self_issued: false };
// requireExplicitPolicy10subsubsubCACert.crt
const C41: PolicyFacts<'static> = PolicyFacts { policies: &[P1], mappings: &[], require_explicit: None, inhibit_mapping: None, inhibit_any: None, is_self_issued: false };
// ValidrequireExplicitPolicyTest1EE.crt
const C42: PolicyFacts<'static> = PolicyFacts { policies: &[], mappings: &[], require_explicit: None, inhibit_mapping: None, inhibit_any: None, is_self_issued: false };
// requireExplicitPolicy5CACert.crt
const C43: PolicyFacts<'static> = PolicyFacts { policies: &[P1], mappings: &[], require_explicit: Some(5), inhibit_mapping: None, inhibit_any: None, is_self_issued: false };
// requireExplicitPolicy5subCACert.crt
const C44: PolicyFacts<'static> = PolicyFacts { policies: &[P1], mappings: &[], require_explicit: None, inhibit_mapping: None, inhibit_any: None, is_self_issued: false };
// requireExplicitPolicy5subsubCACert.crt
const C45: PolicyFacts<'static> = PolicyFacts { policies: &[P1], mappings: &[], require_explicit: None, inhibit_mapping: None, inhibit_any: None, is_self_issued: false };
// requireExplicitPolicy5subsubsubCACert.crt
const C46: PolicyFacts<'static> = PolicyFacts { policies: &[P1], mappings: &[], require_explicit: None, inhibit_mapping: None, inhibit_any: None, is_self_issued: false };
// ValidrequireExplicitPolicyTest2EE.crt
const C47: PolicyFacts<'static> = PolicyFacts { policies: &[], mappings: &[], require_explicit: None, inhibit_mapping: None, inhibit_any: None, is_self_issued: false };
// requireExplicitPolicy4CACert.crt
const C48: PolicyFacts<'static> = PolicyFacts { policies: &[P1], mappings: &[], require_explicit: Some(4), inhibit_mapping: None, inhibit_any: None, is_self_issued: false };
// requireExplicitPolicy4subCACert.crt
const C49: PolicyFacts<'static> = PolicyFacts { policies: &[P1], mappings: &[], require_explicit: None, inhibit_mapping: None, inhibit_any: None, is_self_issued: false };
// requireExplicitPolicy4subsubCACert.crt
const C50: PolicyFacts<'static> = PolicyFacts { policies: &[P1], mappings: &[], require_explicit: None, inhibit_mapping: None, inhibit_any: None, is_self_issued: false };
// requireExplicitPolicy4subsubsubCACert.crt
const C51: PolicyFacts<'static> = PolicyFacts { policies: &[P1], mappings: &[], require_explicit: None, inhibit_mapping: None, inhibit_any: None, is_self_issued: false };
// InvalidrequireExplicitPolicyTest3EE.crt
const C52: PolicyFacts<'static> = PolicyFacts { policies: &[], mappings: &[], require_explicit: None, inhibit_mapping: None, inhibit_any: None, is_self_issued: false };
// requireExplicitPolicy0CACert.crt
const C53: PolicyFacts<'static> = PolicyFacts { policies: &[P1], mappings: &[], require_explicit: Some(0), inhibit_mapping: None, inhibit_any: None, is_self_issued: false };
// requireExplicitPolicy0subCACert.crt
const C54: PolicyFacts<'static> = PolicyFacts { policies: &[P1], mappings: &[], require_explicit: None, inhibit_mapping: None, inhibit_any: None, is_self_issued: false };
// requireExplicitPolicy0subsubCACert.crt
const C55: PolicyFacts<'static> = PolicyFacts { policies: &[P1], mappings: &[], require_explicit: None, inhibit_mapping: None, inhibit_any: None, is_self_issued: false };
// requireExplicitPolicy0subsubsubCACert.crt
const C56: PolicyFacts<'static> = PolicyFacts { policies: &[P1], mappings: &[], require_explicit: None, inhibit_mapping: None, inhibit_any: None, is_self_issued: false };
// ValidrequireExplicitPolicyTest4EE.crt
const C57: PolicyFacts<'static> = PolicyFacts { policies: &[P1], mappings: &[], require_explicit: None, inhibit_mapping: None, inhibit_any: None, is_self_issued: false };
// requireExplicitPolicy7CACert.crt
const C58: PolicyFacts<'static> = PolicyFacts { policies: &[P1], mappings: &[], require_explicit: Some(7), inhibit_mapping: None, inhibit_any: None, is_self_issued: false };
// requireExplicitPolicy7subCARE2Cert.crt
const C59: PolicyFacts<'static> = PolicyFacts { policies: &[P1], mappings: &[], require_explicit: Some(2), inhibit_mapping: None, inhibit_any: None, is_self_issued: false };
// requireExplicitPolicy7subsubCARE2RE4Cert.crt
const C60: PolicyFacts<'static> = PolicyFacts { policies: &[P1], mappings: &[], require_explicit: Some(4), inhibit_mapping: None, inhibit_any: None, is_self_issued: false };
// requireExplicitPolicy7subsubsubCARE2RE4Cert.crt
const C61: PolicyFacts<'static> = PolicyFacts { policies: &[P1], mappings: &[], require_explicit: None, inhibit_mapping: None, inhibit_any: None, is_self_issued: false };
// InvalidrequireExplicitPolicyTest5EE.crt
const C62: PolicyFacts<'static> = PolicyFacts { policies: &[], mappings: &[], require_explicit: None, inhibit_mapping: None, inhibit_any: None, is_self_issued: false };
// requireExplicitPolicy2CACert.crt
const C63: PolicyFacts<'static> = PolicyFacts { policies: &[P1], mappings: &[], require_explicit: Some(2), inhibit_mapping: None, inhibit_any: None, is_self_issued: false };
// requireExplicitPolicy2SelfIssuedCACert.crt
const C64: PolicyFacts<'static> = PolicyFacts { policies: &[P1], mappings: &[], require_explicit: None, inhibit_mapping: None, inhibit_any: None, is_self_issued: true };
// ValidSelfIssuedrequireExplicitPolicyTest6EE.crt
const C65: PolicyFacts<'static> = PolicyFacts { policies: &[], mappings: &[], require_explicit: None, inhibit_mapping: None, inhibit_any: None, is_self_issued: false };
// requireExplicitPolicy2subCACert.crt
const C66: PolicyFacts<'static> = PolicyFacts { policies: &[P1], mappings: &[], require_explicit: None, inhibit_mapping: None, inhibit_any: None, is_self_issued: false };
// InvalidSelfIssuedrequireExplicitPolicyTest7EE.crt
const C67: PolicyFacts<'static> = PolicyFacts { policies: &[], mappings: &[], require_explicit: None, inhibit_mapping: None, inhibit_any: None, is_self_issued: false };
// requireExplicitPolicy2SelfIssuedsubCACert.crt
const C68: PolicyFacts<'static> = PolicyFacts { policies: &[P1], mappings: &[], require_explicit: None, inhibit_mapping: None, inhibit_any: None, is_self_issued: true };
// InvalidSelfIssuedrequireExplicitPolicyTest8EE.crt
const C69: PolicyFacts<'static> = PolicyFacts { policies: &[], mappings: &[], require_explicit: None, inhibit_mapping: None, inhibit_any: None, is_self_issued: false };
// Mapping1to2CACert.crt
const C70: PolicyFacts<'static> = PolicyFacts { policies: &[P1], mappings: &[Mapping { issuer: P1, subject: P2 }], require_explicit: Some(0), inhibit_mapping: None, inhibit_any: None, is_self_issued: false };
// ValidPolicyMappingTest1EE.crt
const C71: PolicyFacts<'static> = PolicyFacts { policies: &[P2], mappings: &[], require_explicit: None, inhibit_mapping: None, inhibit_any: None, is_self_issued: false };
// InvalidPolicyMappingTest2EE.crt
const C72: PolicyFacts<'static> = PolicyFacts { policies: &[P1], mappings: &[], require_explicit: None, inhibit_mapping: None, inhibit_any: None, is_self_issued: false };
// P12Mapping1to3CACert.crt
const C73: PolicyFacts<'static> = PolicyFacts { policies: &[P1, P2], mappings: &[Mapping { issuer: P1, subject: P3 }], require_explicit: Some(0), inhibit_mapping: None, inhibit_any: None, is_self_issued: false };
// P12Mapping1to3subCACert.crt
const C74: PolicyFacts<'static> = PolicyFacts { policies: &[P2, P6], mappings: &[Mapping { issuer: P2, subject: P5 }, Mapping { issuer: P6, subject: P7 }], require_explicit: None, inhibit_mapping: None, inhibit_any: None, is_self_issued: false };
// P12Mapping1to3subsubCACert.crt
const C75: PolicyFacts<'static> = PolicyFacts { policies: &[P3, P5], mappings: &[Mapping { issuer: P5, subject: P8 }], require_explicit: None, inhibit_mapping: None, inhibit_any: None, is_self_issued: false };
// ValidPolicyMappingTest3EE.crt
const C76: PolicyFacts<'static> = PolicyFacts { policies: &[P8], mappings: &[], require_explicit: None, inhibit_mapping: None, inhibit_any: None, is_self_issued: false };
// InvalidPolicyMappingTest4EE.crt
const C77: PolicyFacts<'static> = PolicyFacts { policies: &[P3], mappings: &[], require_explicit: None, inhibit_mapping: None, inhibit_any: None, is_self_issued: false };
// P1Mapping1to234CACert.crt
const C78: PolicyFacts<'static> = PolicyFacts { policies: &[P1], mappings: &[Mapping { issuer: P1, subject: P2 }, Mapping { issuer: P1, subject: P3 }, Mapping { issuer: P1, subject: P5 }], require_explicit: Some(0), inhibit_mapping: None, inhibit_any: None, is_self_issued: false };
// P1Mapping1to234subCACert.crt
const C79: PolicyFacts<'static> = PolicyFacts { policies: &[P2, P5], mappings: &[Mapping { issuer: P2, subject: P6 }, Mapping { issuer: P5, subject: P4 }], require_explicit: None, inhibit_mapping: None, inhibit_any: None, is_self_issued: false };
// ValidPolicyMappingTest5EE.crt
const C80: PolicyFacts<'static> = PolicyFacts { policies: &[P4], mappings: &[], require_explicit: None, inhibit_mapping: None, inhibit_any: None, is_self_issued: false };
// ValidPolicyMappingTest6EE.crt
const C81: PolicyFacts<'static> = PolicyFacts { policies: &[P6], mappings: &[], require_explicit: None, inhibit_mapping: None, inhibit_any: None, is_self_issued: false };
// MappingFromanyPolicyCACert.crt
const C82: PolicyFacts<'static> = PolicyFacts { policies: &[&ANY_POLICY], mappings: &[Mapping { issuer: &ANY_POLICY, subject: P1 }], require_explicit: Some(0), inhibit_mapping: None, inhibit_any: None, is_self_issued: false };
// InvalidMappingFromanyPolicyTest7EE.crt
const C83: PolicyFacts<'static> = PolicyFacts { policies: &[P1], mappings: &[], require_explicit: None, inhibit_mapping: None, inhibit_any: None, is_self_issued: false };
// MappingToanyPolicyCACert.crt
const C84: PolicyFacts<'static> = PolicyFacts { policies: &[P1], mappings: &[Mapping { issuer: P1, subject: &ANY_POLICY }], require_explicit: Some(0), inhibit_mapping: None, inhibit_any: None, is_self_issued: false };
// InvalidMappingToanyPolicyTest8EE.crt
const C85: PolicyFacts<'static> = PolicyFacts { policies: &[&ANY_POLICY], mappings: &[], require_explicit: None, inhibit_mapping: None, inhibit_any: None, is_self_issued: false };
// PanyPolicyMapping1to2CACert.crt
const C86: PolicyFacts<'static> = PolicyFacts { policies: &[&ANY_POLICY], mappings: &[Mapping { issuer: P1, subject: P2 }], require_explicit: Some(0), inhibit_mapping: None, inhibit_any: None, is_self_issued: false };
// ValidPolicyMappingTest9EE.crt
const C87: PolicyFacts<'static> = PolicyFacts { policies: &[P1], mappings: &[], require_explicit: None, inhibit_mapping: None, inhibit_any: None, is_self_issued: false };
// GoodsubCAPanyPolicyMapping1to2CACert.crt
const C88: PolicyFacts<'static> = PolicyFacts { policies: &[&ANY_POLICY], mappings: &[Mapping { issuer: P1, subject: P2 }], require_explicit: Some(0), inhibit_mapping: None, inhibit_any: None, is_self_issued: false };
// InvalidPolicyMappingTest10EE.crt
const C89: PolicyFacts<'static> = PolicyFacts { policies: &[P1], mappings: &[], require_explicit: None, inhibit_mapping: None, inhibit_any: None, is_self_issued: false };
// ValidPolicyMappingTest11EE.crt
const C90: PolicyFacts<'static> = PolicyFacts { policies: &[P2], mappings: &[], require_explicit: None, inhibit_mapping: None, inhibit_any: None, is_self_issued: false };
// ValidPolicyMappingTest12EE.crt
const C91: PolicyFacts<'static> = PolicyFacts { policies: &[P3, &ANY_POLICY], mappings: &[], require_explicit: None, inhibit_mapping: None, inhibit_any: None, is_self_issued: false };
// P1anyPolicyMapping1to2CACert.crt
const C92: PolicyFacts<'static> = PolicyFacts { policies: &[P1, &ANY_POLICY], mappings: &[Mapping { issuer: P1, subject: P2 }], require_explicit: Some(0), inhibit_mapping: None, inhibit_any: None, is_self_issued: false };
// ValidPolicyMappingTest13EE.crt
const C93: PolicyFacts<'static> = PolicyFacts { policies: &[P2], mappings: &[], require_explicit: None, inhibit_mapping: None, inhibit_any: None, is_self_issued: false };
// ValidPolicyMappingTest14EE.crt
const C94: PolicyFacts<'static> = PolicyFacts { policies: &[P1], mappings: &[], require_explicit: None, inhibit_mapping: None, inhibit_any: None, is_self_issued: false };
// inhibitPolicyMapping0CACert.crt
const C95: PolicyFacts<'static> = PolicyFacts { policies: &[P1], mappings: &[], require_explicit: Some(0), inhibit_mapping: Some(0), inhibit_any: None, is_self_issued: false };
// inhibitPolicyMapping0subCACert.crt
const C96: PolicyFacts<'static> = PolicyFacts { policies: &[P1], mappings: &[Mapping { issuer: P1, subject: P2 }], require_explicit: None, inhibit_mapping: None, inhibit_any: None, is_self_issued: false };
// InvalidinhibitPolicyMappingTest1EE.crt
const C97: PolicyFacts<'static> = PolicyFacts { policies: &[P1, P2], mappings: &[], require_explicit: None, inhibit_mapping: None, inhibit_any: None, is_self_issued: false };
// inhibitPolicyMapping1P12CACert.crt
const C98: PolicyFacts<'static> = PolicyFacts { policies: &[P1, P2], mappings: &[], require_explicit: Some(0), inhibit_mapping: Some(1), inhibit_any: None, is_self_issued: false };
// inhibitPolicyMapping1P12subCACert.crt
const C99: PolicyFacts<'static> = PolicyFacts { policies: &[P1, P2], mappings: &[Mapping { issuer: P1, subject: P3 }, Mapping { issuer: P2, subject: P5 }], require_explicit: None, inhibit_mapping: None, inhibit_any: None, is_self_issued: false };
// ValidinhibitPolicyMappingTest2EE.crt
const C100: PolicyFacts<'static> = PolicyFacts { policies: &[P3], mappings: &[], require_explicit: None, inhibit_mapping: None, inhibit_any: None, is_self_issued: false };
// inhibitPolicyMapping1P12subsubCACert.crt
const C101: PolicyFacts<'static> = PolicyFacts { policies: &[P3, P5], mappings: &[Mapping { issuer: P3, subject: P6 }], require_explicit: None, inhibit_mapping: None, inhibit_any: None, is_self_issued: false };
// InvalidinhibitPolicyMappingTest3EE.crt
const C102: PolicyFacts<'static> = PolicyFacts { policies: &[P6], mappings: &[], require_explicit: None, inhibit_mapping: None, inhibit_any: None, is_self_issued: false };
// ValidinhibitPolicyMappingTest4EE.crt
const C103: PolicyFacts<'static> = PolicyFacts { policies: &[P5], mappings: &[], require_explicit: None, inhibit_mapping: None, inhibit_any: None, is_self_issued: false };
// inhibitPolicyMapping5CACert.crt
const C104: PolicyFacts<'static> = PolicyFacts { policies: &[P1], mappings: &[], require_explicit: Some(0), inhibit_mapping: Some(5), inhibit_any: None, is_self_issued: false };
// inhibitPolicyMapping5subCACert.crt
const C105: PolicyFacts<'static> = PolicyFacts { policies: &[P1], mappings: &[], require_explicit: None, inhibit_mapping: Some(1), inhibit_any: None, is_self_issued: false };
// inhibitPolicyMapping5subsubCACert.crt
const C106: PolicyFacts<'static> = PolicyFacts { policies: &[P1], mappings: &[], require_explicit: None, inhibit_mapping: None, inhibit_any: None, is_self_issued: false };
// inhibitPolicyMapping5subsubsubCACert.crt
const C107: PolicyFacts<'static> = PolicyFacts { policies: &[P1], mappings: &[Mapping { issuer: P1, subject: P2 }], require_explicit: None, inhibit_mapping: None, inhibit_any: None, is_self_issued: false };
// InvalidinhibitPolicyMappingTest5EE.crt
const C108: PolicyFacts<'static> = PolicyFacts { policies: &[P2], mappings: &[], require_explicit: None, inhibit_mapping: None, inhibit_any: None, is_self_issued: false };
// inhibitPolicyMapping1P12subCAIPM5Cert.crt
const C109: PolicyFacts<'static> = PolicyFacts { policies: &[P1, P2], mappings: &[], require_explicit: None, inhibit_mapping: Some(5), inhibit_any: None, is_self_issued: false };
// inhibitPolicyMapping1P12subsubCAIPM5Cert.crt
const C110: PolicyFacts<'static> = PolicyFacts { policies: &[P1, P2], mappings: &[Mapping { issuer: P1, subject: P3 }], require_explicit: None, inhibit_mapping: None, inhibit_any: None, is_self_issued: false };
// InvalidinhibitPolicyMappingTest6EE.crt
const C111: PolicyFacts<'static> = PolicyFacts { policies: &[P3], mappings: &[], require_explicit: None, inhibit_mapping: None, inhibit_any: None, is_self_issued: false };
// inhibitPolicyMapping1P1CACert.crt
const C112: PolicyFacts<'static> = PolicyFacts { policies: &[P1], mappings: &[], require_explicit: Some(0), inhibit_mapping: Some(1), inhibit_any: None, is_self_issued: false };
// inhibitPolicyMapping1P1SelfIssuedCACert.crt
const C113: PolicyFacts<'static> = PolicyFacts { policies: &[P1], mappings: &[], require_explicit: None, inhibit_mapping: None, inhibit_any: None, is_self_issued: true };
// inhibitPolicyMapping1P1subCACert.crt
const C114: PolicyFacts<'static> = PolicyFacts { policies: &[P1], mappings: &[Mapping { issuer: P1, subject: P2 }], require_explicit: None, inhibit_mapping: None, inhibit_any: None, is_self_issued: false };
// ValidSelfIssuedinhibitPolicyMappingTest7EE.crt
const C115: PolicyFacts<'static> = PolicyFacts { policies: &[P2], mappings: &[], require_explicit: None, inhibit_mapping: None, inhibit_any: None, is_self_issued: false };
// inhibitPolicyMapping1P1subsubCACert.crt
const C116: PolicyFacts<'static> = PolicyFacts { policies: &[P2], mappings: &[Mapping { issuer: P2, subject: P3 }], require_explicit: None, inhibit_mapping: None, inhibit_any: None, is_self_issued: false };
// InvalidSelfIssuedinhibitPolicyMappingTest8EE.crt
const C117: PolicyFacts<'static> = PolicyFacts { policies: &[P3], mappings: &[], require_explicit: None, inhibit_mapping: None, inhibit_any: None, is_self_issued: false };
// InvalidSelfIssuedinhibitPolicyMappingTest9EE.crt
const C118: PolicyFacts<'static> = PolicyFacts { policies: &[P2], mappings: &[], require_explicit: None, inhibit_mapping: None, inhibit_any: None, is_self_issued: false };
// inhibitPolicyMapping1P1SelfIssuedsubCACert.crt
const C119: PolicyFacts<'static> = PolicyFacts { policies: &[P2], mappings: &[Mapping { issuer: P2, subject: P3 }], require_explicit: None, inhibit_mapping: None, inhibit_any: None, is_self_issued: true };
// InvalidSelfIssuedinhibitPolicyMappingTest10EE.crt
const C120: PolicyFacts<'static> = PolicyFacts { policies: &[P3], mappings: &[], require_explicit: None, inhibit_mapping: None, inhibit_any: None, is_self_issued: false };
// InvalidSelfIssuedinhibitPolicyMappingTest11EE.crt
const C121: PolicyFacts<'static> = PolicyFacts { policies: &[P2], mappings: &[], require_explicit: None, inhibit_mapping: None, inhibit_any: None, is_self_issued: false };
// inhibitAnyPolicy0CACert.crt
const C122: PolicyFacts<'static> = PolicyFacts { policies: &[P1], mappings: &[], require_explicit: Some(0), inhibit_mapping: None, inhibit_any: Some(0), is_self_issued: false };
// InvalidinhibitAnyPolicyTest1EE.crt
const C123: PolicyFacts<'static> = PolicyFacts { policies: &[&ANY_POLICY], mappings: &[], require_explicit: None, inhibit_mapping: None, inhibit_any: None, is_self_issued: false };
// ValidinhibitAnyPolicyTest2EE.crt
const C124: PolicyFacts<'static> = PolicyFacts { policies: &[&ANY_POLICY, P1], mappings: &[], require_explicit: None, inhibit_mapping: None, inhibit_any: None, is_self_issued: false };
// inhibitAnyPolicy1CACert.crt
const C125: PolicyFacts<'static> = PolicyFacts { policies: &[P1], mappings: &[], require_explicit: Some(0), inhibit_mapping: None, inhibit_any: Some(1), is_self_issued: false };
// inhibitAnyPolicy1subCA1Cert.crt
const C126: PolicyFacts<'static> = PolicyFacts { policies: &[&ANY_POLICY], mappings: &[], require_explicit: None, inhibit_mapping: None, inhibit_any: None, is_self_issued: false };
// inhibitAnyPolicyTest3EE.crt
const C127: PolicyFacts<'static> = PolicyFacts { policies: &[P1], mappings: &[], require_explicit: None, inhibit_mapping: None, inhibit_any: None, is_self_issued: false };
// InvalidinhibitAnyPolicyTest4EE.crt
const C128: PolicyFacts<'static> = PolicyFacts { policies: &[&ANY_POLICY], mappings: &[], require_explicit: None, inhibit_mapping: None, inhibit_any: None, is_self_issued: false };
// inhibitAnyPolicy5CACert.crt
const C129: PolicyFacts<'static> = PolicyFacts { policies: &[P1], mappings: &[], require_explicit: Some(0), inhibit_mapping: None, inhibit_any: Some(5), is_self_issued: false };
// inhibitAnyPolicy5subCACert.crt
const C130: PolicyFacts<'static> = PolicyFacts { policies: &[P1], mappings: &[], require_explicit: None, inhibit_mapping: None, inhibit_any: Some(1), is_self_issued: false };
// inhibitAnyPolicy5subsubCACert.crt
const C131: PolicyFacts<'static> = PolicyFacts { policies: &[P1], mappings: &[], require_explicit: None, inhibit_mapping: None, inhibit_any: None, is_self_issued: false };
// InvalidinhibitAnyPolicyTest5EE.crt
const C132: PolicyFacts<'static> = PolicyFacts { policies: &[&ANY_POLICY], mappings: &[], require_explicit: None, inhibit_mapping: None, inhibit_any: None, is_self_issued: false };
// inhibitAnyPolicy1subCAIAP5Cert.crt
const C133: PolicyFacts<'static> = PolicyFacts { policies: &[P1], mappings: &[], require_explicit: None, inhibit_mapping: None, inhibit_any: Some(5), is_self_issued: false };
// InvalidinhibitAnyPolicyTest6EE.crt
const C134: PolicyFacts<'static> = PolicyFacts { policies: &[&ANY_POLICY], mappings: &[], require_explicit: None, inhibit_mapping: None, inhibit_any: None, is_self_issued: false };
// inhibitAnyPolicy1SelfIssuedCACert.crt
const C135: PolicyFacts<'static> = PolicyFacts { policies: &[P1], mappings: &[], require_explicit: None, inhibit_mapping: None, inhibit_any: None, is_self_issued: true };
// inhibitAnyPolicy1subCA2Cert.crt
const C136: PolicyFacts<'static> = PolicyFacts { policies: &[&ANY_POLICY], mappings: &[], require_explicit: None, inhibit_mapping: None, inhibit_any: None, is_self_issued: false };
// ValidSelfIssuedinhibitAnyPolicyTest7EE.crt
const C137: PolicyFacts<'static> = PolicyFacts { policies: &[P1], mappings: &[], require_explicit: None, inhibit_mapping: None, inhibit_any: None, is_self_issued: false };
// inhibitAnyPolicy1subsubCA2Cert.crt
const C138: PolicyFacts<'static> = PolicyFacts { policies: &[&ANY_POLICY], mappings: &[], require_explicit: None, inhibit_mapping: None, inhibit_any: None, is_self_issued: false };
// InvalidSelfIssuedinhibitAnyPolicyTest8EE.crt
const C139: PolicyFacts<'static> = PolicyFacts { policies: &[P1], mappings: &[], require_explicit: None, inhibit_mapping: None, inhibit_any: None, is_self_issued: false };
// inhibitAnyPolicy1SelfIssuedsubCA2Cert.crt
const C140: PolicyFacts<'static> = PolicyFacts { policies: &[&ANY_POLICY], mappings: &[], require_explicit: None, inhibit_mapping: None, inhibit_any: None, is_self_issued: true };
// ValidSelfIssuedinhibitAnyPolicyTest9EE.crt
const C141: PolicyFacts<'static> = PolicyFacts { policies: &[P1], mappings: &[], require_explicit: None, inhibit_mapping: None, inhibit_any: None, is_self_issued: false };
// InvalidSelfIssuedinhibitAnyPolicyTest10EE.crt
const C142: PolicyFacts<'static> = PolicyFacts { policies: &[&ANY_POLICY], mappings: &[], require_explicit: None, inhibit_mapping: None, inhibit_any: None, is_self_issued: true };

// The name of a part of a test, the path below the trust anchor, what is asked, and whether NIST calls the path valid.
pub type Case = (&'static str, &'static [PolicyFacts<'static>], PolicyInputs<'static>, bool);

static CASES_0: [Case; 30] = [
    ("4.8.1 All Certificates Same Policy Test1 (Subpart 1)", &[C0, C1], PolicyInputs { allowed: &[&ANY_POLICY], inhibits_mapping: false, requires_explicit: true, inhibits_any: false }, true),
    ("4.8.1 All Certificates Same Policy Test1 (Subpart 2)", &[C0, C1], PolicyInputs { allowed: &[P1], inhibits_mapping: false, requires_explicit: true, inhibits_any: false }, true),
    ("4.8.1 All Certificates Same Policy Test1 (Subpart 3)", &[C0, C1], PolicyInputs { allowed: &[P2], inhibits_mapping: false, requires_explicit: true, inhibits_any: false }, false),
    ("4.8.1 All Certificates Same Policy Test1 (Subpart 4)", &[C0, C1], PolicyInputs { allowed: &[P1, P2], inhibits_mapping: false, requires_explicit: true, inhibits_any: false }, true),
    ("4.8.2 All Certificates No Policies Test2 (Subpart 1)", &[C2, C3], PolicyInputs { allowed: &[&ANY_POLICY], inhibits_mapping: false, requires_explicit: false, inhibits_any: false }, true),
    ("4.8.2 All Certificates No Policies Test2 (Subpart 2)", &[C2, C3], PolicyInputs { allowed: &[&ANY_POLICY], inhibits_mapping: false, requires_explicit: true, inhibits_any: false }, false),
    ("4.8.3 Different Policies Test3 (Subpart 1)", &[C0, C4, C5], PolicyInputs { allowed: &[&ANY_POLICY], inhibits_mapping: false, requires_explicit: false, inhibits_any: false }, true),
    ("4.8.3 Different Policies Test3 (Subpart 2)", &[C0, C4, C5], PolicyInputs { allowed: &[&ANY_POLICY], inhibits_mapping: false, requires_explicit: true, inhibits_any: false }, false),
    ("4.8.3 Different Policies Test3 (Subpart 3)", &[C0, C4, C5], PolicyInputs { allowed: &[P1, P2], inhibits_mapping: false, requires_explicit: true, inhibits_any: false }, false),
    ("4.8.4 Different Policies Test4", &[C0, C6, C7], PolicyInputs { allowed: &[&ANY_POLICY], inhibits_mapping: false, requires_explicit: false, inhibits_any: false }, false),
    ("4.8.5 Different Policies Test5", &[C0, C8, C9], PolicyInputs { allowed: &[&ANY_POLICY], inhibits_mapping: false, requires_explicit: false, inhibits_any: false }, false),
    ("4.8.6 Overlapping Policies Test6 (Subpart 1)", &[C10, C11, C12, C13], PolicyInputs { allowed: &[&ANY_POLICY], inhibits_mapping: false, requires_explicit: false, inhibits_any: false }, true),
    ("4.8.6 Overlapping Policies Test6 (Subpart 2)", &[C10, C11, C12, C13], PolicyInputs { allowed: &[P1], inhibits_mapping: false, requires_explicit: false, inhibits_any: false }, true),
    ("4.8.6 Overlapping Policies Test6 (Subpart 3)", &[C10, C11, C12, C13], PolicyInputs { allowed: &[P2], inhibits_mapping: false, requires_explicit: false, inhibits_any: false }, false),
    ("4.8.7 Different Policies Test7", &[C14, C15, C16, C17], PolicyInputs { allowed: &[&ANY_POLICY], inhibits_mapping: false, requires_explicit: false, inhibits_any: false }, false),
    ("4.8.8 Different Policies Test8", &[C18, C19, C20, C21], PolicyInputs { allowed: &[&ANY_POLICY], inhibits_mapping: false, requires_explicit: false, inhibits_any: false }, false),
    ("4.8.9 Different Policies Test9", &[C14, C15, C22, C23, C24], PolicyInputs { allowed: &[&ANY_POLICY], inhibits_mapping: false, requires_explicit: false, inhibits_any: false }, false),
    ("4.8.10 All Certificates Same Policies Test10 (Subpart 1)", &[C18, C25], PolicyInputs { allowed: &[&ANY_POLICY], inhibits_mapping: false, requires_explicit: false, inhibits_any: false }, true),
    ("4.8.10 All Certificates Same Policies Test10 (Subpart 2)", &[C18, C25], PolicyInputs { allowed: &[P1], inhibits_mapping: false, requires_explicit: false, inhibits_any: false }, true),
    ("4.8.10 All Certificates Same Policies Test10 (Subpart 3)", &[C18, C25], PolicyInputs { allowed: &[P2], inhibits_mapping: false, requires_explicit: false, inhibits_any: false }, true),
    ("4.8.11 All Certificates AnyPolicy Test11 (Subpart 1)", &[C26, C27], PolicyInputs { allowed: &[&ANY_POLICY], inhibits_mapping: false, requires_explicit: false, inhibits_any: false }, true),
    ("4.8.11 All Certificates AnyPolicy Test11 (Subpart 2)", &[C26, C27], PolicyInputs { allowed: &[P1], inhibits_mapping: false, requires_explicit: false, inhibits_any: false }, true),
    ("4.8.12 Different Policies Test12", &[C28, C29], PolicyInputs { allowed: &[&ANY_POLICY], inhibits_mapping: false, requires_explicit: false, inhibits_any: false }, false),
    ("4.8.13 All Certificates Same Policies Test13 (Subpart 1)", &[C14, C30], PolicyInputs { allowed: &[P1], inhibits_mapping: false, requires_explicit: false, inhibits_any: false }, true),
    ("4.8.13 All Certificates Same Policies Test13 (Subpart 2)", &[C14, C30], PolicyInputs { allowed: &[P2], inhibits_mapping: false, requires_explicit: false, inhibits_any: false }, true),
    ("4.8.13 All Certificates Same Policies Test13 (Subpart 3)", &[C14, C30], PolicyInputs { allowed: &[P3], inhibits_mapping: false, requires_explicit: false, inhibits_any: false }, true),
    ("4.8.14 AnyPolicy Test14 (Subpart 1)", &[C26, C31], PolicyInputs { allowed: &[P1], inhibits_mapping: false, requires_explicit: false, inhibits_any: false }, true),
    ("4.8.14 AnyPolicy Test14 (Subpart 2)", &[C26, C31], PolicyInputs { allowed: &[P2], inhibits_mapping: false, requires_explicit: false, inhibits_any: false }, false),
    ("4.8.15 User Notice Qualifier Test15", &[C32], PolicyInputs { allowed: &[&ANY_POLICY], inhibits_mapping: false, requires_explicit: false, inhibits_any: false }, true),
    ("4.8.16 User Notice Qualifier Test16", &[C0, C33], PolicyInputs { allowed: &[&ANY_POLICY], inhibits_mapping: false, requires_explicit: false, inhibits_any: false }, true),
];

static CASES_1: [Case; 30] = [
    ("4.8.17 User Notice Qualifier Test17", &[C0, C34], PolicyInputs { allowed: &[&ANY_POLICY], inhibits_mapping: false, requires_explicit: false, inhibits_any: false }, true),
    ("4.8.18 User Notice Qualifier Test18 (Subpart 1)", &[C18, C35], PolicyInputs { allowed: &[P1], inhibits_mapping: false, requires_explicit: false, inhibits_any: false }, true),
    ("4.8.18 User Notice Qualifier Test18 (Subpart 2)", &[C18, C35], PolicyInputs { allowed: &[P2], inhibits_mapping: false, requires_explicit: false, inhibits_any: false }, true),
    ("4.8.19 User Notice Qualifier Test19", &[C36], PolicyInputs { allowed: &[&ANY_POLICY], inhibits_mapping: false, requires_explicit: false, inhibits_any: false }, true),
    ("4.8.20 CPS Pointer Qualifier Test20", &[C0, C37], PolicyInputs { allowed: &[P1], inhibits_mapping: false, requires_explicit: true, inhibits_any: false }, true),
    ("4.9.1 Valid RequireExplicitPolicy Test1", &[C38, C39, C40, C41, C42], PolicyInputs { allowed: &[&ANY_POLICY], inhibits_mapping: false, requires_explicit: false, inhibits_any: false }, true),
    ("4.9.2 Valid RequireExplicitPolicy Test2", &[C43, C44, C45, C46, C47], PolicyInputs { allowed: &[&ANY_POLICY], inhibits_mapping: false, requires_explicit: false, inhibits_any: false }, true),
    ("4.9.3 Invalid RequireExplicitPolicy Test3", &[C48, C49, C50, C51, C52], PolicyInputs { allowed: &[&ANY_POLICY], inhibits_mapping: false, requires_explicit: false, inhibits_any: false }, false),
    ("4.9.4 Valid RequireExplicitPolicy Test4", &[C53, C54, C55, C56, C57], PolicyInputs { allowed: &[&ANY_POLICY], inhibits_mapping: false, requires_explicit: false, inhibits_any: false }, true),
    ("4.9.5 Invalid RequireExplicitPolicy Test5", &[C58, C59, C60, C61, C62], PolicyInputs { allowed: &[&ANY_POLICY], inhibits_mapping: false, requires_explicit: false, inhibits_any: false }, false),
    ("4.9.6 Valid Self-Issued requireExplicitPolicy Test6", &[C63, C64, C65], PolicyInputs { allowed: &[&ANY_POLICY], inhibits_mapping: false, requires_explicit: false, inhibits_any: false }, true),
    ("4.9.7 Invalid Self-Issued requireExplicitPolicy Test7", &[C63, C64, C66, C67], PolicyInputs { allowed: &[&ANY_POLICY], inhibits_mapping: false, requires_explicit: false, inhibits_any: false }, false),
    ("4.9.8 Invalid Self-Issued requireExplicitPolicy Test8", &[C63, C64, C66, C68, C69], PolicyInputs { allowed: &[&ANY_POLICY], inhibits_mapping: false, requires_explicit: false, inhibits_any: false }, false),
    ("4.10.1.1 Valid Policy Mapping Test1 (Subpart 1)", &[C70, C71], PolicyInputs { allowed: &[P1], inhibits_mapping: false, requires_explicit: false, inhibits_any: false }, true),
    ("4.10.1.2 Valid Policy Mapping Test1 (Subpart 2)", &[C70, C71], PolicyInputs { allowed: &[P2], inhibits_mapping: false, requires_explicit: false, inhibits_any: false }, false),
    ("4.10.1.3 Valid Policy Mapping Test1 (Subpart 3)", &[C70, C71], PolicyInputs { allowed: &[&ANY_POLICY], inhibits_mapping: true, requires_explicit: false, inhibits_any: false }, false),
    ("4.10.2 Invalid Policy Mapping Test2 (Subpart 1)", &[C70, C72], PolicyInputs { allowed: &[&ANY_POLICY], inhibits_mapping: false, requires_explicit: false, inhibits_any: false }, false),
    ("4.10.2 Invalid Policy Mapping Test2 (Subpart 2)", &[C70, C72], PolicyInputs { allowed: &[&ANY_POLICY], inhibits_mapping: true, requires_explicit: false, inhibits_any: false }, false),
    ("4.10.3 Valid Policy Mapping Test3 (Subpart 1)", &[C73, C74, C75, C76], PolicyInputs { allowed: &[P1], inhibits_mapping: false, requires_explicit: false, inhibits_any: false }, false),
    ("4.10.3 Valid Policy Mapping Test3 (Subpart 2)", &[C73, C74, C75, C76], PolicyInputs { allowed: &[P2], inhibits_mapping: false, requires_explicit: false, inhibits_any: false }, true),
    ("4.10.4 Invalid Policy Mapping Test4", &[C73, C74, C75, C77], PolicyInputs { allowed: &[&ANY_POLICY], inhibits_mapping: false, requires_explicit: false, inhibits_any: false }, false),
    ("4.10.5 Valid Policy Mapping Test5 (Subpart 1)", &[C78, C79, C80], PolicyInputs { allowed: &[P1], inhibits_mapping: false, requires_explicit: false, inhibits_any: false }, true),
    ("4.10.5 Valid Policy Mapping Test5 (Subpart 2)", &[C78, C79, C80], PolicyInputs { allowed: &[P4], inhibits_mapping: false, requires_explicit: false, inhibits_any: false }, false),
    ("4.10.6 Valid Policy Mapping Test6 (Subpart 1)", &[C78, C79, C81], PolicyInputs { allowed: &[P1], inhibits_mapping: false, requires_explicit: false, inhibits_any: false }, true),
    ("4.10.6 Valid Policy Mapping Test6 (Subpart 2)", &[C78, C79, C81], PolicyInputs { allowed: &[P4], inhibits_mapping: false, requires_explicit: false, inhibits_any: false }, false),
    ("4.10.7 Invalid Mapping From anyPolicy Test7", &[C82, C83], PolicyInputs { allowed: &[&ANY_POLICY], inhibits_mapping: false, requires_explicit: false, inhibits_any: false }, false),
    ("4.10.8 Invalid Mapping To anyPolicy Test8", &[C84, C85], PolicyInputs { allowed: &[&ANY_POLICY], inhibits_mapping: false, requires_explicit: false, inhibits_any: false }, false),
    ("4.10.9 Valid Policy Mapping Test9", &[C86, C87], PolicyInputs { allowed: &[&ANY_POLICY], inhibits_mapping: false, requires_explicit: false, inhibits_any: false }, true),
    ("4.10.10 Invalid Policy Mapping Test10", &[C0, C88, C89], PolicyInputs { allowed: &[&ANY_POLICY], inhibits_mapping: false, requires_explicit: false, inhibits_any: false }, false),
    ("4.10.11 Valid Policy Mapping Test11", &[C0, C88, C90], PolicyInputs { allowed: &[&ANY_POLICY], inhibits_mapping: false, requires_explicit: false, inhibits_any: false }, true),
];

static CASES_2: [Case; 28] = [
    ("4.10.12 Valid Policy Mapping Test12 (Subpart 1)", &[C73, C91], PolicyInputs { allowed: &[P1], inhibits_mapping: false, requires_explicit: false, inhibits_any: false }, true),
    ("4.10.12 Valid Policy Mapping Test12 (Subpart 2)", &[C73, C91], PolicyInputs { allowed: &[P2], inhibits_mapping: false, requires_explicit: false, inhibits_any: false }, true),
    ("4.10.13 Valid Policy Mapping Test13 (Subpart 1)", &[C92, C93], PolicyInputs { allowed: &[&ANY_POLICY], inhibits_mapping: false, requires_explicit: false, inhibits_any: false }, true),
    ("4.10.13 Valid Policy Mapping Test13 (Subpart 2)", &[C92, C93], PolicyInputs { allowed: &[P1, P2], inhibits_mapping: false, requires_explicit: false, inhibits_any: false }, true),
    ("4.10.13 Valid Policy Mapping Test13 (Subpart 3)", &[C92, C93], PolicyInputs { allowed: &[P2], inhibits_mapping: false, requires_explicit: false, inhibits_any: false }, false),
    ("4.10.14 Valid Policy Mapping Test14", &[C92, C94], PolicyInputs { allowed: &[&ANY_POLICY], inhibits_mapping: false, requires_explicit: false, inhibits_any: false }, true),
    ("4.11.1 Invalid inhibitPolicyMapping Test1", &[C95, C96, C97], PolicyInputs { allowed: &[&ANY_POLICY], inhibits_mapping: false, requires_explicit: false, inhibits_any: false }, false),
    ("4.11.2 Valid inhibitPolicyMapping Test2", &[C98, C99, C100], PolicyInputs { allowed: &[&ANY_POLICY], inhibits_mapping: false, requires_explicit: false, inhibits_any: false }, true),
    ("4.11.3 Invalid inhibitPolicyMapping Test3", &[C98, C99, C101, C102], PolicyInputs { allowed: &[&ANY_POLICY], inhibits_mapping: false, requires_explicit: false, inhibits_any: false }, false),
    ("4.11.4 Valid inhibitPolicyMapping Test4", &[C98, C99, C101, C103], PolicyInputs { allowed: &[&ANY_POLICY], inhibits_mapping: false, requires_explicit: false, inhibits_any: false }, true),
    ("4.11.5 Invalid inhibitPolicyMapping Test5", &[C104, C105, C106, C107, C108], PolicyInputs { allowed: &[&ANY_POLICY], inhibits_mapping: false, requires_explicit: false, inhibits_any: false }, false),
    ("4.11.6 Invalid inhibitPolicyMapping Test6", &[C98, C109, C110, C111], PolicyInputs { allowed: &[&ANY_POLICY], inhibits_mapping: false, requires_explicit: false, inhibits_any: false }, false),
    ("4.11.7 Valid Self-Issued inhibitPolicyMapping Test7", &[C112, C113, C114, C115], PolicyInputs { allowed: &[&ANY_POLICY], inhibits_mapping: false, requires_explicit: false, inhibits_any: false }, true),
    ("4.11.8 Invalid Self-Issued inhibitPolicyMapping Test8", &[C112, C113, C114, C116, C117], PolicyInputs { allowed: &[&ANY_POLICY], inhibits_mapping: false, requires_explicit: false, inhibits_any: false }, false),
    ("4.11.9 Invalid Self-Issued inhibitPolicyMapping Test9", &[C112, C113, C114, C116, C118], PolicyInputs { allowed: &[&ANY_POLICY], inhibits_mapping: false, requires_explicit: false, inhibits_any: false }, false),
    ("4.11.10 Invalid Self-Issued inhibitPolicyMapping Test10", &[C112, C113, C114, C119, C120], PolicyInputs { allowed: &[&ANY_POLICY], inhibits_mapping: false, requires_explicit: false, inhibits_any: false }, false),
    ("4.11.11 Invalid Self-Issued inhibitPolicyMapping Test11", &[C112, C113, C114, C119, C121], PolicyInputs { allowed: &[&ANY_POLICY], inhibits_mapping: false, requires_explicit: false, inhibits_any: false }, false),
    ("4.12.1 Invalid inhibitAnyPolicy Test1", &[C122, C123], PolicyInputs { allowed: &[&ANY_POLICY], inhibits_mapping: false, requires_explicit: false, inhibits_any: false }, false),
    ("4.12.2 Valid inhibitAnyPolicy Test2", &[C122, C124], PolicyInputs { allowed: &[&ANY_POLICY], inhibits_mapping: false, requires_explicit: false, inhibits_any: false }, true),
    ("4.12.3 inhibitAnyPolicy Test3 (Subpart 1)", &[C125, C126, C127], PolicyInputs { allowed: &[&ANY_POLICY], inhibits_mapping: false, requires_explicit: false, inhibits_any: false }, true),
    ("4.12.3 inhibitAnyPolicy Test3 (Subpart 2)", &[C125, C126, C127], PolicyInputs { allowed: &[&ANY_POLICY], inhibits_mapping: false, requires_explicit: false, inhibits_any: true }, false),
    ("4.12.4 Invalid inhibitAnyPolicy Test4", &[C125, C126, C128], PolicyInputs { allowed: &[&ANY_POLICY], inhibits_mapping: false, requires_explicit: false, inhibits_any: false }, false),
    ("4.12.5 Invalid inhibitAnyPolicy Test5", &[C129, C130, C131, C132], PolicyInputs { allowed: &[&ANY_POLICY], inhibits_mapping: false, requires_explicit: false, inhibits_any: false }, false),
    ("4.12.6 Invalid inhibitAnyPolicy Test6", &[C125, C133, C134], PolicyInputs { allowed: &[&ANY_POLICY], inhibits_mapping: false, requires_explicit: false, inhibits_any: false }, false),
    ("4.12.7 Valid Self-Issued inhibitAnyPolicy Test7", &[C125, C135, C136, C137], PolicyInputs { allowed: &[&ANY_POLICY], inhibits_mapping: false, requires_explicit: false, inhibits_any: false }, true),
    ("4.12.8 Invalid Self-Issued inhibitAnyPolicy Test8", &[C125, C135, C136, C138, C139], PolicyInputs { allowed: &[&ANY_POLICY], inhibits_mapping: false, requires_explicit: false, inhibits_any: false }, false),
    ("4.12.9 Valid Self-Issued inhibitAnyPolicy Test9", &[C125, C135, C136, C140, C141], PolicyInputs { allowed: &[&ANY_POLICY], inhibits_mapping: false, requires_explicit: false, inhibits_any: false }, true),
    ("4.12.10 Invalid Self-Issued inhibitAnyPolicy Test10", &[C125, C135, C136, C142], PolicyInputs { allowed: &[&ANY_POLICY], inhibits_mapping: false, requires_explicit: false, inhibits_any: false }, false),
];

/// All cases.
pub fn cases() -> [&'static [Case]; 3] {
    [CASES_0.as_slice(), CASES_1.as_slice(), CASES_2.as_slice()]
}
