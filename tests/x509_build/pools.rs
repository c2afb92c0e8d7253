//! Pools of a few certificates, and all paths in them.
use crate::checks::{holds_at, same, same_at};
use crate::x509_build::certificates::{A, A_BY_B, B, B_BY_A, LAST, OLD_A, OTHER, ROOT};
use der_asn1::DateTime;
use path_rules::{Answer, Fault, Rule};
use path_search::Search;
use std::alloc::Global;
use std::process::Abort;
use x509_build::{Built, Link, Pool, judge_chain, link_at, next_path};
use x509_path::{Anchor, Inputs, PathCertificate, no_facts};

const TIME: DateTime = DateTime { year: 2030, month: 1, day: 1, hour: 0, minute: 0, second: 0 };

fn read(rt: &impl Abort, alloc: Global, octets: &'static [u8]) -> PathCertificate<'static> {
    match PathCertificate::from_der(alloc, octets) {
        Ok(certificate) => certificate,
        Err(_) => panic!(rt; "no certificate"),
    }
}

fn anchor(certificate: &PathCertificate<'static>, time: DateTime) -> Inputs<'static> {
    let signed = &certificate.certificate().tbs_certificate;
    let anchor = Anchor { name: signed.subject, key: signed.subject_public_key_info };
    Inputs { time, anchor, judges_policies: false }
}

// OTHER is in no path. The candidate 6 is the trust anchor.
fn all(rt: &impl Abort, alloc: Global) -> [PathCertificate<'static>; 6] {
    [
        read(rt, alloc, &OTHER),
        read(rt, alloc, &B_BY_A),
        read(rt, alloc, &A_BY_B),
        read(rt, alloc, &OLD_A),
        read(rt, alloc, &A),
        read(rt, alloc, &B),
    ]
}

// All paths of a pool, of at most four candidates, in calls of so many steps: their chains.
fn compare(rt: &impl Abort, pool: &Pool<'_, 'static>, steps: u64, expected: &[&[usize]]) {
    let mut search = Search::new(pool.count(), 4, 0);
    let (mut chain, mut path, mut facts) = ([0; 4], [*pool.target; 4], [no_facts(); 4]);
    let mut count = 0;
    loop {
        search.steps = steps;
        match next_path(&mut search, pool, &mut chain, &mut path, &mut facts) {
            Built::StepsUsed => (),
            Built::Path(length) => {
                holds_at(rt, count, count < expected.len());
                same_at(rt, count, &chain[..length], expected[count]);
                holds_at(rt, count, path[length - 1].octets() == pool.target.octets());
                count += 1;
            }
            Built::Ended => break,
            Built::NoRoom => panic!(rt; "no room"),
        }
    }
    same(rt, count, expected.len());
}

#[test]
fn each_path_is_found_once(rt: HostRuntime) {
    let alloc = rt.alloc();
    let (certificates, target, root) = (all(&rt, alloc), read(&rt, alloc, &LAST), read(&rt, alloc, &ROOT));
    let anchors = [anchor(&root, TIME)];
    let pool = Pool { alloc, target: &target, certificates: &certificates, anchors: &anchors, failed: &[] };
    for steps in [1, 2, 7, 1000] {
        compare(&rt, &pool, steps, &[&[4, 6], &[2, 5, 6], &[2, 1, 4, 6]]);
    }
    let old = [anchor(&root, DateTime { year: 2020, ..TIME })];
    compare(&rt, &Pool { anchors: &old, ..pool }, 1000, &[&[3, 6], &[4, 6], &[2, 5, 6], &[2, 1, 3, 6], &[2, 1, 4, 6]]);
    compare(&rt, &Pool { anchors: &[], ..pool }, 1000, &[]);
    compare(&rt, &Pool { certificates: &[], ..pool }, 1000, &[]);
}

#[test]
fn failed_links_are_in_no_path(rt: HostRuntime) {
    let alloc = rt.alloc();
    let (certificates, target, root) = (all(&rt, alloc), read(&rt, alloc, &LAST), read(&rt, alloc, &ROOT));
    let anchors = [anchor(&root, TIME)];
    let failed = [Link { issuer: 4, subject: None }, Link { issuer: 6, subject: Some(5) }];
    let pool = Pool { alloc, target: &target, certificates: &certificates, anchors: &anchors, failed: &failed };
    compare(&rt, &pool, 1000, &[&[2, 1, 4, 6]]);
    compare(&rt, &Pool { failed: &failed[..1], ..pool }, 1000, &[&[2, 5, 6], &[2, 1, 4, 6]]);
    compare(&rt, &Pool { failed: &failed[1..], ..pool }, 1000, &[&[4, 6], &[2, 1, 4, 6]]);
}

// A certificate is in a path once (RFC 5280, 6.1): the root is not issued by its copy.
#[test]
fn no_certificate_is_in_a_path_twice(rt: HostRuntime) {
    let alloc = rt.alloc();
    let root = read(&rt, alloc, &ROOT);
    let (certificates, anchors) = ([root], [anchor(&root, TIME)]);
    let pool = Pool { alloc, target: &root, certificates: &certificates, anchors: &anchors, failed: &[] };
    compare(&rt, &pool, 1000, &[&[1]]);
    let (certificates, target) = ([root, read(&rt, alloc, &A), root], read(&rt, alloc, &LAST));
    compare(&rt, &Pool { certificates: &certificates, target: &target, ..pool }, 1000, &[&[1, 3], &[1, 0, 3], &[1, 2, 3]]);
}

#[test]
fn chains_are_judged_and_rooms_are_limits(rt: HostRuntime) {
    let alloc = rt.alloc();
    let (certificates, target, root) = (all(&rt, alloc), read(&rt, alloc, &LAST), read(&rt, alloc, &ROOT));
    let anchors = [anchor(&root, TIME)];
    let pool = Pool { alloc, target: &target, certificates: &certificates, anchors: &anchors, failed: &[] };
    let (mut chain, mut path, mut facts) = ([0; 4], [target; 4], [no_facts(); 4]);
    same(&rt, judge_chain(&pool, &[4, 6], &mut path, &mut facts), Some(Answer::Valid));
    same(&rt, judge_chain(&pool, &[3, 6], &mut path, &mut facts), Some(Answer::Broken(Fault { at: 0, rule: Rule::Validity })));
    same(&rt, judge_chain(&pool, &[5, 6], &mut path, &mut facts), Some(Answer::Broken(Fault { at: 1, rule: Rule::Chain })));
    same(&rt, judge_chain(&pool, &[4], &mut path, &mut facts), None);
    same(&rt, judge_chain(&pool, &[], &mut path, &mut facts), None);
    same(&rt, judge_chain(&pool, &[4, 7], &mut path, &mut facts), None);
    same(&rt, judge_chain(&pool, &[4, 6], &mut path[..1], &mut facts), None);
    same(&rt, judge_chain(&pool, &[4, 6], &mut path, &mut facts[..1]), None);
    let mut search = Search::new(pool.count(), 4, 1000);
    same(&rt, next_path(&mut search, &pool, &mut chain, &mut path[..3], &mut facts), Built::NoRoom);
    same(&rt, next_path(&mut search, &pool, &mut chain, &mut path, &mut facts[..3]), Built::NoRoom);
    same(&rt, next_path(&mut search, &pool, &mut chain[..3], &mut path, &mut facts), Built::NoRoom);
    same(&rt, next_path(&mut search, &pool, &mut chain, &mut path, &mut facts), Built::Path(2));
}

#[test]
fn links_are_those_of_the_path(rt: HostRuntime) {
    let chain = [2, 5, 6];
    same(&rt, link_at(&chain, 0), Some(Link { issuer: 6, subject: Some(5) }));
    same(&rt, link_at(&chain, 1), Some(Link { issuer: 5, subject: Some(2) }));
    same(&rt, link_at(&chain, 2), Some(Link { issuer: 2, subject: None }));
    same(&rt, link_at(&chain, 3), None);
}
