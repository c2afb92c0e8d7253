//! A scan whose number of turns is proved.

use super::*;
use crate::checks::same;
use test_fixtures::turns::scan_nulls_counted;
use std::marker::Brand;
use std::sync::ledger::Blank;

#[test]
fn three_nulls_take_four_turns(rt: HostRuntime) {
    let answer = scan_nulls_counted::<Brand>(Blank::new(1));
    same(&rt, answer, Ok(Length::new_indefinite(8)));
}
