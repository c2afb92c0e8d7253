//! Searches in small graphs, beside all lists of candidates that are paths.
use crate::checks::{holds_at, same, same_at};
use crate::path_search::links::{Links, Lists, is_path};
use path_search::{Search, Step};
use std::process::Abort;

const NONE: (usize, usize) = (9, 9);

// The next list that is a path, of at most four candidates.
fn next_path(links: &Links<'_>, lists: &mut Lists, list: &mut [usize; 4]) -> Option<usize> {
    while lists.length < 5 {
        let length = lists.next(list);
        if is_path(links, &list[..length]) {
            return Some(length);
        }
    }
    None
}

// The next answer of a search which may take so many steps in a call.
fn next_found(search: &mut Search, links: &Links<'_>, room: &mut [usize; 4], steps: u64) -> Step {
    loop {
        search.steps = steps;
        match search.next(links, room) {
            Step::StepsUsed => (),
            step => return step,
        }
    }
}

// Compares a search with all lists. After each path whose number is odd the last link of the chain is wrong, until the next one.
fn compare(rt: &impl Abort, links: &[(usize, usize)], steps: u64, changes: bool) -> usize {
    let mut graph = Links { links, target: 4, wrong: NONE };
    let mut search = Search::new(4, 4, 0);
    let mut lists = Lists { count: 4, length: 0, code: 0 };
    let (mut room, mut list, mut count) = ([0; 4], [0; 4], 0);
    loop {
        let wanted = next_path(&graph, &mut lists, &mut list);
        match (next_found(&mut search, &graph, &mut room, steps), wanted) {
            (Step::Path(length), Some(expected)) => same_at(rt, count, &room[..length], &list[..expected]),
            (Step::Ended, None) => return count,
            _ => holds_at(rt, count, false),
        }
        count += 1;
        graph.wrong = NONE;
        if changes && count % 2 == 1 {
            graph.wrong = (5, graph.last(&room[..wanted.unwrap_or(0)]));
        }
    }
}

// All links between four candidates, the certificate, and the anchor.
const ALL: [(usize, usize); 21] = [
    (0, 1), (0, 2), (0, 3), (1, 0), (1, 2), (1, 3), (2, 0), (2, 1), (2, 3), (3, 0), (3, 1), (3, 2), (0, 4), (1, 4), (2, 4), (3, 4), (5, 0), (5, 1), (5, 2), (5, 3), (5, 4),
];

// 1 + 4 + 4 * 3 + 4 * 3 * 2 + 4 * 3 * 2 lists have no candidate twice.
#[test]
fn each_list_is_a_path_where_all_are_linked(rt: HostRuntime) {
    same(&rt, compare(&rt, &ALL, 100, false), 65);
    same(&rt, compare(&rt, &ALL, 1, false), 65);
}

#[test]
fn loops_and_dead_ends_are_left(rt: HostRuntime) {
    same(&rt, compare(&rt, &[(0, 4), (1, 0), (0, 1), (2, 1), (5, 2)], 1, false), 1);
    same(&rt, compare(&rt, &[(0, 4), (1, 0), (0, 1), (1, 1)], 7, false), 0);
    same(&rt, compare(&rt, &[], 7, false), 0);
}

// Some links of all, chosen by the digits of a product.
#[test]
fn searches_find_what_all_lists_have(rt: HostRuntime) {
    let mut found = 0;
    for seed in 1..60u64 {
        let mut state = seed;
        let mut links = [NONE; 21];
        for (at, link) in ALL.iter().enumerate() {
            state = state * 48_271 % 2_147_483_647;
            if state % 3 != 0 {
                links[at] = *link;
            }
        }
        found += compare(&rt, &links, 1 + seed % 5, seed % 2 == 0);
    }
    holds_at(&rt, found, found > 500);
}

#[test]
fn the_depth_and_the_room_are_limits(rt: HostRuntime) {
    let graph = Links { links: &[(0, 4), (1, 0), (5, 1)], target: 4, wrong: NONE };
    let mut room = [0; 4];
    same(&rt, Search::new(4, 1, 100).next(&graph, &mut room), Step::Ended);
    same(&rt, Search::new(4, 2, 100).next(&graph, &mut room), Step::Path(2));
    same(&rt, Search::new(4, 2, 100).next(&graph, &mut room[..1]), Step::NoRoom);
    same(&rt, Search::new(4, 2, 3).next(&graph, &mut room), Step::StepsUsed);
    same(&rt, Search::new(4, 2, 100).next(&Links { wrong: (1, 0), ..graph }, &mut room), Step::Ended);
}
