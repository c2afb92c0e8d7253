//! Several ways to do the same work, measured in alternation over inputs of growing size.
use crate::common::Totals;
use std::hint::black_box;
use std::time::{Duration, Instant};

// Octets before all code, so that each placement puts the code at other addresses.
std::arch::global_asm!(concat!(
    ".section .text.placement,\"axR\",@progbits\n.skip ",
    env!("PLACEMENT"),
    "\n.text"
));

/// The sizes of inputs in octets.
pub const SIZES: [usize; 3] = [16 << 10, 1 << 20, 16 << 20];
/// The minimum number of rounds of a row.
const ROUNDS: usize = 7;
/// The minimum duration of these rounds, as other processes may use the machine for a while.
const WHILE: Duration = Duration::from_secs(1);

/// What does the work of a way.
#[derive(Clone, Copy, PartialEq, Eq)]
pub enum By {
    Library,
    Hand,
    /// The crate `der` 0.8.3.
    Crate,
    Mbedtls,
    /// The library's scan for readers that return no slices.
    Octets,
    /// The library, with types that are written by hand.
    Handwritten,
}

/// The ways that only some rows have, with their names in a line.
const OTHERS: [(By, &str); 4] = [
    (By::Crate, "the crate"),
    (By::Mbedtls, "mbedTLS"),
    (By::Octets, "octet by octet"),
    (By::Handwritten, "handwritten types"),
];

/// A way to do the work; `S` is what it works on in addition to its input, such as octets to write
/// to.
pub struct Way<'a, S> {
    by: By,
    run: Box<dyn Fn(&mut S) -> Totals + 'a>,
}

pub fn way<'a, S>(by: By, run: impl Fn(&mut S) -> Totals + 'a) -> Way<'a, S> {
    Way {
        by,
        run: Box::new(run),
    }
}

/// A row of a table: its name and its size.
pub struct Row {
    pub name: String,
    /// The approximate number of octets that are read or written.
    pub size: usize,
    /// The exact number of octets.
    pub octets: usize,
    /// The number of elements, or of whatever the times are given for.
    pub count: u64,
}

/// The row whose instructions are counted, by its name and its size. No other row runs then.
pub fn counted_row() -> Option<String> {
    std::env::var("COUNTED_ROW").ok()
}

/// Measures the ways, which must all return and write the same, and prints their times and ratios.
/// Of several ways by hand the fastest counts.
pub fn print_row<S: Clone + PartialEq>(row: &Row, ways: &[Way<'_, S>], scratch: &mut S) {
    let name = format!("{}, {}", row.name, size(row.size));
    if let Some(counted) = counted_row() {
        if counted == name {
            run_once(row, ways, scratch);
        }
        return;
    }
    check(row, ways, scratch);
    let least = least_times(row, ways, scratch);
    let [library, by_hand] = [By::Library, By::Hand].map(|by| least[by as usize]);
    print!(
        "{name}: {} of {:.1} octets; library {library:.2} ns, by hand {by_hand:.2} ns, ratio {:.2}",
        row.count,
        row.octets as f64 / row.count as f64,
        library / by_hand,
    );
    for (by, name) in OTHERS {
        let time = least[by as usize];
        if time.is_finite() {
            print!("; {name} {time:.2} ns, ratio {:.2}", library / time);
        }
    }
    println!();
}

/// Runs each way once, and prints the number of what their instructions are counted for.
fn run_once<S>(row: &Row, ways: &[Way<'_, S>], scratch: &mut S) {
    for way in ways {
        black_box((way.run)(black_box(scratch)));
    }
    println!("{}", row.count);
}

/// All ways must return and write the same.
fn check<S: Clone + PartialEq>(row: &Row, ways: &[Way<'_, S>], scratch: &mut S) {
    let clean = scratch.clone();
    let reported = (ways[0].run)(scratch);
    assert_ne!(reported.elements, 0, "{}", row.name);
    // what is reported is what is counted, or groups of equally many
    assert_eq!(row.count % reported.elements, 0, "{}", row.name);
    for way in ways {
        let mut again = clean.clone();
        assert_eq!((way.run)(&mut again), reported, "{}", row.name);
        assert!(again == *scratch, "{}", row.name);
    }
}

/// The minimum time of each way in nanoseconds, infinite without such a way. The rounds alternate,
/// so that all see the same machine.
fn least_times<S>(row: &Row, ways: &[Way<'_, S>], scratch: &mut S) -> [f64; 2 + OTHERS.len()] {
    let mut least = [f64::INFINITY; 2 + OTHERS.len()];
    let begun = Instant::now();
    let mut rounds = 0;
    while rounds < ROUNDS || begun.elapsed() < WHILE {
        for way in ways {
            let start = Instant::now();
            black_box((way.run)(black_box(scratch)));
            let elapsed = start.elapsed().as_nanos() as f64 / row.count as f64;
            let place = &mut least[way.by as usize];
            *place = place.min(elapsed);
        }
        rounds += 1;
    }
    least
}

fn size(octets: usize) -> String {
    if octets < 1 << 20 {
        format!("{} KiB", octets >> 10)
    } else {
        format!("{} MiB", octets >> 20)
    }
}
