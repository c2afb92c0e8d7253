//! Writes headers, OCTET STRINGs of eight octets and SEQUENCEs of four of these, with the proved
//! library and by hand. Prints the time for one each.
#[cfg(beside)]
#[path = "writing_beside.rs"]
mod beside;
#[allow(dead_code, reason = "other drivers use the rest")]
mod certificates;
#[allow(dead_code, reason = "as above")]
mod common;
#[allow(dead_code, reason = "as above")]
mod elements;
#[allow(dead_code, reason = "as above")]
mod hand;
mod put;
mod rounds;
#[allow(dead_code, reason = "as above")]
mod written;

use certificates::headers;
use common::{Numbers, Totals};
use rounds::{By, Row, SIZES, Way, print_row, way};
use written::Wanted;

/// A way to write an input to octets.
type Putting<I> = fn(&[I], &mut [u8]) -> Totals;
/// A way to write octets that are inspected and dropped.
type Making = fn(&[u64]) -> Totals;

/// One row: its name, and the ways of the library, by hand and of the crate.
struct Ways<F> {
    name: &'static str,
    library: F,
    by_hand: F,
    by_crate: Option<F>,
}

/// The number of octets that a way writes for this input, at most `most`.
fn octets_of<I>(put: Putting<I>, input: &[I], most: usize) -> usize {
    put(input, &mut vec![0; most]).contents as usize
}

fn print_row_putting<I>(ways: &Ways<Putting<I>>, size: usize, input: &[I], values: u64) {
    let octets = octets_of(ways.by_hand, input, 2 * size);
    let row = Row {
        name: ways.name.to_owned(),
        size,
        octets,
        count: values * input.len() as u64,
    };
    let mut out = vec![0; octets];
    let run = |by, put: Putting<I>| way(by, move |out: &mut Vec<u8>| put(input, out));
    print_row(&row, &all_of(ways, run), &mut out);
}

fn print_row_making(ways: &Ways<Making>, size: usize, numbers: &[u64]) {
    let row = Row {
        name: ways.name.to_owned(),
        size,
        octets: 10 * numbers.len(),
        count: numbers.len() as u64,
    };
    let run = |by, make: Making| way(by, move |()| make(numbers));
    print_row(&row, &all_of(ways, run), &mut ());
}

fn all_of<'a, F: Copy, S>(ways: &Ways<F>, run: impl Fn(By, F) -> Way<'a, S>) -> Vec<Way<'a, S>> {
    let mut all = vec![run(By::Library, ways.library), run(By::Hand, ways.by_hand)];
    all.extend(ways.by_crate.map(|it| run(By::Crate, it)));
    all
}

/// The way of the crate, if the driver is built with it.
macro_rules! beside {
    ($name:ident) => {{
        #[cfg(beside)]
        let way = Some(beside::$name as _);
        #[cfg(not(beside))]
        let way = None;
        way
    }};
}

fn print_row_headers(wanted: usize) {
    let of_certificates = headers(1 << 20);
    let wanted_headers: Vec<Wanted> = of_certificates
        .iter()
        .cycle()
        .map(|&(first, len)| Wanted::new(first, len))
        .take(wanted * 4 / 9)
        .collect();
    let headers = Ways {
        name: "headers of certificates",
        library: written::headers as Putting<Wanted>,
        by_hand: put::headers,
        by_crate: beside!(headers),
    };
    print_row_putting(&headers, wanted, &wanted_headers, 1);
    let lengths: Vec<u32> = wanted_headers[..wanted / 10]
        .iter()
        .map(|it| it.length)
        .collect();
    let known = Ways {
        name: "headers of known tags",
        library: written::known as Putting<u32>,
        by_hand: put::known,
        by_crate: beside!(known),
    };
    print_row_putting(&known, wanted, &lengths, 4);
}

fn print_row_elements(numbers: &[u64], wanted: usize) {
    let elements = Ways {
        name: "elements into one writer",
        library: written::elements as Putting<u64>,
        by_hand: put::elements,
        by_crate: beside!(elements),
    };
    print_row_putting(&elements, wanted, numbers, 1);
    let making = [
        Ways {
            name: "elements by encode_to_slice",
            library: written::to_slice as Making,
            by_hand: put::to_slice,
            by_crate: beside!(to_slice),
        },
        Ways {
            name: "elements by to_der",
            library: written::to_der,
            by_hand: put::to_der,
            by_crate: beside!(to_der),
        },
        Ways {
            name: "elements by encode_to_vec",
            library: written::to_vec,
            by_hand: put::to_vec,
            by_crate: beside!(to_vec),
        },
    ];
    for ways in &making {
        print_row_making(ways, wanted, numbers);
    }
}

fn print_row_sequences(numbers: &[u64], wanted: usize) {
    let inlined = Ways {
        name: "SEQUENCEs, closure inlined",
        library: written::sequences as Putting<u64>,
        by_hand: put::sequences,
        by_crate: beside!(sequences),
    };
    let called = Ways {
        name: "SEQUENCEs, closure called",
        library: written::called as Putting<u64>,
        by_hand: put::sequences,
        by_crate: beside!(called),
    };
    print_row_putting(&inlined, wanted, numbers, 1);
    print_row_putting(&called, wanted, numbers, 1);
}

fn main() {
    for wanted in SIZES {
        let mut numbers = Numbers(0x9E37_79B9_7F4A_7C15);
        let numbers: Vec<u64> = (0..wanted / 10).map(|_| numbers.next()).collect();
        print_row_headers(wanted);
        print_row_elements(&numbers, wanted);
        print_row_sequences(&numbers[..wanted / 42], wanted);
    }
}
