//! Decodes and encodes base64 with the proved library and with OpenSSL, and prints the time for a
//! character of base64. Both must return the same octets.
use std::ffi::{c_char, c_int, c_long, c_void};
use std::hint::black_box;
use std::time::{Duration, Instant};

/// The minimum duration of the rounds of a row, and their minimum number.
const WHILE: Duration = Duration::from_secs(1);
const ROUNDS: usize = 7;

unsafe extern "C" {
    #[allow(improper_ctypes, reason = "the library takes slices of Rust")]
    fn pem_bench_decode(text: &[u8], buffer: &mut [u8]) -> usize;
    #[allow(improper_ctypes, reason = "as above")]
    fn pem_bench_encode(octets: &[u8], buffer: &mut [u8]) -> usize;
    #[allow(improper_ctypes, reason = "as above")]
    fn pem_bench_block(text: &[u8], buffer: &mut [u8]) -> usize;
    fn EVP_DecodeBlock(to: *mut u8, from: *const u8, len: c_int) -> c_int;
    fn EVP_EncodeBlock(to: *mut u8, from: *const u8, len: c_int) -> c_int;
    fn EVP_ENCODE_CTX_new() -> *mut c_void;
    fn EVP_ENCODE_CTX_free(context: *mut c_void);
    fn EVP_DecodeInit(context: *mut c_void);
    fn EVP_DecodeUpdate(
        context: *mut c_void,
        to: *mut u8,
        len: *mut c_int,
        from: *const u8,
        from_len: c_int,
    ) -> c_int;
    fn EVP_DecodeFinal(context: *mut c_void, to: *mut u8, len: *mut c_int) -> c_int;
    fn BIO_new_mem_buf(text: *const c_void, len: c_int) -> *mut c_void;
    fn BIO_free(bio: *mut c_void) -> c_int;
    fn PEM_read_bio(
        bio: *mut c_void,
        name: *mut *mut c_char,
        header: *mut *mut c_char,
        data: *mut *mut u8,
        len: *mut c_long,
    ) -> c_int;
    fn CRYPTO_free(octets: *mut c_void, file: *const c_char, line: c_int);
}

/// A way to do the work: from octets into a buffer, of which it returns how many it wrote.
type Way = fn(&[u8], &mut [u8]) -> usize;

fn decode(text: &[u8], buffer: &mut [u8]) -> usize {
    unsafe { pem_bench_decode(text, buffer) }
}

fn encode(octets: &[u8], buffer: &mut [u8]) -> usize {
    unsafe { pem_bench_encode(octets, buffer) }
}

fn block(text: &[u8], buffer: &mut [u8]) -> usize {
    unsafe { pem_bench_block(text, buffer) }
}

/// OpenSSL counts the octets of `=` too.
fn decode_block(text: &[u8], buffer: &mut [u8]) -> usize {
    let padding = text
        .iter()
        .rev()
        .take_while(|octet| **octet == b'=')
        .count();
    let count = unsafe { EVP_DecodeBlock(buffer.as_mut_ptr(), text.as_ptr(), text.len() as c_int) };
    usize::try_from(count).unwrap_or(0) - padding
}

fn encode_block(octets: &[u8], buffer: &mut [u8]) -> usize {
    unsafe { EVP_EncodeBlock(buffer.as_mut_ptr(), octets.as_ptr(), octets.len() as c_int) as usize }
}

fn decode_update(text: &[u8], buffer: &mut [u8]) -> usize {
    let (mut first, mut last) = (0, 0);
    unsafe {
        let context = EVP_ENCODE_CTX_new();
        EVP_DecodeInit(context);
        EVP_DecodeUpdate(
            context,
            buffer.as_mut_ptr(),
            &mut first,
            text.as_ptr(),
            text.len() as c_int,
        );
        EVP_DecodeFinal(context, buffer.as_mut_ptr().add(first as usize), &mut last);
        EVP_ENCODE_CTX_free(context);
    }
    (first + last) as usize
}

/// OpenSSL allocates what it reads; so the octets are copied for the comparison.
fn read_bio(text: &[u8], buffer: &mut [u8]) -> usize {
    let (mut name, mut header, mut data, mut len) = (
        std::ptr::null_mut(),
        std::ptr::null_mut(),
        std::ptr::null_mut(),
        0,
    );
    unsafe {
        let bio = BIO_new_mem_buf(text.as_ptr().cast(), text.len() as c_int);
        PEM_read_bio(bio, &mut name, &mut header, &mut data, &mut len);
        buffer[..len as usize].copy_from_slice(std::slice::from_raw_parts(data, len as usize));
        for it in [name.cast(), header.cast(), data.cast()] {
            CRYPTO_free(it, c"".as_ptr(), 0);
        }
        BIO_free(bio);
    }
    len as usize
}

/// Prints the minimum time of each of two ways, in nanoseconds for each of `count` characters.
fn row(name: &str, count: usize, from: &[u8], library: Way, openssl: Way) {
    let (mut ours, mut theirs) = (vec![0; 2 * from.len() + 64], vec![0; 2 * from.len() + 64]);
    let (len, same) = (library(from, &mut ours), openssl(from, &mut theirs));
    assert!(
        len > 0 && len == same && ours[..len] == theirs[..len],
        "{name}"
    );
    let mut least = [Duration::MAX; 2];
    let (began, mut rounds) = (Instant::now(), 0);
    while rounds < ROUNDS || began.elapsed() < WHILE {
        for (at, way) in [library, openssl].into_iter().enumerate() {
            let start = Instant::now();
            black_box(way(black_box(from), &mut ours));
            least[at] = least[at].min(start.elapsed());
        }
        rounds += 1;
    }
    let [library, openssl] = least.map(|time| time.as_nanos() as f64 / count as f64);
    println!(
        "{name}: library {library:.3} ns, OpenSSL {openssl:.3} ns, ratio {:.2}",
        library / openssl
    );
}

fn main() {
    let mut seed = 1u32;
    for size in [1 << 10, 1 << 14, 1 << 20] {
        let octets: Vec<u8> = std::iter::repeat_with(|| {
            seed = seed.wrapping_mul(1_664_525).wrapping_add(1_013_904_223);
            (seed >> 24) as u8
        })
        .take(size)
        .collect();
        let mut buffer = vec![0; 2 * size];
        let len = encode(&octets, &mut buffer);
        let text = &buffer[..len];
        let lines: Vec<u8> = text
            .chunks(64)
            .flat_map(|line| [line, b"\n"].concat())
            .collect();
        let pem = [
            b"-----BEGIN A-----\n".as_slice(),
            &lines,
            b"-----END A-----\n",
        ]
        .concat();
        row(
            &format!("{size} octets, decoded from one line"),
            len,
            text,
            decode,
            decode_block,
        );
        row(
            &format!("{size} octets, decoded from lines of 64"),
            len,
            &lines,
            decode,
            decode_update,
        );
        row(
            &format!("{size} octets, read from a block"),
            len,
            &pem,
            block,
            read_bio,
        );
        row(
            &format!("{size} octets, encoded"),
            len,
            &octets,
            encode,
            encode_block,
        );
    }
}
