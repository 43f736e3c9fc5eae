// The yardstick for quoting: a plain Rust loop over the same bytes, written to a slice. See tools/speed.
use std::hint::black_box;
use std::time::Instant;

#[inline(never)]
fn single(text: &[u8], page: &mut [u8]) -> usize {
    page[0] = b'\'';
    let mut at = 1;
    for &b in text {
        if b == b'\'' {
            page[at..at + 4].copy_from_slice(b"'\\''");
            at += 4;
        } else {
            page[at] = b;
            at += 1;
        }
    }
    page[at] = b'\'';
    at + 1
}

#[inline(never)]
fn backslash(text: &[u8], page: &mut [u8]) -> usize {
    let mut at = 0;
    for &b in text {
        if b == b'\n' {
            page[at..at + 3].copy_from_slice(b"'\n'");
            at += 3;
        } else {
            page[at] = b'\\';
            page[at + 1] = b;
            at += 2;
        }
    }
    at
}

fn time(name: &str, quote: fn(&[u8], &mut [u8]) -> usize, byte: u8) {
    const ROUNDS: u32 = 100_000;
    let mut page = [0u8; 4096];
    for n in [16, 128, 512] {
        let text = vec![byte; n];
        let start = Instant::now();
        for _ in 0..ROUNDS {
            black_box(quote(black_box(&text), &mut page));
        }
        let each = start.elapsed().as_nanos() as f64 / f64::from(ROUNDS);
        println!("{name} {n}: {:.3} ns a byte, {each:.0} ns a text", each / n as f64);
    }
}

fn main() {
    time("single, plain", single, b'a');
    time("single, apostrophes", single, b'\'');
    time("backslash, plain", backslash, b'a');
    time("backslash, apostrophes", backslash, b'\'');
}
