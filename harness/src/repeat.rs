//! The same call many times, for counting what one costs (bench/collect.py).
use crate::case::Case;
use crate::pass::collect;

/// Copies the page of `times` calls to the front of `room` bytes; gives the last answer's length.
fn rust(c: &Case, times: usize, room: usize) -> usize {
    cooklang::watch::off();
    let mut out = vec![0; room];
    let mut length = 0;
    for _ in 0..times {
        let page = collect(&c.input()).unwrap_or_else(|r| panic!("refused {} {}", r.0, r.1)).page;
        length = page.len();
        out[..length].copy_from_slice(&page);
        std::hint::black_box(&mut out);
    }
    length
}

#[cfg(feature = "library")]
fn library(c: &Case, times: usize, room: usize) -> usize {
    let mut memory = recipe::Memory::new();
    let mut out = vec![0; room];
    let i = c.input();
    let mut length = 0;
    for _ in 0..times {
        let page = recipe::collect(i.sheet, i.text, i.units, i.flags, &mut memory, &mut out);
        length = page.unwrap_or_else(|r| panic!("{r}")).len();
        std::hint::black_box((&mut memory, &mut out));
    }
    length
}

#[cfg(not(feature = "library"))]
fn library(_: &Case, _: usize, _: usize) -> usize {
    panic!("built without the library")
}

/// Prints the page's length.
pub fn repeat(c: &Case, side: &str, times: usize, room: usize) {
    let length = match side {
        "rust" => rust(c, times, room),
        "library" => library(c, times, room),
        _ => panic!("rust or library"),
    };
    println!("{length}");
}
