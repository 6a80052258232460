use recipe::{bytes_needed, collect, collect_in, words_needed, Memory, Refusal};

const TEXT: &[u8] = b">> [duplicate]: ref\n@salt{} @Salt{}\n";
const SHEET: &[u8] = b"meta\t3\t14\t[duplicate]\t15\t19\t ref\n\
start\tstep\n\
ingredient\t20\t27\t21\t25\tsalt\t-\t-\t-\t.\t21\t21\t-\n\
text\t27\t28\t \n\
ingredient\t28\t35\t29\t33\tSalt\t-\t-\t-\t.\t29\t29\t-\n\
end\tstep\n";
const PAGE: &[u8] = b"recipe\tyes\n\
section\t-\n\
step\t1\n\
item\tingredient\t0\n\
item\ttext\t \n\
item\tingredient\t1\n\
ingredient\t0\tsalt\t-\t-\t-\t-\t.\tdef\tstep\t1\n\
ingredient\t1\tSalt\t-\t-\t-\t-\t&\tref\tingredient\t0\n";

/// Memory that is not zero, so that a test sees what a call leaves.
fn dirty() -> Memory {
    let mut m = Memory::new();
    m.words.fill(0xdead_beef);
    m.bytes.fill(0xaa);
    m
}

/// Memory as long as is lent, with three items more on each side that must stay.
fn guarded<T: Copy>(length: usize, item: T) -> Vec<T> {
    vec![item; length + 6]
}

fn is_clear(m: &Memory) -> bool {
    m.words.iter().all(|&w| w == 0) && m.bytes.iter().all(|&b| b == 0)
}

#[test]
fn the_page_of_document_01() {
    let mut m = dirty();
    let mut out = vec![0x55; 1000];
    assert_eq!(collect(SHEET, TEXT, b"", 1, &mut m, &mut out), Ok(PAGE));
    assert!(is_clear(&m));
    assert!(out[PAGE.len()..].iter().all(|&b| b == 0));
}

#[test]
fn room_from_none_to_just_enough() {
    for room in 0..=PAGE.len() {
        let mut m = dirty();
        let mut out = vec![0x55; room];
        let answer = collect(SHEET, TEXT, b"", 1, &mut m, &mut out).map(<[u8]>::to_vec);
        if room < PAGE.len() {
            assert_eq!(answer, Err(Refusal { number: 20, line: 0 }));
            assert!(out.iter().all(|&b| b == 0));
        } else {
            assert_eq!(answer.unwrap(), PAGE);
        }
        assert!(is_clear(&m));
    }
}

#[test]
fn refusals() {
    let cases: [(&[u8], &[u8], &[u8], u32, Refusal); 5] = [
        (b"", b"\xff", b"", 7, Refusal { number: 4, line: 0 }),
        (b"", b"", b"kg\tweight\n", 7, Refusal { number: 5, line: 0 }),
        (b"", b"", b"", 8, Refusal { number: 7, line: 0 }),
        (b"warning\t1\nnothing\n", b"", b"", 7, Refusal { number: 8, line: 2 }),
        (b"start\tstep\n", b"", b"", 7, Refusal { number: 19, line: 0 }),
    ];
    for (sheet, text, units, flags, refusal) in cases {
        let mut m = dirty();
        let mut out = vec![0x55; 100];
        assert_eq!(collect(sheet, text, units, flags, &mut m, &mut out), Err(refusal));
        assert!(is_clear(&m) && out.iter().all(|&b| b == 0));
    }
}

#[test]
fn carriage_returns() {
    let sheet = b"start\tstep\ningredient\t0\t3\t0\t3\ta\\rb\t-\t-\t-\t.\t0\t0\t-\ntext\t3\t5\t\\r\\n\nend\tstep\n";
    let page = b"recipe\tyes\nsection\t-\nstep\t1\nitem\tingredient\t0\nitem\ttext\t\\r\\n\n\
ingredient\t0\ta\\rb\t-\t-\t-\t-\t.\tdef\tstep\t-\n";
    let mut out = vec![0x55; 200];
    assert_eq!(collect(sheet, b"a\rb\r\n", b"", 0, &mut dirty(), &mut out), Ok(&page[..]));
}

#[test]
fn bare_carriage_returns() {
    let sheets = [&b"warning\t1\nsection\t0\t0\ta\r\n"[..], b"warning\t1\nsection\t0\t0\ta\rb\n", b"warning\t1\nwarning\t2\r\n"];
    for sheet in sheets {
        let mut out = vec![0x55; 100];
        assert_eq!(collect(sheet, b"", b"", 7, &mut dirty(), &mut out), Err(Refusal { number: 8, line: 2 }));
        assert!(out.iter().all(|&b| b == 0));
    }
}

#[test]
fn short_work_memory() {
    for (words, bytes) in [(1, 0), (0, 1), (1, 1)] {
        let mut m = dirty();
        m.words.truncate(recipe::words_needed() - words);
        m.bytes.truncate(recipe::bytes_needed() - bytes);
        let mut out = vec![0x55; 100];
        assert_eq!(collect(b"", b"", b"", 7, &mut m, &mut out), Err(Refusal { number: 1, line: 0 }));
        assert!(is_clear(&m) && out.iter().all(|&b| b == 0));
    }
}

#[test]
fn the_empty_sheet() {
    let mut out = [0x55; 11];
    assert_eq!(collect(b"", b"", b"", 0, &mut dirty(), &mut out), Ok(&b"recipe\tyes\n"[..]));
}

#[test]
fn nothing_else_is_written() {
    for room in [0, PAGE.len() - 1, PAGE.len(), PAGE.len() + 1] {
        let (mut words, mut bytes, mut out) = (guarded(words_needed(), 7u32), guarded(bytes_needed(), 7), guarded(room, 7));
        let (w, b, o) = (3..3 + words_needed(), 3..3 + bytes_needed(), 3..3 + room);
        let answer = collect_in(SHEET, TEXT, b"", 1, &mut words[w.clone()], &mut bytes[b.clone()], &mut out[o.clone()]);
        assert_eq!(answer.is_ok(), room >= PAGE.len());
        let stays = |all: &[u8], lent: std::ops::Range<usize>| all[..3].iter().chain(&all[lent.end..]).all(|&x| x == 7);
        assert!(stays(&bytes, b) && stays(&out, o));
        assert!(words[..3].iter().chain(&words[w.end..]).all(|&x| x == 7));
        assert!(words[w].iter().all(|&x| x == 0));
    }
}

#[test]
fn no_memory_at_all() {
    let answer = collect_in(SHEET, TEXT, b"", 1, &mut [], &mut [], &mut []);
    assert_eq!(answer, Err(Refusal { number: 1, line: 0 }));
}

#[test]
fn several_threads() {
    std::thread::scope(|s| {
        for _ in 0..4 {
            s.spawn(|| {
                let (mut m, mut out) = (dirty(), vec![0x55; 1000]);
                for _ in 0..50 {
                    assert_eq!(collect(SHEET, TEXT, b"", 1, &mut m, &mut out), Ok(PAGE));
                }
            });
        }
    });
}
