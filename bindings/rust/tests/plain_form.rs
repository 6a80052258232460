use recipe::{bytes_needed, collect, plain_form, plain_form_in, words_needed, Memory, Refusal};

const TEXT: &[u8] = b">> [duplicate]: ref\n@salt{} @Salt{}\n";
const SHEET: &[u8] = b"meta\t3\t14\t[duplicate]\t15\t19\t ref\n\
start\tstep\n\
ingredient\t20\t27\t21\t25\tsalt\t-\t-\t-\t.\t21\t21\t-\n\
text\t27\t28\t \n\
ingredient\t28\t35\t29\t33\tSalt\t-\t-\t-\t.\t29\t29\t-\n\
end\tstep\n";
const FORM: &[u8] = b"start\tstep\n\
ingredient\t20\t27\t21\t25\tsalt\t-\t-\t-\t.\t21\t21\t-\n\
text\t27\t28\t \n\
ingredient\t28\t35\t29\t33\tSalt\t-\t-\t-\t&\t29\t29\t-\n\
end\tstep\n";

/// Memory that is not zero, so that a test sees what a call leaves.
fn dirty() -> Memory {
    let mut m = Memory::new();
    m.words.fill(0xdead_beef);
    m.bytes.fill(0xaa);
    m
}

fn is_clear(m: &Memory) -> bool {
    m.words.iter().all(|&w| w == 0) && m.bytes.iter().all(|&b| b == 0)
}

/// The answer with this room, after a look at all that was lent.
fn form_in_room(sheet: &[u8], text: &[u8], units: &[u8], flags: u32, room: usize) -> Result<Vec<u8>, Refusal> {
    let mut m = dirty();
    let mut out = vec![0x55; room];
    let answer = plain_form(sheet, text, units, flags, &mut m, &mut out).map(<[u8]>::to_vec);
    let length = answer.as_ref().map_or(0, Vec::len);
    assert!(is_clear(&m) && out[length..].iter().all(|&b| b == 0));
    answer
}

#[test]
fn the_form_of_document_01() {
    assert_eq!(form_in_room(SHEET, TEXT, b"", 1, 1000).unwrap(), FORM);
}

#[test]
fn the_form_is_its_own_and_has_the_same_page() {
    assert_eq!(form_in_room(FORM, TEXT, b"", 1, 1000).unwrap(), FORM);
    let (mut of_sheet, mut of_form) = (vec![0x55; 1000], vec![0x55; 1000]);
    let page = collect(SHEET, TEXT, b"", 1, &mut dirty(), &mut of_sheet).unwrap();
    assert_eq!(collect(FORM, TEXT, b"", 1, &mut dirty(), &mut of_form), Ok(page));
}

#[test]
fn modes_that_are_not_heeded_stay() {
    assert_eq!(form_in_room(SHEET, TEXT, b"", 0, 1000).unwrap(), SHEET);
}

#[test]
fn room_from_none_to_just_enough() {
    for room in 0..FORM.len() {
        assert_eq!(form_in_room(SHEET, TEXT, b"", 1, room), Err(Refusal { number: 20, line: 0 }));
    }
    assert_eq!(form_in_room(SHEET, TEXT, b"", 1, FORM.len()).unwrap(), FORM);
}

#[test]
fn the_empty_form() {
    let all_goes = b"meta\t0\t1\t[mode]\t1\t2\tcomponents\nstart\tstep\ntext\t0\t1\tword\nend\tstep\n";
    for (sheet, flags) in [(&b""[..], 0), (b"", 7), (all_goes, 1)] {
        for room in [0, 1, 100] {
            assert_eq!(form_in_room(sheet, TEXT, b"", flags, room).unwrap(), b"");
        }
    }
}

#[test]
fn a_form_longer_than_the_sheet() {
    let sheet = b"meta\t0\t1\t[mode]\t1\t2\ttext\nstart\tstep\ntimer\t0\t36\t-\t-\nend\tstep\n";
    let form = b"start\ttext\ntext\t0\t36\t>> [duplicate]: ref\\n@salt{} @Salt{}\\n\nend\ttext\n";
    assert!(sheet.len() < form.len());
    assert_eq!(form_in_room(sheet, TEXT, b"", 1, 1000).unwrap(), form);
}

#[test]
fn carriage_returns() {
    let sheet = b"meta\t0\t0\t[mode]\t0\t0\ttext\nstart\tstep\ntimer\t0\t3\t-\t-\ntext\t3\t5\t\\r\\n\nend\tstep\n";
    let form = b"start\ttext\ntext\t0\t3\ta\\rb\ntext\t3\t5\t\\r\\n\nend\ttext\n";
    assert_eq!(form_in_room(sheet, b"a\rb\r\n", b"", 1, 1000).unwrap(), form);
    assert_eq!(form_in_room(form, b"a\rb\r\n", b"", 1, 1000).unwrap(), form);
}

#[test]
fn refusals_of_the_form() {
    let error = b"warning\t1\nerror\t2\nerror\t3\n";
    let listed = b"meta\t0\t1\t[mode]\t1\t2\tcomponents\nstart\tstep\ntext\t0\t1\t.\ntimer\t0\t1\t-\t-\nend\tstep\n";
    let entry = |modifiers: &str| format!("ingredient\t0\t1\t0\t1\ta\t-\t-\t-\t{modifiers}\t0\t0\t-\n");
    let hidden = format!("meta\t0\t1\t[duplicate]\t1\t2\tref\nstart\tstep\n{}{}{}end\tstep\n", entry("."), entry("?"), entry("."));
    let timers = "timer\t0\t2000\t-\t-\n".repeat(17);
    let long = format!("meta\t0\t1\t[mode]\t1\t2\ttext\nstart\tstep\n{timers}end\tstep\n");
    let breaks = [b'\n'; 2000];
    let cases: [(&[u8], Refusal); 4] = [
        (error, Refusal { number: 21, line: 2 }),
        (listed, Refusal { number: 22, line: 4 }),
        (hidden.as_bytes(), Refusal { number: 23, line: 5 }),
        (long.as_bytes(), Refusal { number: 24, line: 0 }),
    ];
    for (sheet, refusal) in cases {
        for room in [0, 100, 100_000] {
            assert_eq!(form_in_room(sheet, &breaks, b"", 1, room), Err(refusal));
        }
    }
}

#[test]
fn refusals_of_the_collection() {
    let cases: [(&[u8], &[u8], &[u8], u32, Refusal); 6] = [
        (b"", b"\xff", b"", 7, Refusal { number: 4, line: 0 }),
        (b"", b"", b"kg\tweight\n", 7, Refusal { number: 5, line: 0 }),
        (b"", b"", b"", 8, Refusal { number: 7, line: 0 }),
        (b"error\t1\nnothing\n", b"", b"", 7, Refusal { number: 8, line: 2 }),
        (b"error\t1\nwarning\t2\r\n", b"", b"", 7, Refusal { number: 8, line: 2 }),
        (b"start\tstep\n", b"", b"", 7, Refusal { number: 19, line: 0 }),
    ];
    for (sheet, text, units, flags, refusal) in cases {
        assert_eq!(form_in_room(sheet, text, units, flags, 100), Err(refusal));
    }
}

#[test]
fn short_work_memory() {
    for (words, bytes) in [(1, 0), (0, 1), (1, 1), (words_needed(), bytes_needed())] {
        let mut m = dirty();
        m.words.truncate(words_needed() - words);
        m.bytes.truncate(bytes_needed() - bytes);
        let mut out = vec![0x55; 100];
        let answer = plain_form_in(SHEET, TEXT, b"", 1, &mut m.words, &mut m.bytes, &mut out);
        assert_eq!(answer, Err(Refusal { number: 1, line: 0 }));
        assert!(is_clear(&m) && out.iter().all(|&b| b == 0));
    }
}
