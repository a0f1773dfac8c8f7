//! What the scripts cannot show: the memory that a host lends, and the types.

use reference::{Axis, Counting, Drive, Live, Parked, Port, Reason, Refusal, Row};

fn armed() -> Live<Counting> {
    Parked::new(Counting::new([2; 8], [0; 8])).arm(0)
}

const NOTHING: [Row; 8] = [Row::Nothing; 8];
const USED: [Row; 8] = [Row::Killed; 8];

#[test]
fn a_call_that_is_taken_fills_all_rows() {
    let mut live = armed();
    let mut rows = USED;
    let mut block = [b'?'; 192];
    let answer = live.command(Port::M, b"KS", &mut rows, &mut block);
    assert_eq!(answer, Ok(0));
    let mut expected = NOTHING;
    expected[0] = Row::ClearedByCommand { dropped: 0 };
    assert_eq!(rows, expected);
    rows = USED;
    assert_eq!(live.sample(1, &mut rows), Ok(()));
    assert_eq!(rows, NOTHING);
    rows = USED;
    assert_eq!(live.step(&[0; 8], 0, &mut rows), Ok(()));
    assert_eq!(rows, NOTHING);
}

#[test]
fn a_refused_call_leaves_what_was_lent() {
    let mut live = armed();
    let mut rows = USED;
    let mut block = [b'?'; 192];
    for text in [&b""[..], b"##", b"MR1,", b"MR2147483647", b"#ERx"] {
        assert!(live.command(Port::M, text, &mut rows, &mut block).is_err());
    }
    assert!(live.step(&[0; 7], 0, &mut rows).is_err());
    assert_eq!(rows, USED);
    assert_eq!(block, [b'?'; 192]);
    let short = live.command(Port::M, b"RP", &mut rows, &mut block[..191]);
    assert_eq!(short, Err(Refusal::call(Reason::AnswerBlock)));
    let mut many = [Row::Killed; 9];
    let sheet = live.command(Port::M, b"", &mut many, &mut []);
    assert_eq!(sheet, Err(Refusal::call(Reason::Sheet)));
    assert_eq!(many, [Row::Killed; 9]);
}

#[test]
fn the_rest_of_the_answer_block_stays() {
    let mut live = armed();
    let mut rows = NOTHING;
    let mut block = [b'?'; 200];
    let length = live.command(Port::P, b"8TP", &mut rows, &mut block);
    assert_eq!(length, Ok(2));
    assert_eq!(&block[..4], b"0\n??");
}

#[test]
fn the_longest_answer_is_a_full_record() {
    let mut live = armed();
    let mut rows = NOTHING;
    let mut block = [b'?'; 192];
    let mut text = [b'x'; 160];
    text[..2].copy_from_slice(b"fl");
    assert_eq!(live.command(Port::M, b"AA", &mut rows, &mut block), Ok(0));
    let refused = live.command(Port::M, &text, &mut rows, &mut block);
    assert_eq!(refused, Err(Refusal::call(Reason::NotInAll)));
    assert_eq!(
        live.command(Port::M, b"#ER", &mut rows, &mut block),
        Ok(161)
    );
    assert_eq!(&block[..160], &text);
    assert_eq!(&block[160..162], b"\n?");
    assert_eq!(live.command(Port::M, b"#ER", &mut rows, &mut block), Ok(1));
}

#[test]
fn park_halts_and_hands_the_drive_back() {
    let mut live = armed();
    let mut rows = NOTHING;
    let mut block = [0; 192];
    assert_eq!(
        live.command(Port::P, b"2PR100", &mut rows, &mut block),
        Ok(0)
    );
    for _ in 0..3 {
        assert_eq!(live.step(&[0; 8], 0xFF, &mut rows), Ok(()));
    }
    assert_eq!(live.command(Port::P, b"WS", &mut rows, &mut block), Ok(0));
    assert_eq!((live.position(Axis::Y), live.target(Axis::Y)), (2, 100));
    let parked = live.park();
    assert_eq!(parked.dropped(), &[0, 1, 0, 0, 0, 0, 0, 0]);
    let drive = parked.into_drive();
    assert_eq!((drive.position(Axis::Y), drive.target(Axis::Y)), (2, 2));
}
