//! What a caller may get wrong is refused, and a script by hand is answered.
use playback::{Answer, Call, Op, Playback, Refused, first_unknown};

fn script(ops: &[Op]) -> Vec<Call> {
    ops.iter().map(|o| Call::new(*o)).collect()
}

fn answers(blocks: usize, calls: &[Call]) -> Vec<Answer> {
    let mut p = Playback::new(blocks);
    let played = p.play(calls).unwrap();
    assert!(played.over);
    (0..played.len()).map(|j| played.told(j).answer).collect()
}

#[test]
fn a_code_of_no_call_is_refused() {
    let mut calls = script(&[Op::Row(1), Op::Length(1), Op::Length(1)]);
    assert_eq!(first_unknown(&calls), 3);
    calls[2] = calls[2].with_code(18);
    assert_eq!(first_unknown(&calls), 2);
    calls[1] = calls[1].with_code(u32::MAX);
    assert_eq!(first_unknown(&calls), 1);
    assert_eq!(Playback::new(4).play(&calls).err(), Some(Refused::Code));
}

#[test]
fn no_calls_no_answers() {
    assert_eq!(answers(0, &[]), []);
}

#[test]
fn a_row_by_hand() {
    let calls = script(&[
        Op::Row(7),
        Op::Insert(7, 0, 20),
        Op::Insert(7, 0, 10),
        Op::At(7, 1),
        Op::At(7, 2),
        Op::Delete(7, 0),
        Op::Length(7),
        Op::Row(7),
        Op::Free(256),
        Op::Free(7),
        Op::Length(7),
    ]);
    let told = [
        Answer::Done,
        Answer::Done,
        Answer::Done,
        Answer::Word(20),
        Answer::No(5),
        Answer::Word(10),
        Answer::Word(1),
        Answer::No(2),
        Answer::No(1),
        Answer::Done,
        Answer::No(3),
    ];
    assert_eq!(answers(4, &calls), told);
}

#[test]
fn what_is_refused_is_full() {
    let mut calls = script(&[Op::Row(1), Op::Insert(1, 0, 5), Op::Insert(1, 0, 6), Op::Length(1)]);
    calls[1] = calls[1].refuse(1);
    let mut p = Playback::new(4);
    let played = p.play(&calls).unwrap();
    assert_eq!(played.told(1).answer, Answer::Full);
    assert!(played.told(1).refused);
    assert_eq!(played.told(1).held, 0);
    assert_eq!(played.told(2).answer, Answer::Done);
    assert_eq!(played.told(2).held, 1);
    assert_eq!(played.told(3).answer, Answer::Word(1));
}

#[test]
fn without_blocks_all_is_full() {
    let calls = script(&[Op::Row(1), Op::Insert(1, 0, 5), Op::Length(1)]);
    assert_eq!(answers(0, &calls), [Answer::Done, Answer::Full, Answer::Word(0)]);
    let roomless: Vec<Call> = calls.iter().map(|c| c.room(0)).collect();
    assert_eq!(answers(9, &roomless), [Answer::Done, Answer::Done, Answer::Word(1)]);
}
