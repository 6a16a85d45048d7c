//! The kind `example`: document 01's five messages in both orders, and its sheet of each.

mod common;
use common::kept;
use vectors::call::Call;
use vectors::replay::take_answer;
use vectors::streams::FIVE;

#[test]
fn its_messages_are_the_kept_streams() {
    let script = kept("example.script");
    let mut rest = &script[..];
    for stream in ["merge-example.stream", "merge-example-other.stream"] {
        assert_eq!(Call::take(&mut rest), Some(Call::Reset));
        let mut messages = Vec::new();
        for _ in 0..5 {
            match Call::take(&mut rest) {
                Some(Call::Receive { message }) => messages.extend_from_slice(message),
                other => panic!("{other:?}"),
            }
        }
        assert_eq!(messages, kept(stream));
        assert!(matches!(Call::take(&mut rest), Some(Call::Save { .. })));
    }
    assert_eq!(Call::take(&mut rest), None);
}

#[test]
fn all_are_applied_and_both_sheets_are_that_of_document_01() {
    let answers = kept("example.answers");
    let mut rest = &answers[..];
    for _ in 0..2 {
        assert_eq!(take_answer(&mut rest).unwrap().0, ["reset", "0", "0", "0"]);
        for _ in 0..5 {
            assert_eq!(take_answer(&mut rest).unwrap().0, ["receive", "0", "1", "0"]);
        }
        let (words, sheet) = take_answer(&mut rest).unwrap();
        assert_eq!(words, ["save", "0", "0", "0", "168", "same"]);
        assert_eq!(sheet, FIVE.as_bytes());
    }
    assert!(take_answer(&mut rest).is_none());
}
