//! The formats of docs/REPLAY.md, by an example written out by hand, and fresh streams.

use vectors::counts::of_stream;
use vectors::fresh;
use vectors::replay::replay;

#[test]
fn an_answer_of_each_shape() {
    let script = "\
reset
receive 57
op=1
id=1.1
deps=0,0,0,0,0,0,0,0
at=73
do=assign
value=[

edit 28 2 90
at=73[^
do=insert
value=s61

keys 0 100

element 3 1 4
73[
element 3 1 3
73[
element 3 2 100
73[
save 0
load 8
sheet=1

values 2 10
7}
iskeysway 3
73{
";
    let answers = "\
reset 0 0 0
receive 0 1 0
edit 0 1 0 61 same
op=1
id=2.2
deps=1,0,0,0,0,0,0,0
at=73[^
do=insert
value=s61

keys 0 0 0 3 same
73

element 0 0 0 4 same
2.2

element 13 4 same
element 14 same
save 13 101 same
load 12 2
values 1 same
iskeysway 0
";
    assert_eq!(String::from_utf8(replay(script.as_bytes())).unwrap(), answers);
}

#[test]
fn a_fresh_stream_is_the_same_for_the_same_seed() {
    assert_eq!(fresh::stream(3, 50), fresh::stream(3, 50));
    assert_ne!(fresh::stream(3, 50), fresh::stream(4, 50));
    assert!(fresh::stream(3, 0).is_empty());
}

#[test]
fn a_long_fresh_stream_is_applied_for_the_most_part() {
    let stream = fresh::stream(5, 5000);
    let document = sheet::merge(&stream);
    let seen: u64 = document.seen().0.iter().map(|&counter| u64::from(counter)).sum();
    assert!(seen > 5000, "{:?}", document.seen());
}

#[test]
fn crowds_get_each_answer_that_can_come() {
    let (mut answers, mut settled, mut all_dropped) = ([0; 15], 0, 0);
    for seed in [0, 3, 6, 9] {
        let (counts, applied, dropped) = of_stream(&fresh::stream(seed, 1000));
        for (number, count) in counts.calls.iter().enumerate() {
            answers[number] += count;
        }
        assert!(applied > 250, "{seed}: {applied}");
        settled += applied - counts.calls[0];
        all_dropped += dropped;
    }
    for number in [0, 1, 2, 3, 4, 5, 6, 7, 8, 10] {
        assert!(answers[number] > 50, "{number} in {answers:?}");
    }
    assert!(settled > 200 && all_dropped > 200, "{settled} {all_dropped}");
}
