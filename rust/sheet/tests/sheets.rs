//! Load of every save gives the document back, without what waits, and its sheet again.

mod common;
use common::*;
use sheet::{Answer, Document};
use vectors::make::{edit, wild, Taste};
use vectors::random::Random;

fn check(document: &Document) {
    let sheet = document.sheet();
    let mut buffer = vec![0; sheet.len()];
    assert_eq!(document.save(&mut buffer), wrote(sheet.len()));
    assert_eq!(buffer, sheet);
    let mut loaded = after(&[assign("9.8", "", "7a", "t")]);
    assert_eq!(loaded.receive(&assign("11.8", "0,0,0,0,0,0,0,10", "7a", "t")), Answer::Waits);
    assert_eq!(loaded.load(&sheet), done(0, 0), "{}", text(&sheet));
    assert!(loaded.waiting().is_empty());
    assert_eq!(loaded.root(), document.root());
    assert_eq!(loaded.seen(), document.seen());
    assert_eq!(loaded.size(), document.size());
    assert_eq!(loaded.sheet(), sheet);
}

#[test]
fn of_documents_by_chance() {
    let mut random = Random::new(31);
    for round in 0..60 {
        let taste = Taste { deeper: *random.pick(&[30, 55, 85]), astray: 5 };
        let mut document = Document::new();
        for _ in 0..100 {
            if random.chance(70) {
                document.receive(&wild(&mut random, &document, taste, 1..=8));
            } else {
                let lines = edit(&mut random, &document, taste);
                document.edit(random.from_to(1, 8) as u64, &lines, &mut [0; 500]);
            }
            check(&document);
        }
        assert!(document.size().places > 10, "round {round}: {:?}", document.size());
    }
}

#[test]
fn of_the_empty_document() {
    check(&Document::new());
    assert_eq!(sheet_of(&Document::new()), "sheet=1\nseen=0,0,0,0,0,0,0,0\nend=0\n");
}

#[test]
fn elements_in_an_order_that_no_inserts_give() {
    let sheet = "\
sheet=1
seen=9,9,0,0,0,0,0,0
place=1{l6c
mark=9.1
place=2[-2.1
place=2[-9.1
mark=9.1
place=2[-3.2
place=2[-8.1
mark=9.1
place=2[-1.1
end=6
";
    let mut document = loaded(sheet);
    assert_eq!(sheet_of(&document), sheet);
    check(&document);
    // After 2.1: 9.1 is greater than 5.3, 3.2 is not. At the head: 2.1 is not.
    assert_eq!(document.receive(&insert("5.3", "4,4,0", "6c[2.1", "n")), done(1, 0));
    assert_eq!(document.receive(&insert("6.3", "4,4,5", "6c[^", "n")), done(1, 0));
    // After 3.2: 8.1 is greater, 1.1 is not.
    assert_eq!(document.receive(&insert("7.3", "4,4,6", "6c[3.2", "n")), done(1, 0));
    // After 1.1, the last.
    assert_eq!(document.receive(&insert("8.3", "4,4,7", "6c[1.1", "n")), done(1, 0));
    let order: Vec<String> = sheet_of(&document)
        .lines()
        .filter_map(|line| line.strip_prefix("place=2[-").map(String::from))
        .collect();
    assert_eq!(order, ["6.3", "2.1", "9.1", "5.3", "3.2", "8.1", "7.3", "1.1", "8.3"]);
    check(&document);
}

#[test]
fn map_children_in_key_order_the_shorter_first() {
    let keys = ["61", "", "6162", "00", "ff", "60ff", "62", "6161"];
    let mut document = Document::new();
    for key in keys {
        document.edit(1, lines(key, "assign", "n").as_bytes(), &mut [0; 500]);
    }
    document.edit(1, b"at=61[^\ndo=insert\nvalue=n\n", &mut [0; 500]);
    document.edit(1, b"at=61{00\ndo=assign\nvalue=n\n", &mut [0; 500]);
    let sheet = "\
sheet=1
seen=10,0,0,0,0,0,0,0
place=1{-
mark=2.1
value=2.1:n
place=1{-00
mark=4.1
value=4.1:n
place=1{-60ff
mark=6.1
value=6.1:n
place=1{b61
mark=1.1
mark=9.1
mark=10.1
value=1.1:n
place=2{-00
mark=10.1
value=10.1:n
place=2[-9.1
mark=9.1
value=9.1:n
place=1{-6161
mark=8.1
value=8.1:n
place=1{-6162
mark=3.1
value=3.1:n
place=1{-62
mark=7.1
value=7.1:n
place=1{-ff
mark=5.1
value=5.1:n
end=10
";
    assert_eq!(sheet_of(&document), sheet);
    check(&document);
}
