//! The example files give what the texts beside them say.

use std::path::PathBuf;

const TAG: u64 = 0;
const CARD: u8 = 2;

fn file(name: &str) -> Vec<u8> {
    let path = PathBuf::from(env!("CARGO_MANIFEST_DIR")).join("../../examples").join(name);
    std::fs::read(&path).unwrap_or_else(|error| panic!("{}: {error}", path.display()))
}

/// The least summary and its rounds.
fn found(book: &[u8]) -> (Vec<u8>, u64) {
    let mut summary = vec![0; plain::read(book).unwrap()];
    let rounds = plain::find(book, &mut summary).unwrap().rounds;
    (summary, rounds)
}

fn level(book: &[u8], summary: &[u8]) -> u8 {
    plain::level(book, &file("diamond.table"), TAG, &file("photo.levels"), summary).unwrap()
}

fn tag(book: &[u8], inputs: [u32; 4]) -> u32 {
    let run = plain::run(book, TAG, &inputs, plain::MOST_STEPS, &mut [0; 1_024]).unwrap();
    assert_eq!(run.ending, plain::Ending::Finished);
    run.value
}

#[test]
fn steady_does_not_rest_on_the_card() {
    let book = file("steady.book");
    let (summary, rounds) = found(&book);
    assert_eq!((&summary[..], rounds), (&[0x0B, 0x03, 0x03, 0x01, 0x02, 0x04][..], 3));
    assert_eq!(summary[0] & (1 << CARD), 0);
    assert_eq!(level(&book, &summary), 2);
    for card in [0, 8, 100, 250, 100_000] {
        assert_eq!(tag(&book, [60, 50, card, 100]), 1);
        assert_eq!(tag(&book, [40, 50, card, 100]), 2);
        assert_eq!(tag(&book, [40, 50, card, 1_000]), 0);
    }
}

#[test]
fn leaning_rests_on_the_card() {
    let book = file("leaning.book");
    let (summary, rounds) = found(&book);
    let expected = [0x0F, 0x03, 0x0D, 0x02, 0x04, 0x08, 0x08, 0x0C];
    assert_eq!((&summary[..], rounds), (&expected[..], 5));
    assert_eq!(level(&book, &summary), 3);
    assert_eq!(tag(&book, [60, 50, 8, 100]), 1);
    assert_eq!(tag(&book, [60, 50, 250, 100]), 2);
    // One turn: the card has not reached the score yet.
    assert_eq!(tag(&book, [60, 50, 250, 50]), 1);
}
