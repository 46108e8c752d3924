//! A driver that gives one of the handles that are guessed, and gives it twice: the run knows the
//! page that has it by another name.

use caldarimpu::{Answers, Code, Config, Pool, Record, Refusal, Word};

/// Gives this handle for every page.
struct Stubborn {
    handle: u64,
    seen: Vec<Word>,
}

impl Answers for Stubborn {
    fn answer(&mut self, wanted: Record) -> Result<u64, Code> {
        self.seen.push(wanted.word);
        Ok(match wanted.word {
            Word::Reserve => 2 * wanted.second,
            Word::Create => self.handle,
            _ => 0,
        })
    }
}

#[test]
fn a_guessed_handle_twice() {
    for place in 0..12 {
        let (handle, seen) = ((1 << 63) + place, Vec::new());
        let mut card = Stubborn { handle, seen };
        let mut pool = Pool::open(&mut card, Config::new(4, 40)).expect("an opening");
        let refusal = pool.malloc(&mut card, 12, 1).err();
        assert!(
            matches!(refusal, Some(Refusal::Incredible { .. })),
            "place {place}: {refusal:?}"
        );
        let made = [Word::Create, Word::Map, Word::Create];
        assert_eq!(card.seen[1..], made, "place {place}");
        assert_eq!(pool.close(&mut card), Ok(0));
    }
}
