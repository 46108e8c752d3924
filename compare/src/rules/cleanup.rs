//! Cleanup: the walk over zombies, followed record by record.

use original::{
    driver::{Record, Word},
    tables::{Range, Tables},
};

use super::{insert, Found, Rule};

/// Follows the walk and gives the records that it made, the holes and the zombies that it left.
pub fn walk<'a>(
    records: &'a [Record],
    before: &Tables,
    found: &mut Found,
) -> (&'a [Record], Vec<Range>, usize) {
    let mut zombies = before.zombies.clone();
    let mut holes = before.holes.clone();
    let (mut at, mut place) = (0, 0);
    while place < zombies.len() {
        let asked = records[at];
        assert_eq!(
            (asked.word, asked.first),
            (Word::Asked, zombies[place].event),
            "cleanup asks for the zombie at its place"
        );
        at += 1;
        if asked.second == 0 {
            found.push(Rule::ZombieStanding);
            place += 1;
            continue;
        }
        found.push(Rule::ZombieOut);
        found.when(records[at].code > 0, Rule::ZombieUnmapFailed);
        at += 1;
        let zombie = zombies.swap_remove(place);
        found.when(place < zombies.len(), Rule::ZombieRefilled);
        insert::hole(&mut holes, zombie.range, &before.roots, found);
    }
    (&records[at..], holes, zombies.len())
}
