//! How a call's time grows with one table, the others being as small as they can be.

use crate::{
    made::{Maker, UNLISTED},
    measure::measure,
    spent::Spent,
    step::Step,
};

/// A table that grows, and the sessions in which it has a number of entries.
struct Table {
    name: &'static str,
    sizes: &'static [usize],
    sessions: fn(usize) -> Vec<Vec<Step>>,
}

const TABLES: [Table; 3] = [
    Table {
        name: "free regions",
        sizes: &[1, 8, 32, 64, 120],
        sessions: |size| vec![regions(size), pulled(size)],
    },
    Table {
        name: "pages",
        sizes: &[1, 16, 64, 256],
        sessions: |size| vec![pages(size), made(size)],
    },
    Table {
        name: "zombies",
        sizes: &[0, 8, 32, 128],
        sessions: |size| vec![zombies(size)],
    },
];

/// One listed call at one size.
struct Row {
    listed: &'static str,
    size: usize,
    driver_calls: usize,
    spent: Spent,
}

pub fn print_growth() {
    println!("doublings: how often the time doubles when the table does, from the line above; above 1 it grows faster than the table");
    println!("an entry: nanoseconds that one more costs, from the line above");
    let tables: Vec<(&Table, Vec<Row>)> = TABLES.iter().map(|table| (table, rows(table))).collect();
    for (table, rows) in &tables {
        print_table(table, rows);
    }
    println!();
    println!("most doublings of a call's time when its table doubles, ours and the Rust's:");
    for (table, rows) in &tables {
        print_steepest(table, rows);
    }
}

/// By call, then by size.
fn rows(table: &Table) -> Vec<Row> {
    let made = table.sizes.iter().flat_map(|&size| {
        let sessions = (table.sessions)(size).into_iter();
        sessions.map(move |steps| (size, steps))
    });
    let (sizes, sessions): (Vec<usize>, Vec<Vec<Step>>) = made.unzip();
    let mut rows: Vec<Row> = Vec::new();
    for ((size, steps), spent) in sizes.iter().zip(&sessions).zip(measure(&sessions)) {
        rows.extend(listed(*size, steps, &spent));
    }
    let order: Vec<&str> = rows.iter().map(|row| row.listed).collect();
    rows.sort_by_key(|row| order.iter().rposition(|listed| *listed == row.listed));
    rows
}

fn listed<'a>(
    size: usize,
    steps: &'a [Step],
    spent: &'a [Spent],
) -> impl Iterator<Item = Row> + 'a {
    steps.iter().zip(spent).filter_map(move |(step, &spent)| {
        Some(Row {
            listed: step.listed?,
            size,
            driver_calls: step.driver_calls(),
            spent,
        })
    })
}

fn print_table(table: &Table, rows: &[Row]) {
    println!();
    println!(
        "{:>7} {:>9} {:>9} {:>13} {:>13} {:>15} {:>15}  call",
        "ratio", "ours ns", "Rust ns", table.name, "driver calls", "doublings", "an entry"
    );
    for (at, row) in rows.iter().enumerate() {
        let above = at.checked_sub(1).map(|above| &rows[above]);
        let above = above.filter(|above| above.listed == row.listed);
        let doubled = above.and_then(|above| doublings(above, row));
        let entry = above.map(|above| entry(above, row));
        println!(
            "{:>7.1} {:>9} {:>9} {:>13} {:>13} {} {}  {}",
            row.spent.ratio(),
            row.spent.ours,
            row.spent.rust,
            row.size,
            row.driver_calls,
            pair(doubled),
            pair(entry),
            row.listed
        );
    }
}

fn pair(numbers: Option<(f64, f64)>) -> String {
    match numbers {
        Some((ours, rust)) => format!("{ours:>7.1} {rust:>7.1}"),
        None => format!("{:>7} {:>7}", "-", "-"),
    }
}

/// Ours and the Rust's. An empty table cannot double.
fn doublings(above: &Row, row: &Row) -> Option<(f64, f64)> {
    let doubled = |from: u64, to: u64| (to as f64 / from as f64).log2();
    let table = doubled(above.size as u64, row.size as u64);
    (above.size > 0).then(|| {
        let ours = doubled(above.spent.ours, row.spent.ours);
        let rust = doubled(above.spent.rust, row.spent.rust);
        (ours / table, rust / table)
    })
}

fn entry(above: &Row, row: &Row) -> (f64, f64) {
    let more = (row.size - above.size) as f64;
    let each = |from: u64, to: u64| (to as f64 - from as f64) / more;
    let ours = each(above.spent.ours, row.spent.ours);
    (ours, each(above.spent.rust, row.spent.rust))
}

/// Apart: calls that make as many driver calls at every size, and those that make more.
fn print_steepest(table: &Table, rows: &[Row]) {
    let steepest = |more: bool| {
        let lines = rows
            .windows(2)
            .filter(|lines| lines[0].listed == lines[1].listed);
        let lines = lines.filter(|lines| (lines[0].driver_calls < lines[1].driver_calls) == more);
        let steep: Vec<(f64, f64)> = lines
            .filter_map(|lines| doublings(&lines[0], &lines[1]))
            .collect();
        let most = |side: fn(&(f64, f64)) -> f64| steep.iter().map(side).fold(f64::MIN, f64::max);
        format!("{:.1} and {:.1}", most(|pair| pair.0), most(|pair| pair.1))
    };
    let (same, more) = (steepest(false), steepest(true));
    println!(
        "    {}: {same} with the same driver calls, {more} with more of them",
        table.name
    );
}

/// Free regions of one page, each on a stream of its own, so that none merge.
fn free_regions(size: usize) -> Maker {
    let mut maker = Maker::open();
    let buffers: Vec<u64> = (1..=size)
        .map(|stream| maker.malloc(1, stream, UNLISTED))
        .collect();
    for address in buffers {
        maker.free(address, UNLISTED);
    }
    assert_eq!(maker.tables().free.len(), size);
    maker
}

fn regions(size: usize) -> Vec<Step> {
    let (middle, other) = (size.div_ceil(2), size + 1);
    let mut maker = free_regions(size);
    let address = maker.malloc(1, middle, Some("fit, own stream"));
    maker.free(address, Some("free"));
    maker.last_complete();
    let address = maker.malloc(1, other, Some("fit, every region asked"));
    maker.free(address, UNLISTED);
    maker.none_complete();
    if size > 1 {
        maker.malloc(2, size + 2, Some("make room, two pulled"));
    }
    maker.end()
}

fn pulled(size: usize) -> Vec<Step> {
    let mut maker = free_regions(size);
    maker.malloc(size, size + 1, Some("make room, every region pulled"));
    assert_eq!(maker.tables().zombies.len(), size);
    maker.end()
}

/// A buffer of one page beside one of all other pages.
fn pages(size: usize) -> Vec<Step> {
    let mut maker = Maker::open();
    if size > 1 {
        maker.malloc(size - 1, 1, UNLISTED);
    }
    let address = maker.malloc(1, 1, Some("make room, one page"));
    assert_eq!(maker.tables().pages.len(), size);
    maker.free(address, Some("free"));
    maker.malloc(1, 1, Some("fit"));
    maker.close(Some("close"));
    maker.end()
}

fn made(size: usize) -> Vec<Step> {
    let mut maker = Maker::open();
    maker.malloc(size, 1, Some("make room, every page"));
    maker.end()
}

/// Two pages that were moved until they have left so many zombies.
fn zombies(size: usize) -> Vec<Step> {
    let mut maker = Maker::open();
    let mut both = maker.malloc(2, 1, UNLISTED);
    while maker.tables().zombies.len() < size {
        both = move_two(&mut maker, both);
    }
    assert_eq!(maker.tables().zombies.len(), size);
    maker.free(both, Some("free"));
    maker.malloc(2, 1, Some("fit, none complete"));
    let address = maker.malloc(1, 1, Some("make room, one page"));
    maker.free(address, UNLISTED);
    maker.all_complete();
    maker.malloc(1, 1, Some("fit, every zombie cleaned up"));
    assert_eq!(maker.tables().zombies.len(), 0);
    maker.end()
}

/// The buffer of two pages becomes two free regions, which do not merge, being on two streams; a
/// malloc that neither can serve moves both pages and leaves two zombies.
fn move_two(maker: &mut Maker, both: u64) -> u64 {
    maker.free(both, UNLISTED);
    let first = maker.malloc(1, 1, UNLISTED);
    maker.last_complete();
    let second = maker.malloc(1, 2, UNLISTED);
    maker.none_complete();
    maker.free(first, UNLISTED);
    maker.free(second, UNLISTED);
    maker.malloc(2, 1, UNLISTED)
}
