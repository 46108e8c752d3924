//! The judge: for each of R1 to R10, traces that break it and the nearest that keep it.

mod common;

use common::judging::*;

#[test]
fn r1_reserve() {
    rejects_record(OPENED, "reserve 0 40 0", 1);
    rejects_record(OPENED, "reserve 1042 40 0", 1);
    rejects_record(OPENED, "reserve 1000 40 0", 1);
    rejects_record(OPENED, "reserve 1036 40 0", 1);
    rejects_record(OPENED, "reserve 964 40 0", 1);
    rejects_record(OPENED, "reserve 2000 44 0", 1);
    rejects_record(OPENED, "reserve 2000 36 0", 1);
    rejects_record(OPENED, "reserve 18446744073709551612 40 0", 1);
    accepts_record(
        OPENED,
        "reserve 1040 40 0\nreserve 960 40 0\nreserve 4 40 0",
    );
    // One given back is held no more.
    accepts_record(OPENED, "giveback 1000 40 0\nreserve 1004 40 0");
}

#[test]
fn r1_addresses_end_at_2_to_the_63() {
    rejects_record(OPENED, "reserve 9223372036854775772 40 0", 1);
    accepts_record(OPENED, "reserve 9223372036854775768 40 0");
    rejects(
        "",
        "open 1 9223372036854775808 0\nreserve 1 9223372036854775808 0",
        1,
    );
    rejects(
        "",
        "open 1 9223372036854775807 0\nreserve 2 9223372036854775807 0",
        1,
    );
    accepts(
        "",
        "open 1 9223372036854775807 0\nreserve 1 9223372036854775807 0\nresult 0 0 0",
    );
    rejects(
        "",
        "open 1 18446744073709551615 0\nreserve 1 18446744073709551615 0",
        1,
    );
}

#[test]
fn r1_va_size_is_a_nonzero_page_multiple() {
    rejects("", "open 4 0 0\nreserve 1000 0 0", 1);
    rejects("", "open 4 42 0\nreserve 1000 42 0", 1);
    rejects("", "open 80 40 0\nreserve 1600 40 0", 1);
    accepts("", "open 4 42 0\nreserve 1000 42 1\nresult 0 0 0");
    accepts("", "open 40 40 0\nreserve 1600 40 0\nresult 0 0 0");
}

#[test]
fn r2_create() {
    rejects_record(MADE, "create 71 4 0", 2);
    rejects_record(MADE, "create 72 9 0", 2);
    rejects_record(MADE, "create 0 4 0\ncreate 0 4 0", 2);
    accepts_record(MADE, "create 0 4 0\ncreate 18446744073709551615 9 0");
    accepts_record(MADE, "unmap 1000 4 0\nrelease 71 0 0\ncreate 71 4 0");
}

#[test]
fn r3_map() {
    rejects_record(MADE, "map 996 71 0", 3);
    rejects_record(MADE, "map 1040 71 0", 3);
    rejects_record(MADE, "map 1010 71 0", 3);
    rejects_record(MADE, "map 1000 72 0", 3);
    rejects_record(MADE, "map 1004 72 0", 3);
    rejects_record(MADE, "map 1008 73 0", 3);
    rejects_record(MADE, "map 18446744073709551612 71 0", 3);
    accepts_record(MADE, "map 1008 71 0\nmap 1036 71 0");
    accepts_record(MADE, "unmap 1000 4 0\nmap 1000 72 0");
    let back = "unmap 1000 8 0\ngiveback 1000 40 0";
    rejects_record(MADE, &format!("{back}\nmap 1000 71 0"), 3);
    accepts_record(MADE, &format!("{back}\nreserve 960 40 0\nmap 996 71 0"));
}

#[test]
fn r4_unmap() {
    rejects_record(MADE, "unmap 1000 0 0", 4);
    rejects_record(MADE, "unmap 1000 2 0", 4);
    rejects_record(MADE, "unmap 1002 4 0", 4);
    rejects_record(MADE, "unmap 1000 12 0", 4);
    rejects_record(MADE, "unmap 1008 4 0", 4);
    rejects_record(MADE, "unmap 996 8 0", 4);
    rejects_record(MADE, "unmap 1000 18446744073709550616 0", 4);
    rejects_record(MADE, "unmap 1000 18446744073709551612 0", 4);
    rejects_record(MADE, "unmap 1000 4 0\nunmap 1000 8 0", 4);
    rejects_record(&with_live(), "unmap 1000 4 0", 4);
    rejects_record(&with_live(), "unmap 1000 8 0", 4);
    accepts_record(&with_live(), "unmap 1004 4 0");
    accepts_record(MADE, "unmap 1000 8 0");
    accepts_record(MADE, "unmap 1004 4 0\nunmap 1000 4 0");
}

/// Pages side by side in two reservations that touch.
const ACROSS: &str = "reserve 1040 40 0\nmap 1036 71 0\nmap 1040 72 0\n";

#[test]
fn r4_and_r6_may_cross_touching_reservations() {
    accepts_record(MADE, &format!("{ACROSS}access 1036 8 0\nunmap 1036 8 0"));
    let apart = "reserve 1044 40 0\nmap 1036 71 0\nmap 1044 72 0\n";
    rejects_record(MADE, &format!("{apart}access 1036 12 0"), 6);
    rejects_record(MADE, &format!("{apart}unmap 1036 12 0"), 4);
}

#[test]
fn r5_release() {
    rejects_record(MADE, "release 71 0 0", 5);
    rejects_record(MADE, "release 70 0 0", 5);
    rejects_record(MADE, "unmap 1000 4 0\nrelease 71 0 0\nrelease 71 0 0", 5);
    rejects_record(MADE, "map 1008 71 0\nunmap 1000 4 0\nrelease 71 0 0", 5);
    accepts_record(MADE, "map 1008 71 0\nunmap 1000 12 0\nrelease 71 9 0");
    accepts_record(MADE, "create 73 4 0\nrelease 73 0 0");
}

#[test]
fn r6_access() {
    rejects_record(MADE, "access 1000 0 0", 6);
    rejects_record(MADE, "access 1000 6 0", 6);
    rejects_record(MADE, "access 1001 4 0", 6);
    rejects_record(MADE, "access 1000 12 0", 6);
    rejects_record(MADE, "access 996 4 0", 6);
    rejects_record(MADE, "access 1004 18446744073709551612 0", 6);
    rejects_record(MADE, "unmap 1000 4 0\naccess 1000 8 0", 6);
    accepts_record(MADE, "unmap 1000 4 0\naccess 1004 4 0");
    accepts_record(&with_live(), "access 1000 8 0");
}

#[test]
fn r7_malloc() {
    rejects(MADE, "malloc 4 1 0\nresult 1000 8 0", 7);
    rejects(MADE, "malloc 8 1 0\nresult 1000 4 0", 7);
    rejects(MADE, "malloc 0 1 0\nresult 1000 0 0", 7);
    rejects(MADE, "malloc 2 1 0\nresult 1000 2 0", 7);
    rejects(MADE, "malloc 4 1 0\nresult 1002 4 0", 7);
    rejects(MADE, "malloc 12 1 0\nresult 1000 12 0", 7);
    rejects(MADE, "malloc 4 1 0\nresult 0 4 0", 7);
    rejects(
        MADE,
        "malloc 18446744073709551612 1 0\nresult 1004 18446744073709551612 0",
        7,
    );
    accepts(MADE, "malloc 8 1 0\nresult 1000 8 0");
    accepts(MADE, "malloc 4 1 9\nresult 1004 4 0");
    accepts(MADE, "malloc 2 1 0\nresult 1002 2 14");
    accepts(MADE, &format!("malloc 8 1 0\n{ACROSS}result 1036 8 0"));
}

#[test]
fn r7_no_live_overlap() {
    rejects(&with_live(), "malloc 4 1 0\nresult 1000 4 0", 7);
    rejects(&with_live(), "malloc 8 1 0\nresult 1000 8 0", 7);
    let both = format!("{MADE}malloc 8 7 0\nresult 1000 8 0\n");
    rejects(&both, "malloc 4 1 0\nresult 1004 4 0", 7);
    accepts(&with_live(), "malloc 4 1 0\nresult 1004 4 0");
    accepts(
        &both,
        "free 1000 0 0\nresult 8 7 0\nmalloc 4 1 0\nresult 1004 4 0",
    );
}

#[test]
fn r7_no_handle_twice() {
    let twice = "malloc 8 1 0\nmap 1008 72 0\nmap 1012 71 0\n";
    rejects(MADE, &format!("{twice}result 1004 8 0"), 7);
    accepts(MADE, &format!("{twice}result 1008 8 0"));
    rejects(&with_live(), &format!("{twice}result 1008 8 0"), 7);
    let elsewhere = "malloc 4 1 0\nmap 1008 71 0\n";
    rejects(&with_live(), &format!("{elsewhere}result 1008 4 0"), 7);
    accepts(MADE, &format!("{elsewhere}result 1008 4 0"));
    accepts(
        &with_live(),
        &format!("free 1000 0 0\nresult 4 7 0\n{elsewhere}result 1008 4 0"),
    );
}

#[test]
fn r8_free() {
    rejects(&with_live(), "free 1000 0 0\nresult 8 7 0", 8);
    rejects(&with_live(), "free 1000 0 0\nresult 4 1 0", 8);
    rejects(&with_live(), "free 1004 0 0\nresult 4 7 0", 8);
    rejects(&with_live(), "free 1002 0 0\nresult 4 7 0", 8);
    rejects(MADE, "free 1000 0 0\nresult 4 1 0", 8);
    let freed = format!("{}free 1000 5 5\nresult 4 7 0\n", with_live());
    rejects(&freed, "free 1000 0 0\nresult 4 7 0", 8);
    accepts(&freed, "free 1000 0 0\nresult 1000 0 16");
    // Any other answer ends no buffer.
    accepts(
        &with_live(),
        "free 1000 0 0\nresult 9 0 14\nfree 1000 0 0\nresult 4 7 0",
    );
}

#[test]
fn r9_events() {
    rejects_record(MADE, "record 5 1 0", 9);
    rejects_record(MADE, "record 4 1 0", 9);
    rejects_record(MADE, "asked 6 0 0", 9);
    rejects_record(MADE, "wait 6 1 0", 9);
    rejects_record(OPENED, "asked 0 0 0", 9);
    rejects_record(OPENED, "wait 0 1 0", 9);
    accepts_record(
        MADE,
        "asked 5 0 0\nasked 0 9 0\nwait 5 9 0\nrecord 6 1 0\nwait 6 1 0",
    );
    accepts_record(OPENED, "record 0 1 0\nasked 0 1 0");
    let last = "record 18446744073709551615 1 0\nasked 18446744073709551615 1 0";
    accepts_record(MADE, last);
    rejects_record(MADE, &format!("{last}\nrecord 0 1 0"), 9);
    rejects_record(MADE, &format!("{last}\nrecord 18446744073709551615 1 0"), 9);
}

#[test]
fn r10_giveback() {
    rejects_record(OPENED, "giveback 1004 40 0", 10);
    rejects_record(OPENED, "giveback 1000 36 0", 10);
    rejects_record(OPENED, "giveback 1000 0 0", 10);
    rejects_record(OPENED, "giveback 1000 40 0\ngiveback 1000 40 0", 10);
    rejects_record(MADE, "giveback 1000 40 0", 10);
    rejects_record(MADE, "unmap 1000 4 0\ngiveback 1000 40 0", 10);
    accepts_record(MADE, "unmap 1000 8 0\ngiveback 1000 40 0");
    // What is mapped in a reservation that touches it does not count.
    accepts_record(
        MADE,
        "reserve 1040 40 0\nreserve 960 40 0\ngiveback 960 40 0\ngiveback 1040 40 0",
    );
    rejects_record(
        MADE,
        "map 1036 71 0\nunmap 1000 8 0\ngiveback 1000 40 0",
        10,
    );
}
