//! 01's "Numbers to check" and the limits.
mod common;
use common::*;
use model::*;

#[test]
fn p1_translation() {
    assert_eq!(slot_of(0x0040_1234), 1);
    let global = global_of(0x12345, offset_of(0x0040_1234));
    assert_eq!(global, 0x048_D140_1234);
    assert_eq!(page_of(global), 0x048D_1401);
    // The same by calls: the byte lands at that global address.
    let mut b = Board::fresh(shape(2, 0, 1, 4));
    assert_eq!(b.map(0x048D_1401, 1, true), DONE);
    assert_eq!(b.attach(0, 1, 0x12345, true), DONE);
    assert_eq!(b.user_access(0, true, 1, 0x0040_1234, 0x5A), done(0, REFILLED));
    assert_eq!(b.supervisor_access(false, 1, 0x048_D140_1234, 0), done(0x5A, HIT));
    let place = place_of(0x048_D140_123, 4);
    assert_eq!(b.record(place), rec(0x048_D140_123, 256 + 0x23, true, true));
}

#[test]
fn p2_p3_p4_entries() {
    assert_eq!(entry_of(0x048D_1401), (0, 0xFFC_1234_5004));
    assert_eq!(entry_of(page_of(0xFFC_1234_5004)), (0, 0xFFF_FF04_8D14));
    assert_eq!(entry_of(0xFFFF_FFFF), (0, 0xFFF_FFFF_FFFC));
}

/// CR 5's two pages, and the other ends.
#[test]
fn entries_that_cannot_exist() {
    assert_eq!(entry_of(0x1F_FFFF), (2, 0));
    assert_eq!(entry_of(0x20_0000), (0, 0xFFC_0080_0000));
    for page in [0, 1, 0xF_FFFF, 0x10_0000, 1 << 32, (1 << 32) + 0x20_0000, 1 << 62, u64::MAX] {
        assert_eq!(entry_of(page), (2, 0), "page {page:#x}");
    }
    // The pages that are refused are those under prefixes 0 and 1, at both ends of each.
    for page in [0, 0xF_FFFF, 0x10_0000, 0x1F_FFFF, 0x20_0000, PAGE_LAST, PAGE_LAST + 1, 0xFFFF_FFFF] {
        let by_prefix = matches!(kind_of(page * PAGE_BYTES), Kind::Uncached(_) | Kind::Cached(_));
        assert_eq!(entry_of(page).0 == 2, by_prefix, "page {page:#x}");
    }
}

#[test]
fn p5_to_p9_regions() {
    assert_eq!(kind_of(0x000_FFFF_FFFF), Kind::Uncached(0xFFFF_FFFF));
    assert_eq!(kind_of(0x001_0000_0000), Kind::Cached(0));
    assert_eq!(kind_of(0x001_FFFF_FFFF), Kind::Cached(0xFFFF_FFFF));
    assert_eq!(kind_of(0x002_0000_0000), Kind::Ordinary);
    assert_eq!(kind_of(0xFFB_FFFF_FFFF), Kind::Ordinary);
    assert_eq!(kind_of(0xFFC_0000_0000), Kind::PageTable);
    assert_eq!(kind_of(0xFFF_FFFF_FFFF), Kind::PageTable);
    // Region ends agree with the ranges of pages, names and segments.
    assert_eq!(page_of(0x002_0000_0000), PAGE_FIRST);
    assert_eq!(page_of(0xFFB_FFFF_FFFF), PAGE_LAST);
    assert_eq!(global_of(SEGMENT_FIRST, 0), 0x002_0000_0000);
    assert_eq!(global_of(SEGMENT_LAST, (1 << 22) - 1), 0xFFB_FFFF_FFFF);
    assert!(!name_in_range(0x1FFF_FFFF) && name_in_range(0x2000_0000));
    assert!(name_in_range(0xFF_BFFF_FFFF) && !name_in_range(0xFF_C000_0000));
    assert!(name_in_range(0xF_FBFF_FFFF + 1), "beyond the misprinted end");
    assert!(!name_in_range(u64::MAX) && !page_in_range(u64::MAX) && !segment_in_range(u64::MAX));
}

#[test]
fn p10_p11_segments() {
    for (segment, number) in [
        (2047, 2),
        (2048, 0),
        (4_190_207, 0),
        (4_190_208, 2),
        (0, 2),
        (1 << 22, 2),
        (u64::MAX, 2),
        ((1 << 32) + 2048, 2),
    ] {
        let mut b = ready();
        assert_eq!(b.attach(0, 5, segment, true), no(number), "{segment}");
    }
}

#[test]
fn p12_user_end() {
    let mut b = ready();
    assert_eq!(b.attach(0, 511, 4_190_207, true), DONE);
    assert_eq!(b.map(0xFFBF_FFFF, 2, true), DONE);
    assert_eq!(b.user_access(0, true, 1, 0x7FFF_FFFF, 8), done(0, REFILLED));
    assert_eq!(b.user_access(0, false, 1, 0x7FFF_FFFF, 0), done(8, HIT));
    assert_eq!(b.user_access(0, false, 1, 0x8000_0000, 0), no(5));
    assert_eq!(b.user_access(0, false, 4, 0xFFFF_FFFC, 0), no(5));
}

#[test]
fn width_4_at_2() {
    let mut b = ready();
    assert_eq!(b.user_access(0, false, 4, 2, 0), no(4));
    assert_eq!(b.supervisor_access(false, 4, 2, 0), no(4));
    assert_eq!(b.user_access(0, false, 2, 2, 0), done(0, REFILLED));
    for width in [0, 3, 5, 8, u32::MAX] {
        assert_eq!(b.user_access(0, false, width, 0, 0), no(4));
        assert_eq!(b.supervisor_access(false, width, 0, 0), no(4));
    }
}

/// CR 2: "A caller stored 300 with width 1 and got 44." What a width holds, at both ends, and widths that are none: for a
/// user's store and a supervisor's, and for loads with the same values.
#[test]
fn values_and_widths() {
    let calls = |store, width, value| {
        let supervisor = |global| Call::SupervisorAccess { store, width, global, value };
        let user = Call::UserAccess { process: 0, store, width, address: 4, value };
        [user, supervisor(0x2_0000_0004), supervisor(0x1_0000_2004), supervisor(4)]
    };
    let largest = [(1, Some(255)), (2, Some(65_535)), (4, Some(u32::MAX))];
    let none = [0, 3, 5, 8, u32::MAX].map(|width| (width, None));
    for (width, largest) in largest.into_iter().chain(none) {
        for value in [0, 1, 44, 255, 256, 300, 65_535, 65_536, 1 << 24, u32::MAX] {
            let (loaded, stored) = match largest {
                Some(largest) => (0, if value <= largest { 0 } else { 2 }),
                None => (4, 4),
            };
            for (store, load) in calls(true, width, value).iter().zip(&calls(false, width, value)) {
                let mut b = ready();
                let mut plain = Plain::of(&b);
                let first = b.clone().step(load).0;
                assert_eq!(first.number, loaded, "{load:?}");
                let answer = b.step(store).0;
                assert_eq!((answer.number, answer.value), (stored, 0), "{store:?}");
                assert_eq!(plain.step(store), PlainAnswer { number: stored, value: 0 }, "{store:?}");
                // Loaded back, the value is whole, or what was there before.
                let (now, last) = (b.step(load).0, plain.step(load));
                assert_eq!(now.value, if stored == 0 { value } else { first.value }, "{store:?}");
                assert_eq!((last.number, last.value), (now.number, now.value), "{store:?}");
            }
        }
    }
}

#[test]
fn line_counts() {
    // "01's case L = 65,536 becomes taken and 131,072 gives 1."
    let far = [(32_768, 0), (65_535, 1), (65_536, 0), (65_537, 1), (131_072, 1)];
    let near = [(0, 1), (1, 0), (2, 0), (3, 1), (4, 0), (6, 1)];
    let near_fours = [(0, 1), (1, 1), (2, 1), (3, 1), (4, 0), (6, 1), (8, 0)];
    for (edition, near) in [(Edition::Ones, &near[..]), (Edition::Fours, &near_fours[..])] {
        for &(lines, number) in near.iter().chain(&far) {
            let mut b = Board::fresh_of(edition, shape(2, 1, 1, lines));
            assert_eq!(b.look(0).0, number, "{edition:?} {lines}");
            assert_eq!(b.flush_all(), no(number), "{edition:?} {lines}");
        }
    }
}

#[test]
fn largest_cache() {
    let last = PROCESSES_MAX - 1;
    let mut b = Board::fresh(shape(3, 0, PROCESSES_MAX, LINES_MAX));
    assert_eq!(b.map(0xFFBF_FFFF, 2, true), DONE);
    assert_eq!(b.attach(last + 1, 511, 4_190_207, true), no(2));
    assert_eq!(b.attach(last, 511, 4_190_207, true), DONE);
    assert_eq!(b.user_access(last, true, 4, 0x7FFF_FFFC, 0x0708_090A), done(0, REFILLED));
    assert_eq!(b.record(LINES_MAX - 1), rec(0xFF_BFFF_FFFF, 2 * 256 + 255, true, true));
    assert_eq!(b.look(2 * 256 + 255).1[12..], [7, 8, 9, 10]);
    assert_eq!(b.unmap(0xFFBF_FFFF), DONE);
    assert_eq!(b.memory[3 * 4096 - 4..], [7, 8, 9, 10]);
}

#[test]
fn limits_alone() {
    Edition::ALL.into_iter().for_each(limits_of);
}

fn limits_of(edition: Edition) {
    let good = shape(4, 1, 2, 8);
    assert!(limits_hold(edition, &good));
    for (frames, ok) in [(0, false), (1, true), (1_048_576, true), (1_048_577, false), (u64::MAX, false)] {
        assert_eq!(limits_hold(edition, &Shape { frames, uncached: 0, ..good }), ok, "F {frames}");
    }
    for (uncached, ok) in [(0, true), (4, true), (5, false), (u64::MAX, false)] {
        assert_eq!(limits_hold(edition, &Shape { uncached, ..good }), ok, "U {uncached}");
    }
    for (processes, ok) in [(0, false), (1, true), (17, true), (64, true), (65, false), (u64::MAX, false)] {
        assert_eq!(limits_hold(edition, &Shape { processes, ..good }), ok, "P {processes}");
    }
    for lines in 0..140_000u64 {
        // "L below 4 gives 1" with sets of four.
        let least = if edition == Edition::Fours { 4 } else { 1 };
        let ok = lines >= least && lines <= 65_536 && lines.is_power_of_two();
        assert_eq!(limits_hold(edition, &Shape { lines, ..good }), ok, "L {lines}");
    }
    for lines in [u64::MAX, 1 << 63, 1 << 32] {
        assert!(!limits_hold(edition, &Shape { lines, ..good }));
    }
}

#[test]
fn record_words() {
    for second in [0, 1, 2, 4, 7, 8, 4096 * 8 + 5, u64::MAX, u64::MAX - 1] {
        assert_eq!(Record::decode(99, second).encode(), (99, second));
    }
    assert_eq!(rec(5, 3, true, false).encode(), (5, 3 * 8 + 4 + 1));
    assert_eq!(rec(5, 3, false, true).encode(), (5, 3 * 8 + 2 + 1));
}
