//! Common view by hand: what a pair is, what is reported, what is refused and in which order; and the same by looking
//! at every two lines.

use super::merging::{ascending, faulty_lines, line_at, with};
use crate::good_files::{lines_in, long_file, put_trkl, seen_again, with_refsys, Span};
use crate::seeded::Seeded;
use crate::{common_view, view_values, View, FILE_LINE_BYTES, LONGEST_FILE};

/// The largest REFSYS that a line holds.
const MOST: i64 = 9_999_999_999;

fn report(pairs: i64, sum: i64, smallest: i64, largest: i64) -> Result<View, u32> {
    Ok(View { pairs, sum, smallest, largest })
}

/// The sample's line for another satellite, with a track length and REFSYS in columns.
fn seen(satellite: &str, trkl: &str, refsys: &str) -> Vec<u8> {
    with(&[(1, satellite), (21, trkl), (54, refsys)])
}

/// The same by another way: every two lines, compared by the text of their columns, REFSYS read by the standard
/// library, and the differences sorted.
fn by_every_two(first: &[u8], second: &[u8]) -> Result<View, u32> {
    let five = |line: &[u8]| [&line[7..12], &line[13..19], &line[..3], &line[20..24]].concat();
    let refsys = |line: &[u8]| String::from_utf8_lossy(&line[53..64]).parse::<i64>().expect("a number");
    let mut differences: Vec<i64> = Vec::new();
    for line in first.chunks(115) {
        let partners = second.chunks(115).filter(|other| five(other) == five(line));
        differences.extend(partners.map(|other| refsys(line) - refsys(other)));
    }
    differences.sort_unstable();
    match differences[..] {
        [] => Err(18),
        [smallest, .., largest] => report(differences.len() as i64, differences.iter().sum(), smallest, largest),
        [only] => report(1, only, only, only),
    }
}

/// What the two give the other way round.
fn turned(view: Result<View, u32>) -> Result<View, u32> {
    view.map(|View { pairs, sum, smallest, largest }| View { pairs, sum: -sum, smallest: -largest, largest: -smallest })
}

/// Both ways round.
fn check(first: &[&[u8]], second: &[&[u8]], wanted: Result<View, u32>) {
    assert_eq!(common_view(&first.concat(), &second.concat()), wanted);
    assert_eq!(common_view(&second.concat(), &first.concat()), turned(wanted));
}

#[test]
fn pairs_by_hand() {
    let one = seen("G01", "0780", "+0000000315");
    let two = seen("G02", "0780", "-0000000040");
    let three = seen("G03", "0060", "+0000000007");
    let one_again = seen("G01", "0780", "+0000000300");
    let two_again = seen("G02", "0780", "+0000000002");
    let three_again = seen("G03", "0060", "+0000000007");
    let four = seen("G04", "0780", "+0000000001");
    check(&[&one], &[&one_again], report(1, 15, 15, 15));
    check(&[&two], &[&two_again], report(1, -42, -42, -42));
    check(&[&three], &[&three_again], report(1, 0, 0, 0));
    check(&[&one, &two], &[&one_again, &two_again], report(2, -27, -42, 15));
    check(&[&one, &two, &three], &[&one_again, &two_again, &three_again], report(3, -27, -42, 15));
    check(&[&one, &three, &four], &[&one_again, &two_again, &three_again], report(2, 15, 0, 15));
    check(&[&two, &three], &[&one_again, &two_again, &three_again, &four], report(2, -42, -42, 0));
    check(&[&one, &two, &three, &four], &[&four], report(1, 0, 0, 0));
    // all differences above 0, all below: neither end is 0
    check(&[&one, &four], &[&one_again, &seen("G04", "0780", "-0000000005")], report(2, 21, 6, 15));
}

#[test]
fn a_pair_shares_five() {
    let line = line_at("50722", "001800", "G05");
    check(&[&line], &[&line], report(1, 0, 0, 0));
    for other in [
        line_at("51081", "001800", "G05"),
        line_at("50722", "003400", "G05"),
        line_at("50722", "001800", "J05"),
        line_at("50722", "001800", "G06"),
        with(&[(14, "001800"), (21, "0765")]),
    ] {
        assert_ne!(line, other);
        check(&[&line], &[&other], Err(18));
    }
}

#[test]
fn all_else_may_differ() {
    let line = seen("G05", "0780", "+0000000123");
    let before = [(5, "00"), (26, "451"), (30, "1801"), (35, "-9999999999"), (47, "-00001")];
    let behind = [(66, "+00001"), (73, "0001"), (78, "008"), (82, "0001"), (87, "-001"), (92, "0001"), (97, "-001")];
    for (column, text) in before.into_iter().chain(behind).chain([(105, "01"), (108, "L1P")]) {
        let changed = with(&[(column, text)]);
        // the sample's REFSYS is 10
        check(&[&line], &[&changed], report(1, 113, 113, 113));
    }
}

#[test]
fn every_track_length_with_every_other() {
    let lengths: Vec<String> = (4..=52).map(|n| format!("{:04}", 15 * n)).collect();
    for trkl in &lengths {
        for other in &lengths {
            let wanted = if trkl == other { report(1, 5, 5, 5) } else { Err(18) };
            check(&[&seen("G05", trkl, "+0000000007")], &[&seen("G05", other, "+0000000002")], wanted);
        }
    }
}

#[test]
fn every_two_lines_give_the_same() {
    let mut seeded = Seeded::new(7);
    let mut without = 0;
    for _ in 0..2000 {
        let most = seeded.below(40) as usize;
        let lines = lines_in(Span::narrow(&mut seeded), most, &mut seeded);
        let (mut first, mut second) = (Vec::new(), Vec::new());
        for (labels, line) in lines.values() {
            let whose = seeded.below(3);
            let mut other = seen_again(labels, line, &mut seeded);
            if seeded.below(4) == 0 {
                put_trkl(&mut other, 15 * seeded.range(4, 52));
            }
            first.extend((whose != 1).then_some(line).into_iter().flatten());
            second.extend((whose != 0).then_some(other).into_iter().flatten());
        }
        let wanted = by_every_two(&first, &second);
        without += u32::from(wanted.is_err());
        check(&[&first], &[&second], wanted);
        // with itself and with nothing
        let count = (first.len() / FILE_LINE_BYTES) as i64;
        check(&[&first], &[&first], if count > 0 { report(count, 0, 0, 0) } else { Err(18) });
        check(&[&first], &[], Err(18));
    }
    assert!((50..1000).contains(&without), "{without} of 2000 without a pair");
}

#[test]
fn the_largest_differences() {
    let file = long_file(60_000, 10_000, &mut Seeded::new(8));
    let [high, low] = [MOST, -MOST].map(|refsys| with_refsys(&file, |_| refsys));
    check(&[&high], &[&low], report(10_000, 199_999_999_980_000, 19_999_999_998, 19_999_999_998));
    check(&[&high], &[&high], report(10_000, 0, 0, 0));
    let [even, odd] = [0, 1].map(|turn| with_refsys(&file, |i| if i % 2 == turn { MOST } else { -MOST }));
    check(&[&even], &[&odd], report(10_000, 0, -19_999_999_998, 19_999_999_998));
    // 1 to 10,000, of which every third has no partner
    let rising = with_refsys(&file, |i| i as i64 + 1);
    let zeros = with_refsys(&file, |_| 0);
    let some: Vec<&[u8]> = zeros.chunks(115).enumerate().filter(|(i, _)| i % 3 > 0).map(|(_, line)| line).collect();
    check(&[&rising], &[&zeros], report(10_000, 50_005_000, 1, 10_000));
    check(&[&rising], &some, report(6_666, 33_333_333, 2, 9_999));
}

#[test]
fn lengths_over_1150000_are_19() {
    let good = long_file(60_000, 10_000, &mut Seeded::new(9));
    assert_eq!((good.len(), LONGEST_FILE), (1_150_000, 1_150_000));
    let longer = [&good[..], b"G"].concat();
    let line = &good[..115];
    let accepted = report(1, 0, 0, 0);
    check(&[&good], &[line], accepted);
    check(&[&good[..1_149_999]], &[line], Err(12));
    check(&[&longer], &[line], Err(19));
    check(&[&longer], &[&longer], Err(19));
    check(&[&longer], &[&good], Err(19));
    // whatever the files hold
    check(&[&longer], &[&line[..114]], Err(19));
    check(&[&longer], &[], Err(19));
    check(&[&vec![0; 1_150_001]], &[b"no line"], Err(19));
    check(&[&vec![0; 1_150_115]], &[&good], Err(19));
    // a line more, which merge would take
    check(&[line, &long_file(60_100, 10_000, &mut Seeded::new(9))], &[line], Err(19));
    assert_eq!(common_view(&vec![0; 1_150_000], &good), Err(14));
    assert_eq!(common_view(&good, &vec![0; 1_150_000]), Err(14));
}

#[test]
fn no_pair_is_18() {
    let lines = ascending();
    check(&[], &[], Err(18));
    check(&[&lines[0]], &[], Err(18));
    check(&[&lines[..5].concat()], &[&lines[5..].concat()], Err(18));
    let turns = |turn: usize| lines.iter().skip(turn).step_by(2).flatten().copied().collect::<Vec<u8>>();
    check(&[&turns(0)], &[&turns(1)], Err(18));
    let mut others = lines.clone();
    others.iter_mut().for_each(|line| put_trkl(line, 60));
    check(&[&lines.concat()], &[&others.concat()], Err(18));
    // one that is alike is enough
    others[12].clone_from(&lines[12]);
    check(&[&lines.concat()], &[&others.concat()], report(1, 0, 0, 0));
}

#[test]
fn order_of_view() {
    let lines = ascending();
    let (good, falling) = (lines[..3].concat(), [&lines[2][..], &lines[0]].concat());
    let mut lent = [7; 4];
    // each file's refusals before 18 and before 9, the first file's before the second's
    for room in [0, 3, 4] {
        let mut view = |first: &[u8], second: &[u8]| view_values(first, second, &mut lent[..room]);
        for (number, faulty) in faulty_lines() {
            let faulty = [&lines[..2].concat(), &faulty[..]].concat();
            for other in [&good[..], b"", &lines[12], &faulty, &falling, b"tail"] {
                assert_eq!(view(&faulty, other), number);
            }
            for other in [&good[..], b"", &lines[12]] {
                assert_eq!(view(other, &faulty), number);
            }
            assert_eq!((view(&falling, &faulty), view(b"tail", &faulty)), (16, 12));
        }
        assert_eq!((view(b"", b""), view(&good, &lines[12])), (18, 18));
        assert_eq!((view(&good, b"tail"), view(b"", &falling)), (12, 16));
    }
    assert_eq!(lent, [7; 4]);
}

#[test]
fn lent_reports() {
    let [one, two] = ["+0000000315", "+0000000300"].map(|refsys| seen("G05", "0780", refsys));
    for length in 0..10 {
        let mut lent = vec![-1; length];
        let answer = view_values(&one, &two, &mut lent);
        if length < 4 {
            assert_eq!((answer, lent), (9, vec![-1; length]));
        } else {
            assert_eq!((answer, &lent[..4], &lent[4..]), (0, &[1, 15, 15, 15][..], &vec![-1; length - 4][..]));
        }
    }
}
