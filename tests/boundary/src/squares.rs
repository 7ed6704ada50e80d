//! Differences of coordinates whose squares make k² - 1, k² or k² + 1.

use reference::seeded::Seeded;

/// The largest difference of two coordinates.
const MOST: i64 = 100_000_000_000;

/// Three differences, and the k and what is more than k² that their squares make.
#[derive(Clone, Copy, Debug)]
pub struct Beside {
    pub differences: [i64; 3],
    pub k: i64,
    pub more: i64,
}

impl Beside {
    /// The greatest whole number whose square is not above the sum, for k from 1 up.
    pub fn root(&self) -> u64 {
        (if self.more < 0 { self.k - 1 } else { self.k }) as u64
    }

    fn holds(&self) -> bool {
        let square = |v: i64| i128::from(v) * i128::from(v);
        self.differences.into_iter().map(square).sum::<i128>() == square(self.k) + i128::from(self.more)
    }
}

/// A k of every size up to a limit, which is 1 at least.
fn a_root(seeded: &mut Seeded, limit: i64) -> i64 {
    seeded.spread(limit).abs().max(1)
}

/// k² and k² + 1 as they stand, and k² - 1 as (k - 1)² + y² + z², where y² + z² is 2(k - 1).
fn straight(seeded: &mut Seeded, limit: i64) -> [Beside; 3] {
    let k = a_root(seeded, limit);
    let half = (limit as f64).sqrt() as i64 - 1;
    let (y, z) = (seeded.spread(half), seeded.spread(half));
    let z = z + (y + z).rem_euclid(2);
    let below = (y * y + z * z) / 2;
    [
        Beside { differences: [k, 0, 0], k, more: 0 },
        Beside { differences: [k, 1, 0], k, more: 1 },
        Beside { differences: [below, y, z], k: below + 1, more: -1 },
    ]
}

/// Directions in which a difference along one axis is mirrored to one along all three.
const MIRRORS: [[i64; 3]; 5] = [[1, 1, 1], [2, 1, 1], [3, 1, 1], [8, 3, 3], [11, 4, 4]];

/// The differences mirrored at the plane across a direction: the sum of their squares stays. None where they are not whole then.
fn mirrored(mut beside: Beside, direction: [i64; 3]) -> Option<Beside> {
    let of = |v: [i64; 3]| (0..3).map(|i| i128::from(direction[i]) * i128::from(v[i])).sum::<i128>();
    let (along, length) = (2 * of(beside.differences), of(direction));
    if along % length != 0 {
        return None;
    }
    for (difference, d) in beside.differences.iter_mut().zip(direction) {
        *difference -= (along / length) as i64 * d;
    }
    Some(beside)
}

/// In another order and with other signs.
fn turned(seeded: &mut Seeded, mut beside: Beside) -> Beside {
    beside.differences.rotate_left(seeded.below(3) as usize);
    let signs = seeded.bits();
    for (i, difference) in beside.differences.iter_mut().enumerate() {
        *difference *= if signs >> i & 1 == 0 { 1 } else { -1 };
    }
    beside
}

/// k² - 1, k² and k² + 1 along one axis, and mirrored to all three, where k goes up to 171,910,112,359.
pub fn beside_squares(seeded: &mut Seeded, mut each: impl FnMut(&mut Seeded, Beside)) {
    for beside in straight(seeded, MOST - 1) {
        let beside = turned(seeded, beside);
        each(seeded, beside);
    }
    let direction = seeded.pick(&MIRRORS);
    for beside in straight(seeded, MOST / 10 * 18).into_iter().filter_map(|beside| aligned(beside, direction)) {
        assert!(beside.holds(), "{beside:?}");
        if beside.differences.iter().all(|d| d.abs() <= MOST) {
            let beside = turned(seeded, beside);
            each(seeded, beside);
        }
    }
}

/// Mirrored, k made greater by as little as it takes where it is free.
fn aligned(beside: Beside, direction: [i64; 3]) -> Option<Beside> {
    if beside.more < 0 {
        return mirrored(beside, direction);
    }
    (0..200).find_map(|step| {
        let Beside { mut differences, k, more } = beside;
        differences[0] += step;
        mirrored(Beside { differences, k: k + step, more }, direction)
    })
}

/// The whole root of a number, if it has one.
fn whole_root(number: i128) -> Option<i64> {
    let near = (number as f64).sqrt() as i64;
    (near - 1..=near + 1).find(|root| i128::from(*root) * i128::from(*root) == number)
}

/// Differences 10^11 - a, 10^11 - b and 10^11 - c with this sum of squares, where a is the least, if a + b + c is this.
fn with_sum(sum: i128, together: i64) -> Option<[i64; 3]> {
    let most = i128::from(MOST);
    // a² + b² + c²
    let squares = sum - 3 * most * most + 2 * most * i128::from(together);
    if 3 * squares < i128::from(together).pow(2) || squares > i128::from(together).pow(2) {
        return None;
    }
    (0..=together / 3).find_map(|a| {
        let rest = i128::from(together - a);
        let apart = whole_root(2 * (squares - i128::from(a * a)) - rest * rest)?;
        let (b, odd) = ((together - a + apart) / 2, (together - a + apart) % 2 != 0);
        let c = together - a - b;
        (!odd && c >= 0).then_some([MOST - a, MOST - b, MOST - c])
    })
}

/// So many of k² - 1, of k² and of k² + 1, from the largest k down for which there are such differences.
pub fn near_the_largest(count: usize, mut each: impl FnMut(Beside)) {
    let most = i128::from(MOST);
    for more in [-1, 0, 1] {
        let mut found = 0;
        for k in (1..=173_205_080_756i64).rev() {
            let sum = i128::from(k) * i128::from(k) + i128::from(more);
            let least = ((3 * most * most - sum) / (2 * most)) as i64;
            for differences in (least..least + 3).filter_map(|together| with_sum(sum, together)) {
                let beside = Beside { differences, k, more };
                assert!(beside.holds(), "{beside:?}");
                each(beside);
                found += 1;
            }
            if found >= count {
                break;
            }
        }
    }
}
