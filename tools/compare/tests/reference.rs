//! `change_reference`, which the original does not have: the port beside 128-bit integers, at the ends of i64 and at
//! random, with what two changes come to.

use compare::rng::Rng;

unsafe extern "C" {
    fn snowgimmer_change_reference(
        point: *mut i64,
        point_len: usize,
        r: usize,
        first: *mut u64,
        second: *mut u64,
        real: *mut f64,
    ) -> u32;
}

/// Cells on each side of the point that nobody may write.
const GUARD: [i64; 3] = [0x5a5a, i64::MIN, -1];

/// The number and the index that a change is refused with, or the point that it leaves.
type Change = Result<Vec<i64>, (u32, u64)>;

fn port(point: &[i64], r: usize) -> Change {
    let mut cells = [&GUARD, point, &GUARD].concat();
    let (mut first, mut second, mut real) = (7, 7, 7.0);
    let lent = &mut cells[3..3 + point.len()];
    let number =
        unsafe { snowgimmer_change_reference(lent.as_mut_ptr(), lent.len(), r, &mut first, &mut second, &mut real) };
    let left = cells[3..3 + point.len()].to_vec();
    assert_eq!((&cells[..3], &cells[3 + point.len()..]), (&GUARD[..], &GUARD[..]), "{point:?} {r}");
    assert_eq!((second, real.to_bits()), (0, 0), "{point:?} {r}");
    if number == 0 {
        assert_eq!(first, 0, "{point:?} {r}");
        return Ok(left);
    }
    assert_eq!(left, point, "{r}");
    Err((number, first))
}

/// The specification's part "Reference", read plainly.
fn expected(point: &[i64], r: usize) -> Change {
    let Some(&reference) = point.get(r) else { return Err((19, 0)) };
    let mut changed = Vec::new();
    for (i, &a) in point.iter().enumerate() {
        let result = if i == r { -i128::from(a) } else { i128::from(a) - i128::from(reference) };
        changed.push(i64::try_from(result).map_err(|_| (20, i as u64))?);
    }
    Ok(changed)
}

/// How many changes were made, and how they ended.
#[derive(Default, Debug)]
struct Tally {
    changes: u64,
    taken: u64,
    refused_19: u64,
    refused_20: u64,
    onward_taken: u64,
    onward_refused: u64,
}

/// All that is promised of a change to r and of a second one to s.
fn check(tally: &mut Tally, point: &[i64], r: usize, s: usize) {
    let changed = port(point, r);
    assert_eq!(changed, expected(point, r), "{point:?} {r}");
    tally.changes += 1;
    match changed {
        Ok(_) => tally.taken += 1,
        Err((19, _)) => tally.refused_19 += 1,
        Err(_) => tally.refused_20 += 1,
    }
    let Ok(changed) = changed else { return };
    assert_eq!(port(&changed, r).as_deref(), Ok(point), "{point:?} {r}");
    if r != s {
        let direct = port(point, s).ok().map(|mut p| {
            p.swap(r, s);
            p
        });
        let onward = port(&changed, s).ok();
        assert_eq!(onward, direct, "{point:?} {r} {s}");
        *if onward.is_some() { &mut tally.onward_taken } else { &mut tally.onward_refused } += 1;
    }
}

const ENDS: [i64; 13] = [
    i64::MIN,
    i64::MIN + 1,
    i64::MIN + 2,
    i64::MIN / 2 - 1,
    i64::MIN / 2,
    -1,
    0,
    1,
    2,
    i64::MAX / 2,
    i64::MAX / 2 + 1,
    i64::MAX - 1,
    i64::MAX,
];

#[test]
fn ends_of_i64() {
    let tally = &mut Tally::default();
    for r in 0..4 {
        for s in 0..4 {
            check(tally, &[], r, s);
            for a in ENDS {
                check(tally, &[a], r, s);
                for b in ENDS {
                    check(tally, &[a, b], r, s);
                    for c in ENDS {
                        check(tally, &[a, b, c], r, s);
                    }
                }
            }
        }
    }
    println!("at the ends of i64: {tally:?}");
}

#[test]
fn random() {
    let tally = &mut Tally::default();
    for case in 0..400_000 {
        let mut rng = Rng::of_case(1, case);
        let length = if rng.once_in(20) { rng.below(300) } else { rng.below(24) };
        let width = rng.below(64) as u32;
        let point: Vec<i64> = (0..length)
            .map(|_| if rng.once_in(40) { rng.pick(&ENDS) } else { rng.bits().cast_signed() >> width })
            .collect();
        let index = |rng: &mut Rng| if rng.once_in(30) { rng.bits() as usize } else { rng.below(length + 2) };
        let (r, s) = (index(&mut rng), index(&mut rng));
        check(tally, &point, r, s);
    }
    println!("random: {tally:?}");
}
