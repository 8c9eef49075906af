//! Quotas by shop, as document 02 has them: what a grant and a charged division must answer and leave, in whole numbers that no sum
//! is too large for, beside the Rust's division. And the calls of the two exports, with all that they are lent between guards.

use crate::calls::{GUARD, Guarded};
use crate::divided::{self, Answer, Refusal, Told};
use crate::divisions::{Division, From, Rooms};
use crate::maztubel::{self, Solved};
use crate::random::Random;

/// The shops are numbered from 0.
pub const SHOPS: usize = 32;

/// A balance may come to this, and not above.
pub const MOST_BALANCE: u64 = 1_000_000_000;

/// What stands beside balances that are lent.
const BESIDE: u64 = 0xDEAD_BEEF_0BAD_CAFE;

/// 34 before any other check, then 20; else the index of the shop's balance.
fn shop_of(balances: &[u64], shop: u64) -> Result<usize, u32> {
    if shop >= SHOPS as u64 {
        return Err(34);
    }
    if balances.len() != SHOPS {
        return Err(20);
    }
    Ok(shop as usize)
}

/// The balances after a grant, or the number of its refusal.
pub fn granted(balances: &[u64], shop: u64, amount: u64) -> Result<Vec<u64>, u32> {
    let shop = shop_of(balances, shop)?;
    let sum = u128::from(balances[shop]) + u128::from(amount);
    if sum > u128::from(MOST_BALANCE) {
        return Err(17);
    }
    let mut after = balances.to_vec();
    after[shop] = sum as u64;
    Ok(after)
}

/// What a charged division must answer where the plain one answers so, and the balances after it.
pub fn charged<'a>(balances: &[u64], shop: u64, plain: Answer<'a>) -> (Answer<'a>, Vec<u64>) {
    let mut after = balances.to_vec();
    let answer = match (shop_of(balances, shop), plain) {
        (Err(number), _) => Err(Refusal::keeping(number, 0)),
        (Ok(_), Err(refusal)) => Err(refusal),
        (Ok(shop), Ok(divided)) => match after[shop].checked_sub(divided.inserted as u64) {
            Some(left) => {
                after[shop] = left;
                Ok(divided)
            }
            None => Err(Refusal::clearing(35, 0)),
        },
    };
    (answer, after)
}

fn guarded(balances: &[u64]) -> Vec<u64> {
    [&[BESIDE; GUARD], balances, &[BESIDE; GUARD]].concat()
}

fn inner(all: &mut [u64]) -> &mut [u64] {
    let end = all.len() - GUARD;
    &mut all[GUARD..end]
}

/// Calls the export: its number, and whether the balances then are as they must be, and nothing beside them was written.
pub fn ask_grant(balances: &[u64], shop: u64, amount: u64, after: &[u64]) -> (u32, bool) {
    let mut all = guarded(balances);
    let number = maztubel::grant(inner(&mut all), shop, amount);
    (number, all == guarded(after))
}

/// The same of a division with given joints, with all that it tells.
pub fn ask_division(
    balances: &[u64],
    shop: u64,
    work: (&Division, Rooms),
    after: &[u64],
) -> (Told, bool) {
    let (division, rooms) = work;
    let From::Joints(joints) = &division.from else {
        panic!("a shop's division has its joints given");
    };
    let mut all = guarded(balances);
    let (chain, poses) = (
        Guarded::bytes(&division.chain),
        Guarded::numbers(&division.poses),
    );
    let joints = Guarded::numbers(joints);
    let told = divided::lending(rooms, |lent| {
        let solved = Solved {
            chain: chain.inner(),
            poses: poses.inner(),
            joints: joints.inner(),
        };
        maztubel::divide_for(inner(&mut all), shop, solved, division.tolerances, lent)
    });
    let kept = chain.kept() && poses.kept() && joints.kept();
    assert!(kept, "an input was written to: {division}");
    (told, all == guarded(after))
}

/// Mostly one of the shops that a row is about, now and then another one, or one that there is not.
pub fn shop(about: &[u64], random: &mut Random) -> u64 {
    match random.below(16) {
        0 => random.one_of(&[32, 33, 255, 1 << 32, 1 << 63, u64::MAX]),
        1..=3 => random.below(SHOPS as u64),
        _ => random.one_of(about),
    }
}

/// Mostly what one of these counts needs or just misses with this balance; else about the limit, or any amount.
pub fn amount(balance: u64, counts: &[u64], random: &mut Random) -> u64 {
    let count = match counts {
        [] => 1,
        _ => random.one_of(counts),
    };
    let (needed, rest) = (
        count.saturating_sub(balance),
        MOST_BALANCE.saturating_sub(balance),
    );
    match random.below(32) {
        0..=2 => 0,
        3 => rest,
        4 => rest + 1,
        5 => rest.saturating_sub(1),
        6 => random.one_of(&[
            MOST_BALANCE,
            MOST_BALANCE + 1,
            1 << 32,
            1 << 63,
            u64::MAX - MOST_BALANCE,
            u64::MAX,
        ]),
        7 => random.bits() >> random.below(64),
        8..=15 => needed,
        16..=23 => needed.saturating_sub(1),
        _ => random.below(2 * count + 2),
    }
}

#[cfg(test)]
mod tests {
    use super::*;
    use crate::divided::{MOST_INSERTED, Verdict, expected, telling};
    use crate::paths::{JOINTS, POSE};
    use crate::remarkable::too_many;
    use crate::zigzags::needing;

    const SHOP: u64 = 31;

    fn holding(balance: u64) -> Vec<u64> {
        let mut balances = vec![5; SHOPS];
        balances[SHOP as usize] = balance;
        balances
    }

    fn rooms(division: &Division) -> Rooms {
        let records = division.given() + MOST_INSERTED;
        [POSE * records, JOINTS * records]
    }

    #[test]
    fn checks_stand_in_order() {
        let most = MOST_BALANCE;
        let number = |balances: &[u64], shop, amount| granted(balances, shop, amount).err();
        assert_eq!(number(&[], 32, u64::MAX), Some(34));
        assert_eq!(number(&[0; 31], 31, u64::MAX), Some(20));
        assert_eq!(number(&holding(u64::MAX), SHOP, u64::MAX), Some(17));
        assert_eq!(number(&holding(1), SHOP, most), Some(17));
        assert_eq!(granted(&holding(1), SHOP, most - 1), Ok(holding(most)));
        assert_eq!(granted(&holding(1), SHOP, 0), Ok(holding(1)));
    }

    /// Each wrong reading of a grant at the limit is noticed.
    #[test]
    fn a_wrong_grant_is_noticed() {
        let most = MOST_BALANCE;
        let right = (0, true);
        assert_eq!(
            ask_grant(&holding(1), SHOP, most - 1, &holding(most)),
            right
        );
        let kept = ask_grant(&holding(1), SHOP, most - 1, &holding(1));
        assert_eq!(kept, (0, false));
        let mut other = holding(most);
        other[0] += 1;
        assert_eq!(ask_grant(&holding(1), SHOP, most - 1, &other), (0, false));
        assert_eq!(ask_grant(&holding(1), SHOP, most, &holding(1)), (17, true));
        assert_eq!(ask_grant(&[], 32, 1, &[]), (34, true));
    }

    /// A charge on 27, outputs that are kept after 35, and a balance that must be above the count.
    #[test]
    fn a_wrong_division_is_noticed() {
        let [_, many] = too_many();
        let room = rooms(&many);
        let verdict = expected(&many);
        let (answer, after) = charged(&holding(20_000), SHOP, verdict.with(room));
        let told = telling(answer, room);
        assert_eq!((told.told.number, &after), (27, &holding(20_000)));
        let asked = |after: &[u64]| ask_division(&holding(20_000), SHOP, (&many, room), after);
        assert_eq!(asked(&after), (told.clone(), true));
        assert_eq!(asked(&holding(10_000)), (told, false));

        let few = needing(7, false, &mut Random::new(1));
        let room = rooms(&few);
        let verdict = expected(&few);
        let plain = verdict.with(room);
        assert!(
            matches!(&verdict, Verdict::Judged { then: Ok(divided), .. } if divided.inserted == 7)
        );
        let (answer, after) = charged(&holding(6), SHOP, plain);
        let short = telling(answer, room);
        assert_eq!((short.told.number, short.inserted[1]), (35, 0));
        let asked =
            |balance, after: &[u64]| ask_division(&holding(balance), SHOP, (&few, room), after);
        assert_eq!(asked(6, &after), (short.clone(), true));
        assert_ne!(telling(plain, room).told.numbers, short.told.numbers);
        assert_ne!(telling(Err(Refusal::keeping(35, 0)), room), short);
        let (answer, after) = charged(&holding(7), SHOP, plain);
        assert_eq!(
            (asked(7, &after), &after),
            ((telling(answer, room), true), &holding(0))
        );
    }
}
