//! Quotas by shop: what document 02 says of the limit, of unknown shops, of a balance below the count, and of rows of calls.

mod common;

use common::*;
use maztubel::{Joints, MOST_BALANCE, Pose, Quotas, SHOPS, Tolerances, flat, subdivide_path};

const SHOP: u64 = 5;
const TOLERANCES: Tolerances = Tolerances {
    chord: 0.01,
    axis: 1.0,
};

/// Poses along an arc with joints for them, and how many poses their division inserts.
fn path() -> (Vec<Pose>, Vec<Joints>, u64) {
    let poses = arc(3);
    let joints: Vec<Joints> = (0..3)
        .map(|i| Joints {
            position: [f64::from(i), 0.0, 50.0],
            angles: [10.0 * f64::from(i), 0.0],
        })
        .collect();
    let divided = subdivide_path(&tables(), &poses, &joints, TOLERANCES).unwrap();
    assert!(divided.inserted > 1);
    (poses, joints, divided.inserted as u64)
}

fn with(balance: u64) -> Quotas {
    let mut balances = [0; SHOPS];
    balances[SHOP as usize] = balance;
    Quotas::from(balances)
}

fn granted(balance: u64, amount: u64) -> (u32, u64) {
    let mut quotas = with(balance);
    let number = quotas
        .grant(SHOP, amount)
        .map_or_else(|refusal| refusal.number(), |()| 0);
    (number, quotas.balance(SHOP).unwrap())
}

/// Just the limit passes, and nothing overflows.
#[test]
fn grants() {
    assert_eq!(granted(0, 0), (0, 0));
    assert_eq!(granted(0, MOST_BALANCE), (0, MOST_BALANCE));
    assert_eq!(granted(0, MOST_BALANCE + 1), (17, 0));
    assert_eq!(granted(MOST_BALANCE, 0), (0, MOST_BALANCE));
    assert_eq!(granted(MOST_BALANCE, 1), (17, MOST_BALANCE));
    assert_eq!(granted(1, MOST_BALANCE - 1), (0, MOST_BALANCE));
    assert_eq!(granted(1, MOST_BALANCE), (17, 1));
    assert_eq!(granted(7, u64::MAX), (17, 7));
    for forged in [MOST_BALANCE + 1, u64::MAX - 1, u64::MAX] {
        for amount in [0, 1, u64::MAX] {
            assert_eq!(granted(forged, amount), (17, forged));
        }
    }
}

/// A balance of just the count is enough, and is spent; a division that inserts nothing needs none.
#[test]
fn charges() {
    let (poses, joints, count) = path();
    let mut quotas = with(count);
    let divided = quotas
        .divide_for(SHOP, &tables(), &poses, &joints, TOLERANCES)
        .unwrap();
    assert_eq!(
        Ok(divided),
        subdivide_path(&tables(), &poses, &joints, TOLERANCES)
    );
    assert_eq!(quotas, Quotas::default());
    let wide = Tolerances {
        chord: 1e6,
        axis: 180.0,
    };
    let divided = quotas.divide_for(SHOP, &tables(), &poses, &joints, wide);
    assert_eq!(divided.unwrap().inserted, 0);
    assert_eq!(quotas, Quotas::default());
    let mut forged = with(u64::MAX);
    forged
        .divide_for(SHOP, &tables(), &poses, &joints, TOLERANCES)
        .unwrap();
    assert_eq!(forged.balance(SHOP), Some(u64::MAX - count));
}

/// The number, the count, what is left of a balance, and whether the outputs are kept or cleared.
fn told(balance: u64, shop: u64, room: usize, tolerances: [f64; 2]) -> (u32, u64, u64, bool, bool) {
    let (poses, joints, _) = path();
    let mut balances = *with(balance).balances();
    let (mut out_poses, mut out_joints) = (vec![7.25; 6 * room], vec![7.25; 5 * room]);
    let set = |j: &Joints| [&j.position[..], &j.angles[..]].concat();
    let told = flat::divide_for(
        &mut balances,
        shop,
        &tables().bytes(),
        &pose_numbers(&poses),
        &joints.iter().flat_map(set).collect::<Vec<f64>>(),
        tolerances[0],
        tolerances[1],
        &mut out_poses,
        &mut out_joints,
    );
    assert_eq!((told.at, told.letter), (0, 0));
    let numbers = [out_poses, out_joints].concat();
    let all = |x: f64| numbers.iter().all(|y| y.to_bits() == x.to_bits());
    let left = balances[SHOP as usize];
    balances[SHOP as usize] = 0;
    assert_eq!(balances, [0; SHOPS]);
    (told.number, told.count, left, all(7.25), all(0.0))
}

#[test]
fn refusals() {
    let (_, _, count) = path();
    let enough = 3 + count as usize;
    let sound = [TOLERANCES.chord, TOLERANCES.axis];
    assert_eq!(
        told(count, SHOP, enough, sound),
        (0, count, 0, false, false)
    );
    for balance in [0, 1, count - 1] {
        let short = (35, 0, balance, false, true);
        assert_eq!(told(balance, SHOP, enough, sound), short);
    }
    for shop in [32, 33, u64::MAX] {
        for bad in [sound, [0.0, f64::NAN]] {
            assert_eq!(told(0, shop, enough, bad), (34, 0, 0, true, false));
        }
    }
    let none = [0.0, 1.0];
    assert_eq!(told(0, SHOP, enough, none), (19, 0, 0, true, false));
    let full = (28, count - 1, 0, false, true);
    assert_eq!(told(0, SHOP, enough - 1, sound), full);
    let finest = [1e-12, 1e-9];
    let many = told(1, SHOP, 3 + maztubel::MOST_INSERTED, finest);
    assert_eq!(many, (27, 10_000, 1, false, true));
}

/// 34 comes before 20, whatever the length, and 20 before all that a division refuses.
#[test]
fn shops_and_lengths() {
    for length in 0..=64 {
        for (shop, amount) in [(31, 1), (32, 1), (u64::MAX, u64::MAX)] {
            let number = match (shop, length) {
                (32.., _) => 34,
                (_, 32) => 0,
                _ => 20,
            };
            let mut balances = vec![3; length];
            assert_eq!(flat::grant(&mut balances, shop, amount).number, number);
            let mut left = vec![3; length];
            if number == 0 {
                left[31] = 4;
            }
            assert_eq!(balances, left);
            let told = flat::divide_for(
                &mut balances,
                shop,
                &[9],
                &[1.0],
                &[],
                0.0,
                0.0,
                &mut [],
                &mut [],
            );
            assert_eq!(told.number, number.max(20));
            assert_eq!(balances, left);
        }
    }
}

/// Grants and divisions of all shops and of two that there are not: what was granted is what was charged and what is left, and no call
/// touches another shop.
#[test]
fn rows() {
    let (poses, joints, count) = path();
    let mut quotas = Quotas::default();
    let (mut grants, mut charges) = ([0; SHOPS], [0; SHOPS]);
    for call in 0..2_000u64 {
        let shop = call * 7 % 34;
        let before = *quotas.balances();
        if call % 3 == 0 {
            let divided = quotas.divide_for(shop, &tables(), &poses, &joints, TOLERANCES);
            if let Ok(divided) = divided {
                assert_eq!(divided.inserted as u64, count);
                charges[shop as usize] += count;
            }
        } else {
            let amount = [0, 1, count - 1, count, MOST_BALANCE - 2 * count][call as usize % 5];
            if quotas.grant(shop, amount).is_ok() {
                grants[shop as usize] += amount;
            }
        }
        for (other, balance) in before.iter().enumerate() {
            if other as u64 != shop {
                assert_eq!(quotas.balance(other as u64), Some(*balance));
            }
        }
        for shop in 0..SHOPS {
            let balance = quotas.balances()[shop];
            assert_eq!(grants[shop], charges[shop] + balance);
            assert!(balance <= MOST_BALANCE);
        }
    }
    assert!(charges.iter().all(|charge| *charge > 0));
}
