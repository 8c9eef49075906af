//! Inserted poses that shops have bought in advance.

use crate::chain::Chain;
use crate::flat;
use crate::path::{Divided, MOST_INSERTED, Tolerances, given_indices};
use crate::pose::{Joints, Pose};
use crate::refusal::Refusal;

/// So many shops have a balance; they are numbered from 0.
pub const SHOPS: usize = 32;

/// A balance may come to this, and not above.
pub const MOST_BALANCE: u64 = 1_000_000_000;

/// The balances of [`SHOPS`] shops, in inserted poses. A grant adds to one, and a division that succeeds takes its reported count from
/// one; nothing else changes a balance. So after any row of calls from [`Quotas::default`] the grants that were accepted are the counts
/// that were charged and the balances that are left.
///
/// ```
/// use maztubel::{Carrier, Chain, Joints, Pose, Quotas, Rotary, Tolerances};
///
/// let chain = Chain {
///     rotaries: vec![Rotary {
///         letter: b'A',
///         carrier: Carrier::Table,
///         axis: [1.0, 0.0, 0.0],
///         pivot: [0.0; 3],
///         limits: None,
///         rest: 0.0,
///     }],
///     spindle: [0.0, 0.0, 1.0],
/// };
/// let joints = [0.0, 30.0].map(|a| Joints { position: [0.0, 0.0, 50.0], angles: [a, 0.0] });
/// let poses = joints.map(|joints| maztubel::forward(&chain, &joints, 0.0).unwrap());
/// let tolerances = Tolerances { chord: 0.5, axis: 1.0 };
///
/// let mut quotas = Quotas::default();
/// let refusal = quotas.divide_for(7, &chain, &poses, &joints, tolerances).unwrap_err();
/// assert_eq!(refusal.number(), 35);
///
/// quotas.grant(7, 10)?;
/// let path = quotas.divide_for(7, &chain, &poses, &joints, tolerances)?;
/// assert_eq!(quotas.balance(7), Some(10 - path.inserted as u64));
/// # Ok::<(), maztubel::Refusal>(())
/// ```
#[derive(Clone, Copy, Debug, Default, PartialEq, Eq)]
pub struct Quotas {
    balances: [u64; SHOPS],
}

impl Quotas {
    /// Adds to the balance of a shop; an amount of 0 counts too. Refused are an unknown shop (34), and an amount that takes the balance
    /// above [`MOST_BALANCE`] (17). A refusal changes nothing.
    pub fn grant(&mut self, shop: u64, amount: u64) -> Result<(), Refusal> {
        flat::grant(&mut self.balances, shop, amount).served()
    }

    /// As [`subdivide_path`](crate::subdivide_path), charged to a shop. Refused are an unknown shop (34), then what `subdivide_path`
    /// refuses, and last a balance below the count (35). A refusal charges nothing.
    pub fn divide_for(
        &mut self,
        shop: u64,
        chain: &Chain,
        poses: &[Pose],
        joints: &[Joints],
        tolerances: Tolerances,
    ) -> Result<Divided, Refusal> {
        // With space for every insertion, so that 28 does not occur.
        let space = poses.len() + MOST_INSERTED;
        let mut out_poses = vec![Pose::default(); space];
        let mut out_joints = vec![Joints::default(); space];
        let inserted = self.divide_for_into(
            shop,
            chain,
            poses,
            joints,
            tolerances,
            &mut out_poses,
            &mut out_joints,
        )?;
        out_poses.truncate(poses.len() + inserted);
        out_joints.truncate(poses.len() + inserted);
        Ok(Divided {
            given: given_indices(joints, &out_joints),
            poses: out_poses,
            joints: out_joints,
            inserted,
        })
    }

    /// As [`subdivide_path_into`](crate::subdivide_path_into), charged to a shop, with the refusals of [`Quotas::divide_for`] and, for
    /// space, 28. An unknown shop keeps both slices, and a balance below the count leaves both +0.0.
    #[allow(clippy::too_many_arguments)]
    pub fn divide_for_into(
        &mut self,
        shop: u64,
        chain: &Chain,
        poses: &[Pose],
        joints: &[Joints],
        tolerances: Tolerances,
        out_poses: &mut [Pose],
        out_joints: &mut [Joints],
    ) -> Result<usize, Refusal> {
        let told = flat::divide_for(
            &mut self.balances,
            shop,
            &chain.bytes(),
            flat::numbers(poses),
            flat::numbers(joints),
            tolerances.chord,
            tolerances.axis,
            flat::numbers_mut(out_poses),
            flat::numbers_mut(out_joints),
        );
        told.served()?;
        Ok(told.count as usize)
    }

    /// What a shop has left; none for a shop that there is not.
    ///
    /// ```
    /// use maztubel::Quotas;
    /// let mut quotas = Quotas::default();
    /// quotas.grant(31, 5)?;
    /// assert_eq!((quotas.balance(31), quotas.balance(0), quotas.balance(32)), (Some(5), Some(0), None));
    /// # Ok::<(), maztubel::Refusal>(())
    /// ```
    pub fn balance(&self, shop: u64) -> Option<u64> {
        let index = usize::try_from(shop).ok()?;
        self.balances.get(index).copied()
    }

    /// The balances of all shops, to be stored.
    pub fn balances(&self) -> &[u64; SHOPS] {
        &self.balances
    }
}

/// Balances that were stored. Each is taken as it is; one above [`MOST_BALANCE`] can be charged, and every grant to it is 17.
impl From<[u64; SHOPS]> for Quotas {
    fn from(balances: [u64; SHOPS]) -> Quotas {
        Quotas { balances }
    }
}
