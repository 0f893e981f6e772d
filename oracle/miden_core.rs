//! What the Rust takes from its crate miden_core: the field, pairs of its elements, words, and
//! serialization (serde.rs).

pub mod serde;

use std::ops::{Add, AddAssign, Mul, Neg, Sub, SubAssign};

/// "p = 2^64 - 2^32 + 1 = 18446744069414584321."
pub const P: u64 = 18_446_744_069_414_584_321;

/// "An element is a u64 below p."
#[derive(Debug, Clone, Copy, PartialEq, Eq)]
pub struct Felt(u64);

pub type Word = [Felt; 4];

impl Felt {
    pub const ZERO: Felt = Felt(0);
    pub const ONE: Felt = Felt(1);

    pub const fn new_unchecked(value: u64) -> Felt {
        assert!(value < P);
        Felt(value)
    }

    pub const fn from_u32(value: u32) -> Felt {
        Felt(value as u64)
    }

    pub const fn as_canonical_u64(self) -> u64 {
        self.0
    }

    const fn reduced(value: u128) -> Felt {
        Felt((value % P as u128) as u64)
    }
}

impl Add for Felt {
    type Output = Felt;

    fn add(self, other: Felt) -> Felt {
        Felt::reduced(u128::from(self.0) + u128::from(other.0))
    }
}

impl Sub for Felt {
    type Output = Felt;

    fn sub(self, other: Felt) -> Felt {
        Felt::reduced(u128::from(self.0) + u128::from(P) - u128::from(other.0))
    }
}

impl Mul for Felt {
    type Output = Felt;

    fn mul(self, other: Felt) -> Felt {
        Felt::reduced(u128::from(self.0) * u128::from(other.0))
    }
}

impl Neg for Felt {
    type Output = Felt;

    fn neg(self) -> Felt {
        Felt::ZERO - self
    }
}

impl AddAssign for Felt {
    fn add_assign(&mut self, other: Felt) {
        *self = *self + other;
    }
}

impl SubAssign for Felt {
    fn sub_assign(&mut self, other: Felt) {
        *self = *self - other;
    }
}

pub mod field {
    use super::{Add, Felt, Mul, Sub};

    /// "A pair (a0, a1) stands for a0 + a1·X with X·X = 7."
    #[derive(Debug, Clone, Copy, PartialEq, Eq)]
    pub struct QuadFelt([Felt; 2]);

    impl QuadFelt {
        pub const fn of_cells(cells: [Felt; 2]) -> QuadFelt {
            QuadFelt(cells)
        }

        pub const fn cells(self) -> [Felt; 2] {
            self.0
        }
    }

    const X_SQUARED: Felt = Felt::from_u32(7);

    pub trait PrimeCharacteristicRing: Copy {
        const ZERO: Self;

        fn zero_vec(len: usize) -> Vec<Self> {
            vec![Self::ZERO; len]
        }
    }

    impl PrimeCharacteristicRing for Felt {
        const ZERO: Felt = Felt::ZERO;
    }

    impl PrimeCharacteristicRing for QuadFelt {
        const ZERO: QuadFelt = QuadFelt([Felt::ZERO; 2]);
    }

    pub trait BasedVectorSpace<F> {
        fn from_basis_coefficients_fn(coefficient: impl FnMut(usize) -> F) -> Self;
        fn as_basis_coefficients_slice(&self) -> &[F];
    }

    impl BasedVectorSpace<Felt> for QuadFelt {
        fn from_basis_coefficients_fn(coefficient: impl FnMut(usize) -> Felt) -> QuadFelt {
            QuadFelt(std::array::from_fn(coefficient))
        }

        fn as_basis_coefficients_slice(&self) -> &[Felt] {
            &self.0
        }
    }

    impl Add for QuadFelt {
        type Output = QuadFelt;

        fn add(self, other: QuadFelt) -> QuadFelt {
            let (QuadFelt([a0, a1]), QuadFelt([b0, b1])) = (self, other);
            QuadFelt([a0 + b0, a1 + b1])
        }
    }

    impl Sub for QuadFelt {
        type Output = QuadFelt;

        fn sub(self, other: QuadFelt) -> QuadFelt {
            let (QuadFelt([a0, a1]), QuadFelt([b0, b1])) = (self, other);
            QuadFelt([a0 - b0, a1 - b1])
        }
    }

    impl Mul for QuadFelt {
        type Output = QuadFelt;

        fn mul(self, other: QuadFelt) -> QuadFelt {
            let (QuadFelt([a0, a1]), QuadFelt([b0, b1])) = (self, other);
            QuadFelt([a0 * b0 + X_SQUARED * a1 * b1, a0 * b1 + a1 * b0])
        }
    }
}
