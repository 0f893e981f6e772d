//! What the Rust takes from its crate miden_air: a row's index, and a row's columns by their names. The
//! order of the columns is document 01's, since the Rust's own is not to be had.

use std::borrow::{Borrow, BorrowMut};

use miden_core::Felt;

pub mod trace {
    use miden_core::Felt;
    use miden_core::serde::{
        ByteReader, ByteWriter, Deserializable, DeserializationError, Serializable,
    };

    #[derive(Debug, Clone, Copy, PartialEq, Eq, PartialOrd, Ord)]
    pub struct RowIndex(u32);

    impl From<u32> for RowIndex {
        fn from(index: u32) -> RowIndex {
            RowIndex(index)
        }
    }

    impl From<RowIndex> for u32 {
        fn from(RowIndex(index): RowIndex) -> u32 {
            index
        }
    }

    impl From<RowIndex> for Felt {
        fn from(RowIndex(index): RowIndex) -> Felt {
            Felt::from_u32(index)
        }
    }

    impl Serializable for RowIndex {
        fn write_into<W: ByteWriter>(&self, target: &mut W) {
            self.0.write_into(target);
        }
    }

    impl Deserializable for RowIndex {
        fn read_from<R: ByteReader>(source: &mut R) -> Result<RowIndex, DeserializationError> {
            u32::read_from(source).map(RowIndex)
        }
    }

    pub mod chiplets {
        pub mod ace {
            pub const ACE_CHIPLET_NUM_COLS: usize = 16;
        }
    }
}

#[derive(Clone, Copy)]
#[repr(C)]
pub struct QuadFeltExpr<T>(pub T, pub T);

#[derive(Clone, Copy)]
#[repr(C)]
pub struct ReadCols<T> {
    pub num_eval: T,
    pub unused: T,
    pub m_1: T,
    pub m_0: T,
}

#[derive(Clone, Copy)]
#[repr(C)]
pub struct EvalCols<T> {
    pub id_2: T,
    pub v_2: QuadFeltExpr<T>,
    pub m_0: T,
}

#[derive(Clone, Copy)]
#[repr(C)]
union ModeCols<T: Copy> {
    read: ReadCols<T>,
    eval: EvalCols<T>,
}

#[repr(C)]
pub struct AceCols<T: Copy> {
    pub s_start: T,
    pub s_block: T,
    pub ctx: T,
    pub ptr: T,
    pub clk: T,
    pub eval_op: T,
    pub id_0: T,
    pub v_0: QuadFeltExpr<T>,
    pub id_1: T,
    pub v_1: QuadFeltExpr<T>,
    mode: ModeCols<T>,
}

const WIDTH: usize = trace::chiplets::ace::ACE_CHIPLET_NUM_COLS;
const _: () = assert!(size_of::<AceCols<Felt>>() == WIDTH * size_of::<Felt>());

impl AceCols<Felt> {
    pub fn read_mut(&mut self) -> &mut ReadCols<Felt> {
        // SAFETY: both forms are four elements, and any four are either.
        unsafe { &mut self.mode.read }
    }

    pub fn eval_mut(&mut self) -> &mut EvalCols<Felt> {
        // SAFETY: as above.
        unsafe { &mut self.mode.eval }
    }
}

impl Borrow<AceCols<Felt>> for [Felt] {
    fn borrow(&self) -> &AceCols<Felt> {
        assert_eq!(self.len(), WIDTH);
        // SAFETY: columns are as many elements as the slice has, one after the other.
        unsafe { &*self.as_ptr().cast() }
    }
}

impl BorrowMut<AceCols<Felt>> for [Felt] {
    fn borrow_mut(&mut self) -> &mut AceCols<Felt> {
        assert_eq!(self.len(), WIDTH);
        // SAFETY: as above.
        unsafe { &mut *self.as_mut_ptr().cast() }
    }
}
