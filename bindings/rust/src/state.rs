use crate::buffers::Buffers;
use crate::circuit::Header;
use crate::ffi::{self, StateNumbers};
use crate::refused::{told, Refused};
use crate::Pair;

/// The state between steps. Its numbers are open, so that a host can keep them and make it again; one
/// "that no calls give" is refused 13.
#[derive(Clone, Copy, Debug, PartialEq, Eq)]
pub struct State {
    pub ctx: u32,
    pub clk: u32,
    pub num_read: u32,
    pub num_eval: u32,
    pub reads_done: u32,
    pub evals_done: u32,
    pub id_next: u64,
}

impl State {
    fn of(numbers: StateNumbers, id_next: u64) -> State {
        let [ctx, clk, num_read, num_eval, reads_done, evals_done] = numbers;
        State {
            ctx,
            clk,
            num_read,
            num_eval,
            reads_done,
            evals_done,
            id_next,
        }
    }

    pub(crate) fn numbers(&self) -> StateNumbers {
        [
            self.ctx,
            self.clk,
            self.num_read,
            self.num_eval,
            self.reads_done,
            self.evals_done,
        ]
    }

    /// Opening refuses "1 (2·num_read + num_eval over 32768), 2 (num_read zero), 3 (num_eval zero), 6,
    /// changing nothing". "Opening writes no lent cell."
    pub fn open(
        ctx: u32,
        clk: u32,
        num_read: u32,
        num_eval: u32,
        buffers: &Buffers<'_>,
    ) -> Result<State, Refused> {
        let (mut numbers, mut id_next, mut place) = ([0; 6], 0, 0);
        let number = unsafe {
            ffi::ace_new(
                ctx,
                clk,
                num_read,
                num_eval,
                buffers.values.as_ptr(),
                buffers.values.len(),
                buffers.counts.as_ptr(),
                buffers.counts.len(),
                buffers.nodes.as_ptr(),
                buffers.nodes.len(),
                &mut numbers,
                &mut id_next,
                &mut place,
            )
        };
        told(number, place, State::of(numbers, id_next))
    }

    /// A READ step, which makes two wires. Refuses 13, 6, 7; the place of 7 is 0 to 3 for the word's
    /// cells, 4 for the pointer. A refusal changes nothing.
    pub fn read(
        &mut self,
        ptr: u64,
        word: [Pair; 2],
        buffers: &mut Buffers<'_>,
    ) -> Result<(), Refused> {
        let (mut numbers, mut place) = (self.numbers(), 0);
        let [[c0, c1], [c2, c3]] = word;
        let number = unsafe {
            ffi::ace_do_read(
                &mut numbers,
                &mut self.id_next,
                ptr,
                c0,
                c1,
                c2,
                c3,
                buffers.values.as_mut_ptr(),
                buffers.values.len(),
                buffers.counts.as_mut_ptr(),
                buffers.counts.len(),
                buffers.nodes.as_mut_ptr(),
                buffers.nodes.len(),
                &mut place,
            )
        };
        *self = State::of(numbers, self.id_next);
        told(number, place, ())
    }

    /// An EVAL step, which makes one wire. Refuses 13, 6, 7, 8, "then the left operand": 9, 7, 13, "then the
    /// right with 10 likewise". "The left count is raised before the right operand is looked
    /// at, and stays raised where the right is refused; nothing else changes on a refused step."
    pub fn eval(
        &mut self,
        ptr: u64,
        instruction: u64,
        buffers: &mut Buffers<'_>,
    ) -> Result<(), Refused> {
        let (mut numbers, mut place) = (self.numbers(), 0);
        let number = unsafe {
            ffi::ace_do_eval(
                &mut numbers,
                &mut self.id_next,
                ptr,
                instruction,
                buffers.values.as_mut_ptr(),
                buffers.values.len(),
                buffers.counts.as_mut_ptr(),
                buffers.counts.len(),
                buffers.nodes.as_mut_ptr(),
                buffers.nodes.len(),
                &mut place,
            )
        };
        *self = State::of(numbers, self.id_next);
        told(number, place, ())
    }

    /// "The result: 13, 6, 11, 12, changing nothing."
    pub fn result(&self, buffers: &Buffers<'_>) -> Result<Header, Refused> {
        let (mut header, mut place) = ([0; 5], 0);
        let number = unsafe {
            ffi::ace_output_value(
                &self.numbers(),
                self.id_next,
                buffers.values.as_ptr(),
                buffers.values.len(),
                buffers.counts.as_ptr(),
                buffers.counts.len(),
                buffers.nodes.as_ptr(),
                buffers.nodes.len(),
                &mut header,
                &mut place,
            )
        };
        told(number, place, Header::of(header))
    }
}
