use std::error::Error;
use std::fmt;

/// A refusal: its number in document 01's table, and its place: what the table says that it "also
/// returns", and 0 where that is nothing.
#[derive(Clone, Copy, Debug, PartialEq, Eq)]
pub struct Refused {
    pub number: u32,
    pub place: u64,
}

/// A refusal as the library tells it: number 0 is none.
pub(crate) fn told<T>(number: u32, place: u64, accepted: T) -> Result<T, Refused> {
    match number {
        0 => Ok(accepted),
        _ => Err(Refused { number, place }),
    }
}

impl Refused {
    /// The words of document 01's table.
    pub fn given_when(&self) -> &'static str {
        match self.number {
            1 => "num_vars + num_eval over 32768, as whole numbers",
            2 => "num_vars odd or zero",
            3 => "num_eval zero or no multiple of 4",
            4 => "ptr no multiple of 4",
            5 => "ptr + 2·num_vars + num_eval over the memory's cells",
            6 => "a lent value, count or node buffer is shorter than the whole circuit needs",
            7 => "a cell is p or more",
            8 => "gate word doesn't decode",
            9 => "left operand not yet made, or id at least num_wires",
            10 => "right operand not yet made, or id at least num_wires",
            11 => "result asked before all steps are done",
            12 => "last wire is not (0, 0)",
            13 => "step out of turn, or a state that no calls give",
            14 => "row buffer shorter than 16·(offset + rows)",
            15 => "bytes end before a number's last byte, with fewer than ten of it read",
            16 => "number not in shortest form, or its tenth byte over 1",
            17 => "number outside its field's range",
            18 => "record declares 0 wires",
            19 => "over 1,073,741,823 wires",
            20 => "wire list's length differs from the declared count",
            21 => "no EVAL node",
            22 => "nodes' wires differ from the declared count",
            23 => "bytes left over",
            24 => "room lent for output too small",
            25 => "run list full",
            26 => "clock not in it",
            _ => "no number of the table",
        }
    }

    /// Whether the table says that the number returns a place.
    fn has_place(&self) -> bool {
        matches!(self.number, 7..=10 | 15..=17)
    }
}

impl fmt::Display for Refused {
    fn fmt(&self, f: &mut fmt::Formatter<'_>) -> fmt::Result {
        write!(f, "refusal {}: {}", self.number, self.given_when())?;
        if self.has_place() {
            write!(f, ", place {}", self.place)?;
        }
        Ok(())
    }
}

impl Error for Refused {}
