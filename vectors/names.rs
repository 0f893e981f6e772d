//! What the instructions of docs/REPLAY.md are called.

/// For each code the call or what is done, and its arguments. One without a name is no number, but says
/// which buffer or which operation; cells that follow the last have no names.
pub const NAMES: [(&str, &[&str]); 28] = [
    ("set", &["", "from", "to"]),
    ("rise", &["", "from", "cells", "back", "step"]),
    ("lend", &["", "cells"]),
    (
        "state",
        &[
            "ctx",
            "clk",
            "num_read",
            "num_eval",
            "reads_done",
            "evals_done",
            "id_next",
        ],
    ),
    ("entry", &["at", "clk", "num_read", "num_eval"]),
    ("length", &["len"]),
    ("show", &["", "from", "cells"]),
    ("sum", &["", "from", "cells"]),
    ("felt", &["", "a", "b"]),
    ("quad", &["", "a0", "a1", "b0", "b1"]),
    ("decode_instruction", &["word"]),
    ("new", &["ctx", "clk", "num_read", "num_eval"]),
    ("do_read", &["ptr", "word"]),
    ("do_eval", &["ptr", "instruction"]),
    ("output_value", &[]),
    (
        "eval_circuit",
        &["ctx", "clk", "ptr", "num_vars", "num_eval"],
    ),
    (
        "fill",
        &["ctx", "clk", "num_read", "num_eval", "id_next", "offset"],
    ),
    ("fill_state", &["offset"]),
    (
        "write_into",
        &["ctx", "clk", "num_read", "num_eval", "id_next"],
    ),
    ("write_state_into", &[]),
    ("read_from", &[]),
    ("width", &["number"]),
    ("write", &["number", "at"]),
    ("read", &["at"]),
    ("read_below", &["at", "bound"]),
    ("add_circuit_evaluation", &["clk", "num_read", "num_eval"]),
    ("trace_len", &[]),
    ("first_row", &["clk"]),
];

pub fn name(code: u64) -> &'static str {
    NAMES[code as usize].0
}
