//! The commands in a sheet's bytes. Only the format's widths count here: whether a sheet is accepted is for `roll` to
//! say.

use reference::refusal::{Refusal, AFTER_END, UNKNOWN_COMMAND};
use reference::sheet::{whole_commands, Command};

/// The commands of a sheet in their order, or what is wrong and at which place.
pub fn from_bytes(bytes: &[u8]) -> Result<Vec<Command>, String> {
    whole_commands(bytes).map_err(|Refusal { number, place }| {
        let wrong = match (number, bytes.get(place)) {
            (UNKNOWN_COMMAND, Some(byte)) => format!("byte {byte:02X} is no command"),
            (AFTER_END, _) => "bytes after the end command".into(),
            (_, None) => "no end command 00".into(),
            _ => "operands cut short".into(),
        };
        format!("place {place}: {wrong}")
    })
}
