//! Words of EDDL that this profile leaves out and the grammar refuses as words that fit nothing.

use super::Slip;

/// What is said of a word of EDDL that this profile does not have.
pub(crate) fn slip_of_left_out(word: &str) -> Option<Slip> {
    let slip = match word {
        "INITIAL_VALUE" => Slip::NoInitialValue,
        "PRE_EDIT_ACTIONS" | "POST_EDIT_ACTIONS" | "PRE_READ_ACTIONS" | "POST_READ_ACTIONS"
        | "PRE_WRITE_ACTIONS" | "POST_WRITE_ACTIONS" | "REFRESH_ACTIONS" | "INIT_ACTIONS"
        | "EXIT_ACTIONS" | "POST_RQST_ACTIONS" => Slip::NoActions,
        "SCALING_FACTOR" => Slip::NoScalingFactor,
        "ITEM_ARRAY" | "REFERENCE_ARRAY" => Slip::NoItemArrays,
        "EDIT_DISPLAY" | "EDIT_ITEMS" | "DISPLAY_ITEMS" => Slip::NoEditDisplay,
        "ROWBREAK" | "COLUMNBREAK" | "SEPARATOR" => Slip::NoBreaksInMenu,
        "STYLE" | "ACCESS" | "VISIBILITY" | "PRIVATE" | "READ_TIMEOUT" | "WRITE_TIMEOUT"
        | "TIME_FORMAT" | "TIME_SCALE" | "WRITE_MODE" | "LIKE" | "REDEFINE" | "ADD" | "DELETE" => {
            Slip::NoSuchWord
        }
        "UNIT" | "REFRESH" | "WRITE_AS_ONE" => Slip::NoRelations,
        _ => return None,
    };
    Some(slip)
}
