//! Names that other languages have, or EDDL elsewhere.

use crate::sentences::sentences;

sentences! {
    /// What is said of a name that other languages have, or EDDL elsewhere.
    pub enum Foreign {
        WriteOne => "an expression has numbers alone: write 1",
        WriteZero => "an expression has numbers alone: write 0",
        NamedByItself => "an item is named by itself, without a function round it",
        ReadByName => "a variable is read by its name and set by =, or by ivar_value and iassign",
        Acknowledge => "ACKNOWLEDGE(text) asks the user to go on",
        PutMessage => "PUT_MESSAGE(text) shows a text",
        Delay => "DELAY(seconds, text) waits",
        GetDevVarValue => "GET_DEV_VAR_VALUE(text, variable) asks for a value",
        SelectFromList => "SELECT_FROM_LIST(text, \"a;b\") asks for a choice",
        Qualifier => "a qualifier stands in parentheses, as in p (READ_ONLY)",
        DataQualifier => "a qualifier stands in parentheses, as in p (INDEX)",
        Success => "a code is compared with its number: 0 is that of success",
        Abort => "abort() ends a method",
        Sizeof => "a size is a number that is written out",
    }
}

impl Foreign {
    /// What is said of a name.
    pub(super) fn of(name: &str) -> Option<Foreign> {
        let foreign = match name {
            "TRUE" | "true" => Foreign::WriteOne,
            "FALSE" | "false" | "NULL" | "null" => Foreign::WriteZero,
            "METHODID" | "VARID" | "ITEM_ID" | "MEMBER_ID" => Foreign::NamedByItself,
            "fgetval" | "igetval" | "lgetval" | "vassign" | "fassign" | "fvar_value"
            | "dassign" | "float_value" => Foreign::ReadByName,
            "acknowledge" => Foreign::Acknowledge,
            "put_message" | "display" | "printf" | "print" => Foreign::PutMessage,
            "delay" | "sleep" | "wait" => Foreign::Delay,
            "get_dev_var_value" => Foreign::GetDevVarValue,
            "select_from_list" => Foreign::SelectFromList,
            "READ_ONLY" | "HIDDEN" | "REVIEW" | "DISPLAY_VALUE" => Foreign::Qualifier,
            "INFO" | "INDEX" => Foreign::DataQualifier,
            "SUCCESS" | "BI_SUCCESS" | "BLTIN_SUCCESS" => Foreign::Success,
            "exit" | "quit" | "stop" | "throw" => Foreign::Abort,
            "sizeof" => Foreign::Sizeof,
            _ => return None,
        };
        Some(foreign)
    }
}
