//! Conditions that a desk is built with.

pub const BY_DATE: &str = "xs:date($1) ge xs:date(\"2024-03-31\")";
pub const BY_TIME: &str = "xs:time($2) lt xs:time(\"12:00:00Z\")";

/// The condition with spaces after it.
pub fn padded(condition: &str, length: usize) -> String {
    format!("{condition:length$}")
}

/// Conditions that pass all of Open's checks but one, by the check that they fail. None has over 240 bytes.
pub const BAD: &[(&str, &str)] = &[
    ("empty", ""),
    ("spaces", "   "),
    ("deep-17", "(((((((((((((((((xs:date($1) eq xs:date($1))))))))))))))))))"),
    ("deep-and-no-grammar", "((((((((((((((((("),
    ("grammar", "xs:date($1) eq"),
    ("grammar-tab", "xs:date($1)\teq xs:date($1)"),
    ("grammar-zero-byte", "xs:date($1) eq xs:date($1)\0"),
    ("grammar-and-kinds", "xs:date($1) eq xs:time($2) eq"),
    ("kinds", "xs:date($1) eq xs:time($2)"),
    ("kinds-no-truth", "xs:date($1)"),
    ("kinds-and-literal", "xs:date(\"2023-02-29\") eq xs:time($2)"),
    ("literal-1", "xs:date(\"2023-02-29\") eq xs:date($1)"),
    ("literal-2", "xs:date(\"10000-01-01\") eq xs:date($1)"),
    ("literal-3", "xs:time(\"12:00:00.0000000000\") eq xs:time($2)"),
    ("literals-2-and-1", "xs:date(\"10000-01-01\") eq xs:date(\"2023-02-29\")"),
    ("literal-blanks", "xs:date(\" \t\r \") eq xs:date($1)"),
    ("literal-blank-inside", "xs:date(\"2024- 03-31\") eq xs:date($1)"),
    ("literal-form-feed", "xs:date(\"\u{c}2024-03-31\") eq xs:date($1)"),
    ("literal-not-evaluated", "xs:date($1) eq xs:date($1) or xs:date(\"\") eq xs:date($1)"),
];

/// Their neighbours that pass.
pub const NEIGHBOURS: &[(&str, &str)] = &[
    ("deep-16", "(((((((((((((((xs:date($1) eq xs:date($1))))))))))))))))"),
    ("spaces-round", "  xs:date($1) eq xs:date($1)  "),
    ("kinds-cast", "xs:dateTime(xs:date($1)) ne xs:dateTime(\"2024-03-30T00:00:00\")"),
    ("literal-leap", "xs:date(\"2024-02-29\") eq xs:date($1)"),
    ("literal-last-year", "xs:date(\"9999-12-31\") gt xs:date($1)"),
    ("literal-padded", "xs:date(\"\t 2024-03-31\r \") eq xs:date($1)"),
    ("literal-nine-digits", "xs:time(\"12:00:00.000000000\") gt xs:time($2)"),
    ("result-beyond", "xs:date(\"9999-12-31\") + xs:dayTimeDuration(\"P1D\") eq xs:date($1)"),
    ("field-16", "xs:date($16) eq xs:date($1)"),
];
