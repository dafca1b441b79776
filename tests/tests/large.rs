//! Large tables, loose, tight and late, against the model: every number of the answer and every entry.

use panel_tests::cases::{each, large};

#[test]
fn random_large_tables() {
    let tally = each("large", large, 1_000_000, 2_400);
    if std::env::var("SEED").is_err() {
        for share in ["loose", "tight", "late"] {
            assert!(tally[share] >= 400, "too few {share}: {tally:?}");
        }
    }
}
