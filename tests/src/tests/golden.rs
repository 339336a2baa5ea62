//! The golden logs have the listings that stand beside them.

use crate::golden::{first_difference, make};
use std::path::Path;

#[test]
fn golden_listings_are_the_model_s() {
    let folder = Path::new(env!("CARGO_MANIFEST_DIR")).join("golden");
    let golden = make(&folder).expect("good texts");
    assert!(golden.len() >= 118 + 2);
    assert_eq!(first_difference(&folder, &golden), Ok(None));
}
