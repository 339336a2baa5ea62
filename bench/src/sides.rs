//! The executives that are measured.

/// What gives the listing of a log.
type Listing = dyn FnMut(&[u8]) -> Vec<u8>;

pub struct Side {
    pub name: &'static str,
    pub listing: Box<Listing>,
}

fn model() -> Side {
    Side { name: "model", listing: Box::new(rtms_tests::listing::listing) }
}

#[cfg(feature = "in-process")]
pub fn all() -> Vec<Side> {
    let mut room = rtms_tests::in_process::room();
    // A listing that is too long is none, and so differs from the model's.
    let proved = move |log: &[u8]| {
        let listing = rtms_tests::in_process::listing_in(log, &mut room);
        listing.unwrap_or_default().to_vec()
    };
    vec![model(), Side { name: "proved", listing: Box::new(proved) }]
}

#[cfg(not(feature = "in-process"))]
pub fn all() -> Vec<Side> {
    vec![model()]
}
