//! The planner against the reference. With the feature `stand-in` the reference stands in for the proved planner, which
//! tests this harness and no planner.

mod campaigns;
mod compare;
mod differential;
mod faults;
mod plans;

#[cfg(not(feature = "stand-in"))]
fn planner() -> impl planner::Planner {
    planner::Linked
}

#[cfg(feature = "stand-in")]
fn planner() -> impl planner::Planner {
    reference::Reference
}
