// A receipt is made where a box takes the step: no other module of the crate makes one, of whatever site, index and step.
// refused: error[private-item]: associated function `of` is private
// into: crates/shm_logs/src/log_audit.rt
fn forge(step: &crate::site_boxes::Step) -> crate::site_boxes::Receipt {
    crate::site_boxes::Receipt::of(shm_place::SiteId(0), 7, step)
}

#[test]
fn nothing(_rt: HostRuntime) {}
