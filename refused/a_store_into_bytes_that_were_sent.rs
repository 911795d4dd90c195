// What was sent is shared, and nobody writes into it, not even its own module: a store doesn't change an envelope that was sent earlier.
// refused: error[write-to-immutable]: cannot assign to `grant.bytes[_]`
// into: crates/shm_page/src/lent_copy.rt
fn store_into<A: Allocator + Copy>(grant: &mut ReadGrant<A>, at: usize, byte: u8) {
    grant.bytes[at] = byte;
}

#[test]
fn nothing(_rt: HostRuntime) {}
