// A mode has nine bits, and `Mode::from_bits` alone says so.
// refused: error[private-field]: field `permissions` of struct `Mode` is private
// uses: shm_place shm_model
use shm_model::{Mode, Permissions};

fn ten_bits() -> Mode {
    Mode { permissions: Permissions(0o1000) }
}
