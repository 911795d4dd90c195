// There are 1 to 16 sites, and `Sites::new` alone says so.
// refused: error[private-field]: field `count` of struct `Sites` is private
// uses: shm_place
use shm_place::Sites;

fn too_many() -> Sites {
    Sites { count: 17 }
}
