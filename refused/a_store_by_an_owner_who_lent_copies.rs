// An owner whose page has copies elsewhere may read it, and has no function to write to it.
// refused: error[unknown-method]: no method named `store` found for type `OwnReadPage`
// uses: shm_page
use shm_page::OwnReadPage;

fn write(page: &mut OwnReadPage) {
    page.store(0, 7);
}
