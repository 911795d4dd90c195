// A site that only has a copy of a page has no function to write to it.
// refused: error[unknown-method]: no method named `store` found for type `CopyPage`
// uses: shm_page
use shm_page::CopyPage;

fn write(page: &mut CopyPage) {
    page.store(0, 7);
}
