// The bytes that are kept for a page's new owner can't be read here.
// refused: error[unknown-method]: no method named `load` found for type `HandedPage`
// uses: shm_page
use shm_page::HandedPage;

fn read(page: &HandedPage) -> u8 {
    page.load(0)
}
