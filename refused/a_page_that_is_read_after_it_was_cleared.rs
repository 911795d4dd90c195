// What `clear` took can't be read afterwards.
// refused: error[borrow-e0382]: borrow of moved value: `page`
// uses: shm_page
use shm_page::CopyPage;

fn read(page: CopyPage) -> u8 {
    let cleared = page.clear(1);
    drop(cleared);
    page.load(0)
}
