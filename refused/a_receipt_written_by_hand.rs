// Nobody but a box writes a receipt.
// refused: error[private-field]: field `answer` of struct `Receipt` is private
// uses: shm_logs shm_place shm_model
use shm_logs::Receipt;
use shm_model::Answer;
use shm_place::SiteId;

fn forge() -> Receipt {
    Receipt { site: SiteId(0), index: 0, asked: None, answer: Answer::Stored }
}
