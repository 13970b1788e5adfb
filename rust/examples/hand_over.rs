// Hands pages over without a copy: an importer fills a page, the supervisor moves it into the recorder's segment, and the
// recorder reads it there, from the same frame. The importer has it no longer, and gets another frame for its next page.
use oaledva::{Board, Refusal, Shape};

// Processes.
const IMPORTER: usize = 0;
const RECORDER: usize = 1;
// Segments.
const IMPORTED: u64 = 2048;
const RECORDED: u64 = 2049;

const SEGMENT_PAGES: u64 = 1024;
const PAGE_BYTES: u32 = 4096;
/// Of two bytes each.
const SAMPLES: u32 = PAGE_BYTES / 2;

fn main() -> Result<(), Refusal> {
    let mut board = Board::new(Shape { frames: 4, uncached: 1, processes: 2, lines: 64 })?;
    let filled = IMPORTED * SEGMENT_PAGES;
    board.attach(IMPORTER, 0, IMPORTED, true)?;
    board.attach(RECORDER, 0, RECORDED, false)?;
    for page in 0..3 {
        let handed = RECORDED * SEGMENT_PAGES + u64::from(page);
        board.map(filled, 1 + page as usize, true)?; // zeros
        for i in 0..SAMPLES {
            board.store(IMPORTER, 2, 2 * i, 4000 + 10 * page + i % 8)?;
        }

        // The importer has finished: after this it finds nothing there.
        board.move_page(filled, handed)?;
        let late = board.load(IMPORTER, 2, 0).err().map_or(0, Refusal::number);

        let mut sum = 0;
        for i in 0..SAMPLES {
            sum += board.load(RECORDER, 2, PAGE_BYTES * page + 2 * i)?;
        }
        println!("page {handed:#x}: {SAMPLES} samples read, sum {sum}; the importer is refused by {late}");
    }
    Ok(())
}
