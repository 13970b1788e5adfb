// The session of the scope document, call by call.
use oaledva::{Board, Refusal, Shape};

/// A call, with its value where it has one.
type Call = fn(&mut Board) -> Result<u32, Refusal>;

fn main() -> Result<(), Refusal> {
    let mut board = Board::new(Shape { frames: 4, uncached: 1, processes: 2, lines: 2 })?;
    let calls: [Call; 12] = [
        |b| b.map(0x200000, 1, true).map(|()| 0),
        |b| b.attach(0, 0, 2048, true).map(|()| 0),
        |b| b.store(0, 4, 0, 50).map(|()| 0),
        |b| b.load(0, 1, 3),
        |b| b.load(0, 1, 32),
        |b| b.load(0, 1, 3),
        |b| b.load(1, 1, 3),
        |b| b.unmap(0x200000).map(|()| 0),
        |b| b.load(0, 1, 3),
        |b| b.map(0x200000, 1, false).map(|()| 0),
        |b| b.load(0, 1, 3),
        |b| b.store(0, 1, 3, 1).map(|()| 0),
    ];
    println!("call answer value hit"); // the scope document's words: the last is the mark, 1 for a hit
    for (i, call) in calls.iter().enumerate() {
        let answer = call(&mut board);
        let (number, value) = (answer.err().map_or(0, Refusal::number), answer.unwrap_or(0));
        println!("{} {number} {value} {}", i + 1, board.mark().number());
    }
    Ok(())
}
