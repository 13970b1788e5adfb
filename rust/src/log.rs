//! Logs of calls: a recorder writes one while it runs, and the office replays it.
//!
//! A log holds the [`Shape`] of a board, which is its header, and then the calls that were made on it, one after another. It holds
//! no answers: whoever makes the same calls again, on a fresh board of that shape whose memory is zeros, gets them again, each
//! number, value and mark. [`Writer`] writes a log call by call, [`Calls`] reads one, and [`Board::perform`] makes a call:
//!
//! ```
//! use oaledva::log::{Call, Calls, Writer};
//! use oaledva::{Board, Shape};
//!
//! // The recorder: each call goes to the log, then to the board.
//! let shape = Shape { frames: 4, uncached: 1, processes: 2, lines: 2 };
//! let mut board = Board::new(shape)?;
//! let mut log = Writer::new(Vec::new(), shape)?; // a file, or anything else that bytes can be written to
//! for call in [
//!     Call::Map { page: 0x200000, frame: 1, write: true },
//!     Call::Attach { process: 0, slot: 0, segment: 2048, write: true },
//!     Call::Store { process: 0, width: 4, address: 0, value: 50 },
//!     Call::Load { process: 0, width: 1, address: 3 },
//! ] {
//!     log.write(call)?;
//!     board.perform(&call)?;
//! }
//! let bytes = log.into_inner();
//!
//! // The office.
//! let calls = Calls::of(&bytes[..])?;
//! let mut again = Board::for_replay(calls.shape())?;
//! let mut answers = Vec::new();
//! for call in calls {
//!     answers.push(again.perform(&call?)); // a refused call is an answer too
//! }
//! assert_eq!(answers, [Ok(0), Ok(0), Ok(0), Ok(50)]);
//! assert_eq!(again, board);
//! # Ok::<(), Box<dyn std::error::Error>>(())
//! ```
//!
//! `cargo run -p oaledva --example replay -- LOG` is such an office: it tells the calls by kind, the refusals by number and the
//! marks, and with `--rows` each answer.
//!
//! A log doesn't say of which [edition](crate::Edition) its board was. Its calls get the same numbers and values in both, and the
//! same marks in the one in which they were made: [`Board::for_replay`] has one place for each line, and
//! [`Board::for_replay_in`] takes the edition.
//!
//! What is not in a log: [`Board::look`], which changes nothing; and the bytes that memory held at the start. So begin a log
//! with the board, when its memory is zeros, and store into it by logged calls what it has to hold. A list of accesses
//! ([`Board::accesses`]) is logged access by access ([`Entry::from`]).
//!
//! # In bytes
//! A log is a run of numbers, in groups of seven bits, the low group first; each group is a byte, with the top bit set on all but
//! the last. A number takes one byte to ten, and there is one way to write it: no group of 0 stands behind others. The log opens
//! with the four numbers of the shape. Then comes, for each call, its [`Kind`]'s number and its [fields](Kind::fields), as many
//! as the kind has. Load is 0 and store 1, read-only 0 and writable 1; widths, values and effective addresses are below 2^32,
//! and a load's value is 0; any other field is any number of 64 bits. So a list of calls has one log, and a log one list of
//! calls. Whatever is no such log is [`Refused`], with the byte at which it is wrong and a [`Reason`].
//!
//! How a reader takes a log and what a writer makes of an entry is proved of the library's functions: what is written and read
//! again is the same, wherever the log is cut into pieces ([`Reader`]). This module adds types and words.
//!
//! [`Board::for_replay`]: crate::Board::for_replay
//! [`Board::for_replay_in`]: crate::Board::for_replay_in
//! [`Board::look`]: crate::Board::look
//! [`Board::perform`]: crate::Board::perform
//! [`Board::accesses`]: crate::Board::accesses
//! [`Shape`]: crate::Shape

mod call;
mod kind;
mod reader;
mod reason;
mod replay;
mod writer;

pub use crate::ffi::LogEntry as Entry;
pub use call::Call;
pub use kind::Kind;
pub use reader::{Calls, ReadError, Reader, Refused};
pub use reason::Reason;
pub use replay::NoMemory;
pub use writer::{Unfit, WriteError, Writer};
