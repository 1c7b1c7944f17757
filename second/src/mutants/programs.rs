//! Programs with one thing wrong in how they read, play and print. The long sessions must catch
//! every one of them.

use crate::book::{print_line, Asked, MODEL};
use crate::model::answer::{Answer, Refusal};
use crate::model::plan::Plan;
use crate::model::state::Arrays;
use crate::program::sessions::{Manner, Session};
use crate::program::stories::Story;
use crate::program::{Output, Program};
use crate::subject::{unfinished, Kept, EVENT, LINE};

/// A program in this process: a function from what each of its reads brings to what it prints.
pub struct InProcess {
    pub name: &'static str,
    /// How much it reads at most at a time.
    buffer: usize,
    play: fn(&mut Engine, &[&[u8]]),
}

impl Program for InProcess {
    fn run(&self, session: &Session) -> Output {
        let mut engine = Engine::start(&session.story);
        (self.play)(&mut engine, &reads(session, self.buffer));
        Output {
            printed: Ok(engine.printed),
            told: engine.told,
        }
    }
}

/// What each read brings. A piece that nobody waits for stands in the pipe with others.
fn reads(session: &Session, buffer: usize) -> Vec<&[u8]> {
    match session.manner {
        Manner::Freely => session.story.input.chunks(buffer).collect(),
        Manner::LockStep | Manner::Answered => {
            let pieces = session.pieces().into_iter();
            pieces.flat_map(|piece| piece.chunks(buffer)).collect()
        }
    }
}

/// What is told of a plan that is not there.
const NO_PLAN: &[u8] = b"plan.bin can't be opened\n";

/// All that a program has. What is done with it may be wrong.
struct Engine {
    /// Nothing is played on a plan that can't be read.
    plan: Option<Plan>,
    kept: Kept,
    printed: Vec<u8>,
    /// On standard error.
    told: Vec<u8>,
    /// How many events have been played.
    played: usize,
}

impl Engine {
    fn start(story: &Story) -> Self {
        let mut printed = Vec::new();
        let plan = (MODEL.read)(story.file());
        match &plan {
            Ok(plan) => print_line(&mut printed, MODEL.verdict(plan)),
            Err(fault) => print_line(&mut printed, fault.form),
        }
        Engine {
            plan: plan.ok(),
            kept: Kept::fresh(),
            printed,
            told: match story.plan {
                Some(_) => vec![],
                None => NO_PLAN.to_vec(),
            },
            played: 0,
        }
    }

    fn feed(&mut self, bytes: &[u8]) {
        let Some(plan) = &self.plan else { return };
        let whole = (self.kept.unfinished[0] as usize + bytes.len()) / EVENT;
        let asked = Asked {
            plan: Ok(plan),
            bytes,
            room: whole * LINE,
        };
        let lines = MODEL.any_feed(&asked, &mut self.kept);
        self.printed.extend(lines.written());
        self.played += whole;
    }

    fn finish(&mut self) {
        let Some(plan) = &self.plan else { return };
        let asked = Asked {
            plan: Ok(plan),
            bytes: &[],
            room: LINE,
        };
        let line = MODEL.any_finish(&asked, &mut self.kept);
        self.printed.extend(line.written());
    }

    fn say(&mut self, answer: Refusal) {
        if self.plan.is_some() {
            print_line(&mut self.printed, Answer::Refused(answer));
        }
    }

    /// Feeds each read, with something done before it.
    fn feed_all(&mut self, reads: &[&[u8]], mut before: impl FnMut(&mut Engine, usize)) {
        for (number, read) in reads.iter().enumerate() {
            before(self, number);
            self.feed(read);
        }
        self.finish();
    }

    /// Plays event by event, with something done when so many have been played.
    fn play_all(&mut self, reads: &[&[u8]], at: usize, then: impl Fn(&mut Engine)) {
        for event in reads.concat().chunks(EVENT) {
            if self.played == at {
                then(self);
            }
            self.feed(event);
        }
        self.finish();
    }

    /// Prints what is right and tells something else. It is known whether the plan can be read.
    fn tell_after(&mut self, reads: &[&[u8]], tell: impl Fn(&mut Vec<u8>, bool)) {
        self.feed_all(reads, |_, _| ());
        tell(&mut self.told, self.plan.is_some());
    }

    fn forget(&mut self) {
        self.kept.state = Arrays::fresh();
    }
}

/// How many events there are.
fn count(reads: &[&[u8]]) -> usize {
    reads.iter().map(|read| read.len()).sum::<usize>() / EVENT
}

/// A program that is right.
pub fn right(buffer: usize) -> InProcess {
    InProcess {
        name: "right",
        buffer,
        play: |engine, reads| engine.feed_all(reads, |_, _| ()),
    }
}

/// What is wrong, how much is read at a time, and what is done with it.
type Slip = (&'static str, usize, fn(&mut Engine, &[&[u8]]));

/// Every wrong program.
pub fn all() -> Vec<InProcess> {
    let groups = [FORGETFUL, SPLITTING, READING, ONE_READ, PRINTING, TELLING];
    let programs = groups.concat().into_iter();
    let program = |(name, buffer, play): Slip| InProcess { name, buffer, play };
    programs.map(program).collect()
}

const FORGETFUL: &[Slip] = &[
    (
        "the state is set anew at each read",
        4096,
        |engine, reads| engine.feed_all(reads, |engine, _| engine.forget()),
    ),
    (
        "the state is set anew after the first read",
        4096,
        |engine, reads| {
            engine.feed_all(reads, |engine, number| {
                if number == 1 {
                    engine.forget();
                }
            })
        },
    ),
    (
        "the state is set anew at the last read",
        3072,
        |engine, reads| {
            let last = reads.len() - usize::from(!reads.is_empty());
            engine.feed_all(reads, |engine, number| {
                if number == last && number > 0 {
                    engine.forget();
                }
            })
        },
    ),
    (
        "the state is set anew after the first event",
        3072,
        |engine, reads| engine.play_all(reads, 1, Engine::forget),
    ),
    (
        "the state is set anew after 1,024 events",
        3072,
        |engine, reads| engine.play_all(reads, 1024, Engine::forget),
    ),
    (
        "the state is set anew after 2,999 events",
        3072,
        |engine, reads| engine.play_all(reads, 2999, Engine::forget),
    ),
    (
        "the state is set anew after 65,536 events",
        3072,
        |engine, reads| engine.play_all(reads, 65_536, Engine::forget),
    ),
    ("the trains are lost halfway", 3072, |engine, reads| {
        engine.play_all(reads, count(reads) / 2, |engine| {
            engine.kept.state.trains = Arrays::fresh().trains
        })
    }),
    ("the lies are lost halfway", 3072, |engine, reads| {
        engine.play_all(reads, count(reads) / 2, |engine| {
            engine.kept.state.lies = Arrays::fresh().lies
        })
    }),
    ("the holds are lost halfway", 3072, |engine, reads| {
        engine.play_all(reads, count(reads) / 2, |engine| {
            engine.kept.state.holds = Arrays::fresh().holds
        })
    }),
    ("the greens are lost halfway", 3072, |engine, reads| {
        engine.play_all(reads, count(reads) / 2, |engine| {
            engine.kept.state.signals = Arrays::fresh().signals
        })
    }),
    (
        "24 of each 1,024 events change nothing",
        3072,
        |engine, reads| {
            for event in reads.concat().chunks(EVENT) {
                let before = engine.kept.state.clone();
                engine.feed(event);
                if engine.played % 1024 > 1000 {
                    engine.kept.state = before;
                }
            }
            engine.finish();
        },
    ),
];

const SPLITTING: &[Slip] = &[
    (
        "the bytes of a split event are lost",
        4096,
        |engine, reads| {
            engine.feed_all(reads, |engine, _| engine.kept.unfinished = unfinished(&[]))
        },
    ),
    (
        "the second byte of a split event is lost",
        4096,
        |engine, reads| {
            engine.feed_all(reads, |engine, _| {
                if engine.kept.unfinished[0] == 2 {
                    engine.kept.unfinished = [1, engine.kept.unfinished[1], 0];
                }
            })
        },
    ),
    (
        "the bytes of a split event are exchanged",
        4096,
        |engine, reads| {
            engine.feed_all(reads, |engine, _| {
                if engine.kept.unfinished[0] == 2 {
                    engine.kept.unfinished[1..].reverse();
                }
            })
        },
    ),
    (
        "a split event is played as an incomplete one",
        4096,
        |engine, reads| {
            engine.feed_all(reads, |engine, number| {
                if number > 0 {
                    engine.finish();
                }
            })
        },
    ),
    (
        "an event is split by reads of 4,096 bytes and lost",
        4096,
        |engine, reads| {
            for read in reads {
                engine.feed(&read[..read.len() / EVENT * EVENT]);
            }
        },
    ),
    ("an event in three reads is lost", 4096, |engine, reads| {
        for read in reads {
            let is_third = engine.kept.unfinished[0] == 1 && read.len() == 1;
            engine.feed(read);
            if is_third {
                engine.kept.unfinished = unfinished(&[]);
            }
        }
        engine.finish();
    }),
    (
        "the end is answered where nothing is unfinished",
        4096,
        |engine, reads| {
            for read in reads {
                engine.feed(read);
            }
            match engine.kept.unfinished[0] {
                0 => engine.say(Refusal::BadEvent),
                _ => engine.finish(),
            }
        },
    ),
    ("the end is not answered", 4096, |engine, reads| {
        reads.iter().for_each(|read| engine.feed(read))
    }),
    (
        "an unfinished event is filled up at the end",
        4096,
        |engine, reads| {
            reads.iter().for_each(|read| engine.feed(read));
            let begun = usize::from(engine.kept.unfinished[0]);
            if begun > 0 {
                engine.feed(&[0; EVENT][begun..]);
            }
        },
    ),
];

const READING: &[Slip] = &[
    (
        "24 of each 1,024 events are dropped",
        3072,
        |engine, reads| {
            for events in reads.concat().chunks(1024 * EVENT) {
                engine.feed(&events[..events.len().min(1000 * EVENT)]);
            }
            engine.finish();
        },
    ),
    (
        "events for whose lines there is no room are dropped",
        4096,
        |engine, reads| {
            for read in reads {
                engine.feed(&read[..read.len().min(1024 * EVENT)]);
            }
            engine.finish();
        },
    ),
    (
        "a read with more events than there is room for is lost",
        4096,
        |engine, reads| {
            let fits = |read: &&&[u8]| read.len() <= 1024 * EVENT;
            reads.iter().filter(fits).for_each(|read| engine.feed(read));
            engine.finish();
        },
    ),
    (
        "reading ends with the first read",
        65_536,
        |engine, reads| engine.feed_all(&reads[..reads.len().min(1)], |_, _| ()),
    ),
    (
        "reading ends with a read that does not fill its buffer",
        4096,
        |engine, reads| {
            let full = reads.iter().take_while(|read| read.len() == 4096).count();
            engine.feed_all(&reads[..reads.len().min(full + 1)], |_, _| ())
        },
    ),
    ("the last read is not played", 3072, |engine, reads| {
        engine.feed_all(&reads[..reads.len().saturating_sub(1)], |_, _| ())
    }),
    (
        "reading ends after 65,536 bytes",
        65_536,
        |engine, reads| {
            let input = reads.concat();
            engine.feed_all(&[&input[..input.len().min(65_536)]], |_, _| ())
        },
    ),
    ("the first read is played twice", 4096, |engine, reads| {
        engine.feed_all(&[&reads[..reads.len().min(1)], reads].concat(), |_, _| ())
    }),
    ("a byte of 10 is passed over", 4096, |engine, reads| {
        let mut input = reads.concat();
        input.retain(|&byte| byte != 10);
        engine.feed_all(&[&input], |_, _| ())
    }),
    (
        "a byte of 4 at the start of a read ends the input",
        1024,
        |engine, reads| {
            let good = reads.iter().take_while(|read| read[0] != 4).count();
            engine.feed_all(&reads[..good], |_, _| ())
        },
    ),
];

/// One read alone goes wrong, by its number or by its length.
const ONE_READ: &[Slip] = &[
    ("reading ends after 65,536 reads", 4096, |engine, reads| {
        engine.feed_all(&reads[..reads.len().min(65_536)], |_, _| ())
    }),
    ("reading ends after 20,000 reads", 4096, |engine, reads| {
        engine.feed_all(&reads[..reads.len().min(20_000)], |_, _| ())
    }),
    (
        "reading ends with a read of 2,049 bytes",
        4096,
        |engine, reads| {
            let good = reads.iter().take_while(|read| read.len() != 2049).count();
            engine.feed_all(&reads[..good], |_, _| ())
        },
    ),
    ("a read of 2,049 bytes is lost", 4096, |engine, reads| {
        let mut reads = reads.to_vec();
        reads.retain(|read| read.len() != 2049);
        engine.feed_all(&reads, |_, _| ())
    }),
    (
        "the last byte of a read of 1,538 bytes is lost",
        4096,
        |engine, reads| {
            for read in reads {
                let lost = usize::from(read.len() == 1538);
                engine.feed(&read[..read.len() - lost]);
            }
            engine.finish();
        },
    ),
    (
        "the bytes of a split event are lost before a read of 2,050 bytes",
        4096,
        |engine, reads| {
            engine.feed_all(reads, |engine, number| {
                if reads[number].len() == 2050 {
                    engine.kept.unfinished = unfinished(&[]);
                }
            })
        },
    ),
    (
        "the bytes of a split event are lost after a read of 2,051 bytes",
        4096,
        |engine, reads| {
            engine.feed_all(reads, |engine, number| {
                if number > 0 && reads[number - 1].len() == 2051 {
                    engine.kept.unfinished = unfinished(&[]);
                }
            })
        },
    ),
    (
        "the state is set anew after a read of 3,070 bytes",
        4096,
        |engine, reads| {
            engine.feed_all(reads, |engine, number| {
                if number > 0 && reads[number - 1].len() == 3070 {
                    engine.forget();
                }
            })
        },
    ),
];

const PRINTING: &[Slip] = &[
    (
        "the line for the plan comes at each read",
        4096,
        |engine, reads| {
            let first = engine.printed.clone();
            engine.feed_all(reads, |engine, number| {
                if number > 0 && engine.plan.is_some() {
                    engine.printed.extend(&first);
                }
            })
        },
    ),
    (
        "no more than 65,536 bytes are printed at a read",
        65_536,
        |engine, reads| {
            for read in reads {
                let before = engine.printed.len();
                engine.feed(read);
                engine.printed.truncate(before + 65_536);
            }
            engine.finish();
        },
    ),
    (
        "a plan that can't be read is followed by answers",
        4096,
        |engine, reads| {
            engine.feed_all(reads, |_, _| ());
            if engine.plan.is_none() {
                for _ in 0..count(reads) {
                    print_line(&mut engine.printed, Answer::Refused(Refusal::BadEvent));
                }
            }
        },
    ),
    (
        "a plan that breaks a rule has no events",
        4096,
        |engine, reads| {
            if engine.printed == b"accepted\n" {
                engine.feed_all(reads, |_, _| ());
            }
        },
    ),
    ("the last line has no end", 4096, |engine, reads| {
        engine.feed_all(reads, |_, _| ());
        engine.printed.pop();
    }),
];

/// What they print is right.
const TELLING: &[Slip] = &[
    (
        "something is told where nothing is wrong",
        4096,
        |engine, reads| {
            engine.tell_after(reads, |told, _| {
                if told.is_empty() {
                    told.extend(b"plan.bin is there\n");
                }
            })
        },
    ),
    (
        "a plan that can't be read is told on standard error",
        4096,
        |engine, reads| {
            engine.tell_after(reads, |told, is_readable| {
                if told.is_empty() && !is_readable {
                    told.extend(b"plan.bin can't be read\n");
                }
            })
        },
    ),
    (
        "nothing is told of a plan that is not there",
        4096,
        |engine, reads| engine.tell_after(reads, |told, _| told.clear()),
    ),
    (
        "a plan that is not there is told without its name",
        4096,
        |engine, reads| {
            engine.tell_after(reads, |told, _| {
                if !told.is_empty() {
                    *told = b"no plan\n".to_vec();
                }
            })
        },
    ),
    (
        "a plan that is not there is told twice",
        4096,
        |engine, reads| engine.tell_after(reads, |told, _| *told = told.repeat(2)),
    ),
    (
        "the line about a plan that is not there has no end",
        4096,
        |engine, reads| {
            engine.tell_after(reads, |told, _| {
                told.pop();
            })
        },
    ),
];
