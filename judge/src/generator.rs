//! Random scripts. A flavour is a table of bursts; a seed fixes every byte.

use std::io::{self, Write};

use crate::bursts::{Burst, Lines};

/// What a random script is made of.
pub struct Flavour {
    pub name: &'static str,
    pub about: &'static str,
    /// Each burst with its weight in the draw.
    bursts: &'static [(u64, Burst)],
    /// Whether the last line has its newline.
    last_newline: bool,
}

pub static FLAVOURS: [Flavour; 14] = [
    Flavour {
        name: "uniform",
        about: "every operation equally often",
        bursts: &[(1, Lines::any)],
        last_newline: true,
    },
    Flavour {
        name: "direct",
        about: "messages disposed of straight from the hardware queue",
        bursts: &[(6, Lines::serve), (1, Lines::exchange), (1, Lines::any)],
        last_newline: true,
    },
    Flavour {
        name: "arrivals",
        about: "the hardware queue and all pages filled to the brim",
        bursts: &[
            (1, Lines::brim),
            (2, Lines::flood),
            (5, Lines::crowd),
            (2, Lines::drain),
            (1, Lines::clear),
            (4, Lines::odd_arrival),
            (1, Lines::any),
        ],
        last_newline: true,
    },
    Flavour {
        name: "swap",
        about: "pages sent out and brought in, to be written and to be read",
        bursts: &[
            (1, Lines::brim),
            (8, Lines::spill),
            (9, Lines::rewrite),
            (5, Lines::displace),
            (9, Lines::switch),
            (6, Lines::hand_over),
            (2, Lines::drain),
            (1, Lines::read_out),
            (4, Lines::clear),
            (2, Lines::turns),
            (1, Lines::any),
        ],
        last_newline: true,
    },
    Flavour {
        name: "swaptime",
        about: "the hardware queue drained by timeouts and switches with no frame free",
        bursts: &[
            (3, Lines::spill),
            (2, Lines::rewrite),
            (4, Lines::displace),
            (5, Lines::crowd),
            (2, Lines::hog),
            (2, Lines::brink),
            (2, Lines::exchange),
            (1, Lines::clear),
            (1, Lines::any),
        ],
        last_newline: true,
    },
    Flavour {
        name: "switches",
        about: "the processor given to and fro while messages wait",
        bursts: &[
            (6, Lines::switch),
            (2, Lines::preempt),
            (2, Lines::dispatch),
            (5, Lines::arrival),
            (3, Lines::exchange),
            (2, Lines::hand_over),
            (1, Lines::serve),
            (1, Lines::clear),
            (1, Lines::tick),
            (1, Lines::turns),
            (1, Lines::lull),
            (1, Lines::any),
        ],
        last_newline: true,
    },
    Flavour {
        name: "acts",
        about:
            "the processor taken, given and switched among arrivals, disposals and forced sections",
        bursts: &[
            (4, Lines::preempt),
            (4, Lines::dispatch),
            (4, Lines::switch),
            (3, Lines::hand_over),
            (2, Lines::exchange),
            (10, Lines::arrival),
            (5, Lines::dispose),
            (3, Lines::begin_forced),
            (2, Lines::end_atomic),
            (1, Lines::tick),
            (1, Lines::serve),
            (1, Lines::clear),
            (1, Lines::turns),
            (1, Lines::lull),
        ],
        last_newline: true,
    },
    Flavour {
        name: "ticks",
        about: "the timer around 255 and 256",
        bursts: &[
            (6, Lines::brink),
            (2, Lines::tick),
            (1, Lines::clear),
            (1, Lines::any),
        ],
        last_newline: true,
    },
    Flavour {
        name: "force",
        about: "sections with the timer forced, timeouts with nothing waiting, revoked groups",
        bursts: &[
            (8, Lines::force),
            (1, Lines::brink),
            (1, Lines::switch),
            (1, Lines::clear),
            (1, Lines::any),
        ],
        last_newline: true,
    },
    Flavour {
        name: "bad",
        about: "bad, over-long and odd-byte lines, no last newline",
        bursts: &[(6, Lines::bad), (3, Lines::any), (1, Lines::exchange)],
        last_newline: false,
    },
    Flavour {
        name: "hogs",
        about: "groups that hold an atomic section",
        bursts: &[(6, Lines::hog), (1, Lines::clear), (1, Lines::any)],
        last_newline: true,
    },
    Flavour {
        name: "disposals",
        about: "buffers filled, read out and emptied",
        bursts: &[
            (2, Lines::flood),
            (4, Lines::drain),
            (2, Lines::read_out),
            (1, Lines::clear),
            (1, Lines::any),
        ],
        last_newline: true,
    },
    Flavour {
        name: "launches",
        about: "descriptors filled, sent, and kept over a switch",
        bursts: &[(5, Lines::send), (2, Lines::switch), (1, Lines::any)],
        last_newline: true,
    },
    Flavour {
        name: "mixed",
        about: "every burst of the others but those that fill the swap pages",
        bursts: &[
            (12, Lines::any),
            (2, Lines::serve),
            (1, Lines::fill),
            (2, Lines::flood),
            (2, Lines::crowd),
            (3, Lines::drain),
            (2, Lines::exchange),
            (2, Lines::hand_over),
            (2, Lines::brink),
            (2, Lines::hog),
            (2, Lines::force),
            (2, Lines::read_out),
            (2, Lines::send),
            (2, Lines::clear),
            (1, Lines::turns),
            (1, Lines::lull),
            (1, Lines::odd_arrival),
            (1, Lines::bad),
        ],
        last_newline: true,
    },
];

impl Flavour {
    pub fn named(name: &str) -> Option<&'static Flavour> {
        FLAVOURS.iter().find(|flavour| flavour.name == name)
    }

    /// Writes the script of a seed: so many lines.
    pub fn write(&self, seed: u64, lines: u64, output: &mut impl Write) -> io::Result<()> {
        let mut source = Lines::new(seed);
        for number in 1..=lines {
            let line = source.next_line(self.bursts);
            output.write_all(&line)?;
            // An empty line without its newline would be none.
            if number < lines || self.last_newline || line.is_empty() {
                output.write_all(b"\n")?;
            }
        }
        Ok(())
    }

    /// The script of a seed, held whole.
    pub fn script(&self, seed: u64, lines: u64) -> Vec<u8> {
        let mut script = Vec::new();
        self.write(seed, lines, &mut script)
            .expect("memory is written without error");
        script
    }
}
