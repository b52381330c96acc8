//! Requests and moves, to see what one costs: each turn is a call, and for some
//! a step more.

use crate::scene::Scene;

/// What is done over and over.
pub struct Turn {
    pub name: &'static str,
    pub deed: Deed,
}

pub enum Deed {
    Request {
        level: u32,
        /// Whether it is taken. The mask is 7.
        taken: bool,
        /// Whether a step of RETI follows it.
        returns: bool,
    },
    /// The state's old record is moved to the new form.
    Widen,
    /// The state's record is moved back.
    Narrow {
        /// The state's nesting count: the old form can hold only 0.
        nesting: u16,
        number: u8,
    },
}

pub const TURNS: [Turn; 6] = [
    Turn {
        name: "request, taken",
        deed: Deed::Request {
            level: 7,
            taken: true,
            returns: false,
        },
    },
    Turn {
        name: "request, not taken",
        deed: Deed::Request {
            level: 6,
            taken: false,
            returns: false,
        },
    },
    Turn {
        name: "request and RETI",
        deed: Deed::Request {
            level: 7,
            taken: true,
            returns: true,
        },
    },
    Turn {
        name: "widen",
        deed: Deed::Widen,
    },
    Turn {
        name: "narrow",
        deed: Deed::Narrow {
            nesting: 0,
            number: 0,
        },
    },
    Turn {
        name: "narrow, refused",
        deed: Deed::Narrow {
            nesting: 1,
            number: 10,
        },
    },
];

/// Where the vector is: ROM's last bytes.
pub const VECTOR: u32 = 0xFF_FFFC;

const ROM_LENGTH: usize = 256;
const RETI: u8 = 0x07;
/// The end of RAM, so that it has room below for as many requests as a run of a
/// kind has steps.
const STACK: [(u8, u32); 1] = [(7, 0x1_0000)];

impl Turn {
    /// ROM begins with the handler, which is RETI, and ends with its vector.
    pub fn scene(&self) -> Scene {
        let mut rom = vec![0; ROM_LENGTH];
        rom[0] = RETI;
        rom[ROM_LENGTH - 4..].copy_from_slice(&[0x00, 0xFF, 0xFF, 0x00]);
        let mut scene = Scene::new(rom, &STACK);
        if let Deed::Narrow { nesting, .. } = self.deed {
            scene.machine.nesting = nesting;
        }
        scene
    }
}
