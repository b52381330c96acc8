//! The proved library, called through its C surface.
//!
//! This is the only unsafe code among the programs that look on from outside.
//! It says nothing about what a call does; it only hands slices over as C
//! does, a pointer and then a length, and brings the answers back.

/// What a count or an address holds before a call that must write it: no call
/// answers this.
const UNWRITTEN: u32 = 0xDEAD_BEEF;
/// The same for what is 0 or 1; it stands in the middle of others, which no call
/// may write.
const UNWRITTEN_BYTE: u8 = 0xEE;
const MIDDLE: usize = 4;

mod surface {
    #[link(name = "tlcs900h", kind = "static")]
    extern "C" {
        pub fn tlcs900h_reset(
            record: *mut u8,
            record_length: usize,
            ram: *const u8,
            ram_length: usize,
            rom: *const u8,
            rom_length: usize,
        ) -> u8;

        pub fn tlcs900h_step(
            record: *mut u8,
            record_length: usize,
            ram: *mut u8,
            ram_length: usize,
            rom: *const u8,
            rom_length: usize,
            at: *mut u32,
        ) -> u8;

        pub fn tlcs900h_run(
            record: *mut u8,
            record_length: usize,
            ram: *mut u8,
            ram_length: usize,
            rom: *const u8,
            rom_length: usize,
            steps: u32,
            done: *mut u32,
            at: *mut u32,
        ) -> u8;

        pub fn tlcs900h_show(
            ram: *const u8,
            ram_length: usize,
            rom: *const u8,
            rom_length: usize,
            at: u32,
            length: *mut u32,
        ) -> u8;

        pub fn tlcs900h_request(
            record: *mut u8,
            record_length: usize,
            ram: *mut u8,
            ram_length: usize,
            rom: *const u8,
            rom_length: usize,
            level: u32,
            vector: u32,
            taken: *mut u8,
            at: *mut u32,
        ) -> u8;

        pub fn tlcs900h_widen(
            old: *const u8,
            old_length: usize,
            new: *mut u8,
            new_length: usize,
        ) -> u8;

        pub fn tlcs900h_narrow(
            new: *const u8,
            new_length: usize,
            old: *mut u8,
            old_length: usize,
        ) -> u8;
    }
}

/// How a slice of no bytes is handed over.
#[derive(Clone, Copy, Debug, PartialEq, Eq)]
pub enum Empty {
    /// As Rust has it: a pointer that is not null and points at nothing.
    Dangling,
    /// As a C program is likely to: null.
    Null,
}

/// The library's seven calls. Each takes slices of any length. Those of which the
/// benchmark counts every call are compiled into it, to add little to the count.
#[derive(Clone, Copy, Debug)]
pub struct Library {
    pub empty: Empty,
}

impl Library {
    #[inline]
    fn read(self, bytes: &[u8]) -> *const u8 {
        match self.empty {
            Empty::Null if bytes.is_empty() => std::ptr::null(),
            _ => bytes.as_ptr(),
        }
    }

    #[inline]
    fn write(self, bytes: &mut [u8]) -> *mut u8 {
        match self.empty {
            Empty::Null if bytes.is_empty() => std::ptr::null_mut(),
            _ => bytes.as_mut_ptr(),
        }
    }

    /// Resets into the record, and gives the number.
    pub fn reset(self, record: &mut [u8], ram: &[u8], rom: &[u8]) -> u8 {
        // SAFETY: each pointer and length is one whole slice, lent for the
        // call; the record is lent alone.
        unsafe {
            surface::tlcs900h_reset(
                self.write(record),
                record.len(),
                self.read(ram),
                ram.len(),
                self.read(rom),
                rom.len(),
            )
        }
    }

    /// Does one step, and gives the number and the address.
    #[inline]
    pub fn step(self, record: &mut [u8], ram: &mut [u8], rom: &[u8]) -> (u8, u32) {
        let mut at = UNWRITTEN;
        // SAFETY: each pointer and length is one whole slice, lent for the
        // call; the record and RAM are lent alone; `at` is a whole word of
        // its own.
        let number = unsafe {
            surface::tlcs900h_step(
                self.write(record),
                record.len(),
                self.write(ram),
                ram.len(),
                self.read(rom),
                rom.len(),
                &mut at,
            )
        };
        (number, at)
    }

    /// Does many steps, and gives how many were done, the number and the
    /// address.
    pub fn run(self, record: &mut [u8], ram: &mut [u8], rom: &[u8], steps: u32) -> (u32, u8, u32) {
        let (mut done, mut at) = (UNWRITTEN, UNWRITTEN);
        // SAFETY: as for a step; and `done` is a whole word of its own.
        let number = unsafe {
            surface::tlcs900h_run(
                self.write(record),
                record.len(),
                self.write(ram),
                ram.len(),
                self.read(rom),
                rom.len(),
                steps,
                &mut done,
                &mut at,
            )
        };
        (done, number, at)
    }

    /// Gives the length of the instruction at an address, and the number.
    pub fn show(self, ram: &[u8], rom: &[u8], at: u32) -> (u32, u8) {
        let mut length = UNWRITTEN;
        // SAFETY: each pointer and length is one whole slice, lent for the
        // call; `length` is a whole word of its own.
        let number = unsafe {
            surface::tlcs900h_show(
                self.read(ram),
                ram.len(),
                self.read(rom),
                rom.len(),
                at,
                &mut length,
            )
        };
        (length, number)
    }

    /// Offers a request, and gives what says whether it was taken, the number
    /// and the address.
    #[inline]
    pub fn request(
        self,
        record: &mut [u8],
        ram: &mut [u8],
        rom: &[u8],
        level: u32,
        vector: u32,
    ) -> (u8, u8, u32) {
        let (mut bytes, mut at) = ([UNWRITTEN_BYTE; 2 * MIDDLE], UNWRITTEN);
        // SAFETY: as for a step; and `taken` is a byte of an array that is lent
        // alone.
        let number = unsafe {
            surface::tlcs900h_request(
                self.write(record),
                record.len(),
                self.write(ram),
                ram.len(),
                self.read(rom),
                rom.len(),
                level,
                vector,
                bytes.as_mut_ptr().add(MIDDLE),
                &mut at,
            )
        };
        let taken = std::mem::replace(&mut bytes[MIDDLE], UNWRITTEN_BYTE);
        let alone = bytes == [UNWRITTEN_BYTE; 2 * MIDDLE];
        (if alone { taken } else { UNWRITTEN_BYTE }, number, at)
    }

    /// Moves an old record to the new form, and gives the number.
    #[inline]
    pub fn widen(self, old: &[u8], new: &mut [u8]) -> u8 {
        // SAFETY: each pointer and length is one whole slice, lent for the
        // call; the new record is lent alone.
        unsafe { surface::tlcs900h_widen(self.read(old), old.len(), self.write(new), new.len()) }
    }

    /// Moves a record back to the old form, and gives the number.
    #[inline]
    pub fn narrow(self, new: &[u8], old: &mut [u8]) -> u8 {
        // SAFETY: as for the other way; the old record is lent alone.
        unsafe { surface::tlcs900h_narrow(self.read(new), new.len(), self.write(old), old.len()) }
    }
}
