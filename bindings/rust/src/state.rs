//! The machine state (document 01, "Machine state"), laid out as the library has it. The range of a field is that of
//! its type where none is given. Flags and levels are bytes, so that a damaged state can be held and is refused.
use crate::library;

/// The byte that a store or a read-modify-write instruction still has to put, with its address, or none (document 02,
/// U6). It is put on the last clock of the instruction, where `wait` goes from 1 to 0; RES low drops it.
#[repr(C)]
#[derive(Clone, Copy, PartialEq, Eq, Debug)]
pub struct Waiting {
    /// Whether a byte is waiting, 0 or 1.
    pub there: u8,
    /// Its address; 0 where none is waiting.
    pub address: u16,
    /// The byte; 0 where none is waiting.
    pub value: u8,
}

impl Waiting {
    /// No byte waiting. No other value stands for none.
    pub const NONE: Waiting = Waiting { there: 0, address: 0, value: 0 };

    /// This byte, to be put at this address.
    #[must_use]
    #[inline]
    pub const fn byte(address: u16, value: u8) -> Waiting {
        Waiting { there: 1, address, value }
    }
}

/// The CPU's registers, the clocks that the present instruction or entry (reset, NMI, IRQ) still takes, and its byte
/// waiting.
#[repr(C)]
#[derive(Clone, Copy, PartialEq, Eq, Debug)]
pub struct Cpu {
    /// The accumulator.
    pub a: u8,
    /// Index register X.
    pub x: u8,
    /// Index register Y.
    pub y: u8,
    /// The stack pointer.
    pub sp: u8,
    /// The status register; bits 4 and 5 are 0.
    pub p: u8,
    /// The program counter.
    pub pc: u16,
    /// The clocks that are still to pass before the next start, 0 to 6; above 0 where a byte is waiting.
    pub wait: u8,
    /// The byte waiting, or none.
    pub waiting: Waiting,
}

/// The entries that are due.
#[repr(C)]
#[derive(Clone, Copy, PartialEq, Eq, Debug)]
pub struct Due {
    /// Whether a reset is due, 0 or 1.
    pub reset: u8,
    /// Whether an NMI is due, 0 or 1.
    pub nmi: u8,
}

/// The port output latches.
#[repr(C)]
#[derive(Clone, Copy, PartialEq, Eq, Debug)]
pub struct Ports {
    /// Port A's latch.
    pub a: u8,
    /// Port B's latch.
    pub b: u8,
    /// Port C's latch.
    pub c: u8,
    /// Port D's latch.
    pub d: u8,
}

/// Counter A.
#[repr(C)]
#[derive(Clone, Copy, PartialEq, Eq, Debug)]
pub struct CounterA {
    /// The count.
    pub count: u16,
    /// Latch A, from which it is reloaded.
    pub latch: u16,
}

/// Counter B.
#[repr(C)]
#[derive(Clone, Copy, PartialEq, Eq, Debug)]
pub struct CounterB {
    /// The count.
    pub count: u16,
    /// Latch B.
    pub latchb: u16,
    /// Latch C.
    pub latchc: u16,
    /// Whether the next reload in mode 01 takes latch C, 0 or 1.
    pub turnc: u8,
}

/// Interrupt flags and enables, mode control, serial control and status.
#[repr(C)]
#[derive(Clone, Copy, PartialEq, Eq, Debug)]
pub struct Control {
    /// Interrupt flags, bits 0 to 5; bits 6 and 7 follow from `scsr` and are 0 here.
    pub ifr: u8,
    /// Interrupt enables.
    pub ier: u8,
    /// Mode control.
    pub mcr: u8,
    /// Serial control.
    pub sccr: u8,
    /// Serial status.
    pub scsr: u8,
}

/// Serial data.
#[repr(C)]
#[derive(Clone, Copy, PartialEq, Eq, Debug)]
pub struct SerialData {
    /// The byte to be sent.
    pub sent: u8,
    /// The byte received.
    pub received: u8,
}

/// The transmitter's progress.
#[repr(C)]
#[derive(Clone, Copy, PartialEq, Eq, Debug)]
pub struct Transmitter {
    /// The bits left of the frame, 0 to 12.
    pub left: u8,
    /// The phase within a bit, 0 to 15.
    pub phase: u8,
    /// The bits of the frame, the present one lowest; 12 bits.
    pub register: u16,
}

/// The receiver's progress.
#[repr(C)]
#[derive(Clone, Copy, PartialEq, Eq, Debug)]
pub struct Receiver {
    /// The sub-interval, 0 to 7.
    pub subinterval: u8,
    /// Whether the next tick makes a look at PA7, 0 or 1.
    pub half: u8,
    /// The bits left of the frame, 0 to 11.
    pub left: u8,
    /// The bits of the frame, the last one in bit 10; 11 bits.
    pub register: u16,
}

/// All that stands behind the registers at 0 to 3Fh.
#[repr(C)]
#[derive(Clone, Copy, PartialEq, Eq, Debug)]
pub struct Peripherals {
    /// The port output latches.
    pub ports: Ports,
    /// Counter A.
    pub countera: CounterA,
    /// Counter B.
    pub counterb: CounterB,
    /// The control registers.
    pub control: Control,
    /// Serial data.
    pub serial: SerialData,
    /// The transmitter.
    pub transmitter: Transmitter,
    /// The receiver.
    pub receiver: Receiver,
}

/// The levels of the 34 pins.
#[repr(C)]
#[derive(Clone, Copy, PartialEq, Eq, Debug)]
pub struct Levels {
    /// PA0 in bit 0, PD7 in bit 31.
    pub ports: u32,
    /// NMI, 0 or 1.
    pub nmi: u8,
    /// RES, 0 or 1.
    pub res: u8,
}

/// The whole chip.
#[repr(C)]
#[derive(Clone, Copy, PartialEq, Eq, Debug)]
pub struct State {
    /// The CPU.
    pub cpu: Cpu,
    /// The entries that are due.
    pub due: Due,
    /// All that stands behind the registers.
    pub peripherals: Peripherals,
    /// The levels that the inputs have set.
    pub external: Levels,
    /// The levels of the last clock done.
    pub last: Levels,
    /// The clocks done since fresh. Any value is well-formed.
    pub clock: u32,
}

impl State {
    /// A chip that has not run yet. RES is low in both its levels: it is held until an input makes RES high
    /// ([`RELEASE`](crate::RELEASE)).
    ///
    /// ```
    /// let state = r6501q::State::fresh();
    /// assert_eq!((state.clock, state.cpu.sp, state.due.reset), (0, 0xFF, 1));
    /// assert_eq!((state.external.res, state.last.res, state.external.nmi, state.last.nmi), (0, 0, 1, 1));
    /// assert!(state.is_well_formed());
    /// ```
    #[must_use]
    #[inline]
    pub fn fresh() -> State {
        library::fresh()
    }

    /// Whether every field is within its range. The rules across fields are those of a byte waiting: with one there,
    /// `wait` is above 0; with none, address and value are 0.
    ///
    /// ```
    /// use r6501q::{State, Waiting};
    ///
    /// let mut state = State::fresh();
    /// state.last.nmi = 2;
    /// assert!(!state.is_well_formed());
    ///
    /// let mut state = State::fresh();
    /// state.cpu.waiting = Waiting::byte(0x0040, 0x55);
    /// assert!(!state.is_well_formed());
    /// state.cpu.wait = 1;
    /// assert!(state.is_well_formed());
    /// ```
    #[must_use]
    #[inline]
    pub fn is_well_formed(self) -> bool {
        library::well_formed(self) != 0
    }
}

impl Default for State {
    fn default() -> State {
        State::fresh()
    }
}

// The layout that the library was built with, on x86-64 Linux; include/r6501q.h has the same.
macro_rules! layout {
    ($type:ident, $size:expr, $($field:ident at $offset:expr),+) => {
        const _: () = assert!(std::mem::size_of::<$type>() == $size);
        $(const _: () = assert!(std::mem::offset_of!($type, $field) == $offset);)+
    };
}
pub(crate) use layout;

layout!(Waiting, 6, there at 0, address at 2, value at 4);
layout!(Cpu, 16, a at 0, x at 1, y at 2, sp at 3, p at 4, pc at 6, wait at 8, waiting at 10);
layout!(Due, 2, reset at 0, nmi at 1);
layout!(Ports, 4, a at 0, b at 1, c at 2, d at 3);
layout!(CounterA, 4, count at 0, latch at 2);
layout!(CounterB, 8, count at 0, latchb at 2, latchc at 4, turnc at 6);
layout!(Control, 5, ifr at 0, ier at 1, mcr at 2, sccr at 3, scsr at 4);
layout!(SerialData, 2, sent at 0, received at 1);
layout!(Transmitter, 4, left at 0, phase at 1, register at 2);
layout!(Receiver, 6, subinterval at 0, half at 1, left at 2, register at 4);
layout!(
    Peripherals, 34,
    ports at 0, countera at 4, counterb at 8, control at 16, serial at 21, transmitter at 24, receiver at 28
);
layout!(Levels, 8, ports at 0, nmi at 4, res at 5);
layout!(State, 72, cpu at 0, due at 16, peripherals at 18, external at 52, last at 60, clock at 68);
