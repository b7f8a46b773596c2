// SPDX-License-Identifier: MIT OR Apache-2.0
//! The machine of examples/machine.toml, and the bytes that a test wrote into one TX. Each operation is done twice: on
//! a machine of the heap, and on one in lent pages.
use crate::answers::{
    answer, success, Open, Registers, Scene, DONATE, FIRST, LEND, RELINQUISH, RETRIEVE, RETRIEVED, SECOND, SEND2,
    SHARE, WIDE, WORLD,
};
use crate::common::machines::MACHINE;
use crate::descriptors::{number, Kind};
use crate::offers;
use gorseplumb::{Answer, Id, Lent, Machine, Page, Size};
use std::fmt::Display;

pub const RECLAIM: u64 = 0x8400_0077;
const RELEASE: u64 = 0x8400_0065;
const MAP: u64 = 0x8400_0066;
const WAIT: u64 = 0x8400_006B;
const RUN: u64 = 0x8400_006D;

/// What TX holds where no test has written, so that a byte next to a descriptor is not zero.
const FREE: u64 = 0xA5A5_A5A5_A5A5_A5A5;

/// The first partition has lent one of its pages to the second.
pub const OFFERED: Open = Open {
    handle: 0x8001_0000_0001,
    sender: FIRST,
    receiver: SECOND,
    tag: 0x1122_3344_5566_7788,
    kind: Kind::Lend,
    most: 2,
    may_execute: true,
    held: 0,
    page: 0x4002_3000,
};

/// Returns the registers of a call that has two.
pub fn call(function: u64, x1: u64, x2: u64) -> Registers {
    [function, x1, x2, 0, 0, 0, 0, 0]
}

/// Two machines whose endpoints all have buffers. On both the caller runs.
pub struct Stage<'ram> {
    heap: Machine,
    lent: Machine<Lent<'ram>>,
    pub scene: Scene,
    /// The bytes in the caller's TX.
    pub tx: [u8; 4096],
}

impl<'ram> Stage<'ram> {
    /// Boots both machines and maps all buffers. Then the first partition runs.
    pub fn new(pages: &'ram mut [Page]) -> Stage<'ram> {
        let mut stage = Stage {
            heap: Machine::boot(&MACHINE).unwrap(),
            lent: Machine::boot_lent(&MACHINE, pages).unwrap(),
            scene: Scene { caller: WORLD, sent: 0, open: None },
            tx: [0; 4096],
        };
        stage.map();
        for partition in [SECOND, FIRST] {
            stage.turn_to(partition);
            stage.map();
        }
        stage
    }

    /// Like `new`, but the first partition has lent a page to the second, which may write and execute it.
    pub fn with_an_offer(pages: &'ram mut [Page]) -> Stage<'ram> {
        let mut stage = Stage::new(pages);
        let mut words = offers::LEND;
        words[2] = OFFERED.tag;
        words[10] = OFFERED.page;
        stage.offer(call(LEND, 96, 96), &words, OFFERED);
        stage
    }

    /// Returns where the caller's TX begins.
    fn address(&self) -> u64 {
        match self.scene.caller {
            WORLD => 0x4001_E000,
            FIRST => 0x4002_E000,
            _ => 0x4003_E000,
        }
    }

    /// Maps the caller's TX, and the page after it as its RX.
    fn map(&mut self) {
        let tx = self.address();
        self.expect([MAP, tx, tx + 4096, 1, 0, 0, 0, 0], success(0, 0), "FFA_RXTX_MAP");
    }

    /// Makes a partition the caller. It has sent nothing, and written nothing into its TX.
    pub fn turn_to(&mut self, partition: u64) {
        self.run(partition);
        self.scene.caller = partition;
        self.scene.sent = 0;
        self.tx = [0; 4096];
    }

    /// Runs a partition. Before that the runner waits, unless it is the normal world.
    fn run(&mut self, partition: u64) {
        if self.heap.runner() != Id::NORMAL_WORLD {
            self.wait();
        }
        assert_eq!(self.call(call(RUN, partition << 16, 0)).runner(), Id(partition as u16));
    }

    /// Lets the runner wait, which is a partition. Then the normal world runs.
    fn wait(&mut self) {
        assert_eq!(self.call(call(WAIT, 0, 0)).runner(), Id::NORMAL_WORLD);
    }

    /// Fills TX with bytes that mean nothing.
    pub fn fill(&mut self) {
        self.put_words(&[FREE; 512]);
    }

    /// Stores the lowest bytes of a value at a place in TX.
    pub fn put(&mut self, at: u64, size: Size, value: u64) {
        let count = size as usize;
        self.tx[at as usize..][..count].copy_from_slice(&value.to_le_bytes()[..count]);
        let address = self.address() + at;
        assert_eq!(self.heap.store(address, size, value), Ok(()), "{count} bytes at {address:#X}, heap");
        assert_eq!(self.lent.store(address, size, value), Ok(()), "{count} bytes at {address:#X}, lent pages");
    }

    /// Stores words at the start of TX.
    pub fn put_words(&mut self, words: &[u64]) {
        self.put_words_at(0, words);
    }

    /// Stores words at a place in TX.
    pub fn put_words_at(&mut self, start: u64, words: &[u64]) {
        for (at, &word) in (start..).step_by(8).zip(words) {
            self.put(at, Size::B8, word);
        }
    }

    /// Does a call on both machines, which must answer the same.
    fn call(&mut self, x: Registers) -> Answer {
        let answer = self.heap.call(&x);
        assert_eq!(self.lent.call(&x), answer, "lent pages and heap, {x:X?}");
        answer
    }

    /// Does a call whose answer is known, after which the same endpoint runs.
    #[track_caller]
    pub fn expect(&mut self, x: Registers, want: Registers, case: impl Display) {
        let answer = self.call(x);
        let found = (answer.runner(), *answer.registers().unwrap());
        let caller = Id(self.scene.caller as u16);
        assert_eq!(found, (caller, want), "{case}: {x:X?} gives {:X?}, not {want:X?}", found.1);
    }

    /// Does a call whose answer is worked out by hand. The oracle must find the same answer.
    #[track_caller]
    pub fn check(&mut self, x: Registers, want: Registers, case: impl Display) {
        let read = answer(&self.scene, x, &self.tx);
        assert_eq!(read, want, "{case}: {x:X?}, of which the oracle reads {read:X?}, not {want:X?}");
        self.expect(x, want, case);
    }

    /// Does a call whose answer the oracle reads off the bytes, and undoes it.
    #[track_caller]
    pub fn compare(&mut self, x: Registers, case: impl Display) {
        let want = answer(&self.scene, x, &self.tx);
        self.expect(x, want, &case);
        let is_success = want == success(want[2], want[3]);
        match x[0] & !WIDE {
            DONATE | LEND | SHARE if is_success => {
                self.scene.sent += 1;
                self.expect(call(RECLAIM, want[2], want[3]), success(0, 0), format_args!("reclaim, {case}"));
            }
            RETRIEVE if want == RETRIEVED => self.give_back(),
            RELINQUISH if is_success => self.take_again(),
            SEND2 if is_success => self.empty_buffers(),
            _ => {}
        }
    }

    /// Undoes a retrieve: the caller holds nothing, its RX is empty, and its TX is as before.
    fn give_back(&mut self) {
        let kept = self.tx;
        let handle = self.scene.open.expect("a transaction is open").handle;
        self.put_words(&[handle, 1 << 32, self.scene.caller]);
        self.expect(call(RELINQUISH, 0, 0), success(0, 0), "relinquish after a retrieve");
        self.expect(call(RELEASE, 0, 0), success(0, 0), "release after a retrieve");
        self.put_back(&kept);
    }

    /// Undoes a relinquish: the caller holds what it held, its RX is empty, and its TX is as before.
    fn take_again(&mut self) {
        let kept = self.tx;
        self.retrieve();
        self.put_back(&kept);
    }

    /// Retrieves what is open, and empties RX.
    fn retrieve(&mut self) {
        self.put_words(&self.retrieve_words());
        self.expect(call(RETRIEVE, 64, 64), RETRIEVED, "the good retrieve");
        self.expect(call(RELEASE, 0, 0), success(0, 0), "release after the good retrieve");
    }

    /// Returns the descriptor of a retrieve of what is open. It asks for the most data access that is offered.
    pub fn retrieve_words(&self) -> [u64; 8] {
        let open = self.scene.open.expect("a transaction is open");
        [open.sender, open.handle, open.tag, 0x1_0000_0010, 0x30, 0, self.scene.caller, 0]
    }

    /// Stores the first eight words again that TX had.
    fn put_back(&mut self, kept: &[u8; 4096]) {
        for at in (0..64).step_by(8) {
            self.put(at, Size::B8, number(kept, at, 8));
        }
    }

    /// Undoes a message of the first partition: every RX is empty, and it runs again.
    fn empty_buffers(&mut self) {
        self.wait();
        self.call(call(RELEASE, 0, 0)); // refused if the message is for 8002, whose wait empties its RX
        self.run(SECOND);
        self.run(FIRST);
    }

    /// Makes the first send of the first partition.
    pub fn offer(&mut self, x: Registers, words: &[u64], open: Open) {
        self.put_words(words);
        self.expect(x, success(1, FIRST), "the first send");
        self.scene.sent = 1;
        self.scene.open = Some(open);
    }

    /// Takes what is offered, and holds it.
    pub fn take(&mut self) {
        self.retrieve();
        let open = self.scene.open.as_mut().expect("a transaction is open");
        open.held = open.most;
    }
}
