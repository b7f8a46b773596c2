// SPDX-License-Identifier: MIT OR Apache-2.0
//! Interrupts, and a machine that several processors run.
mod common;

use common::machines::MACHINE;
use common::ram;
use gorseplumb::{
    Answer, Check, ErrorCode, Fault, Ffa, Function, Id, Machine, Operation, Outcome, Processor, Ram, Registers, Size,
};

const P0: Processor = Processor::FIRST;
const P1: Processor = Processor::new(1);
const FIRST: Id = Id(0x8001);
const SECOND: Id = Id(0x8002);
const DATA: u64 = 0x4002_0000;

fn run(partition: Id) -> Registers {
    Function::Run.with([u64::from(partition.0) << 16])
}

/// An answer to this runner whose w1 names a partition.
fn names(answer: &Answer, runner: Id, function: Function, partition: Id) {
    assert_eq!((answer.runner(), answer.function()), (runner, Some(function)));
    assert_eq!(answer.registers().unwrap()[1..], Function::Run.with([u64::from(partition.0) << 16])[1..]);
}

fn is_busy(answer: Answer, runner: Id) {
    assert_eq!((answer.runner(), answer.error()), (runner, Some(ErrorCode::Busy)));
}

/// The machine, when a processor was selected.
fn on<R: Ram>(machine: &mut Machine<R>, processor: Processor) -> &mut Machine<R> {
    machine.select(processor);
    machine
}

fn runners<R: Ram>(machine: &mut Machine<R>) -> Vec<Id> {
    Processor::all().map(|it| on(machine, it).runner()).collect()
}

fn is_preempted_and_goes_on_elsewhere<R: Ram>(machine: &mut Machine<R>) {
    assert_eq!(machine.interrupt(), None);
    names(&machine.call(&run(FIRST)), FIRST, Function::Run, FIRST);
    assert_eq!(machine.store(DATA, Size::B4, 0x1234_5678), Ok(()));
    names(&machine.interrupt().unwrap(), Id::NORMAL_WORLD, Function::Interrupt, FIRST);
    is_busy(machine.call(&Function::MsgSendDirectReq.with([0x8001])), Id::NORMAL_WORLD);
    assert_eq!(machine.why_call(&run(FIRST)), None);
    let resumed = on(machine, P1).call(&run(FIRST));
    assert_eq!((resumed.runner(), resumed.registers(), resumed.error()), (FIRST, None, None));
    assert_eq!((resumed.function(), resumed.handle(), resumed.done()), (None, None, Ok(resumed)));
    assert_eq!(resumed.to_string(), "resumed 8001");
    assert_eq!(format!("{resumed:?}"), "Answer { runner: Id(0x8001), registers: None }");
    assert_eq!(machine.runner(), FIRST);
    assert_eq!(on(machine, P0).runner(), Id::NORMAL_WORLD);
    is_busy(machine.call(&run(FIRST)), Id::NORMAL_WORLD);
    assert_eq!(on(machine, P1).load(DATA, Size::B4), Ok(0x1234_5678));
    assert_eq!(machine.fetch(DATA), Ok(0x1234_5678));
    assert_eq!(on(machine, P0).load(DATA, Size::B4), Err(Fault::Translation));
}

fn each_processor_runs_a_partition<R: Ram>(machine: &mut Machine<R>) {
    names(&on(machine, P0).call(&run(SECOND)), SECOND, Function::Run, SECOND);
    assert_eq!(runners(machine)[..3], [SECOND, FIRST, Id::NORMAL_WORLD]);
    is_busy(on(machine, Processor::new(2)).call(&run(SECOND)), Id::NORMAL_WORLD);
    names(&on(machine, P1).interrupt().unwrap(), Id::NORMAL_WORLD, Function::Interrupt, FIRST);
    names(&on(machine, P0).call(&Function::MsgWait.with([])), Id::NORMAL_WORLD, Function::MsgWait, SECOND);
    let mut outcomes = [Outcome::NONE];
    assert_eq!(machine.run(&[Operation::call(run(FIRST))], &mut outcomes), 1);
    assert_eq!(format!("{:?}", outcomes[0]), "Answer(Answer { runner: Id(0x8001), registers: None })");
    names(&machine.call(&Function::MsgWait.with([])), Id::NORMAL_WORLD, Function::MsgWait, FIRST);
    assert_eq!(runners(machine), [Id::NORMAL_WORLD; 8]);
}

/// Only on a machine of FF-A 1.2 is the normal world told whom to run, and has more than one context.
fn the_normal_world_is_told_whom_to_run<R: Ram>(machine: &mut Machine<R>, ffa: Ffa) {
    const INFO_GET: Registers = [0x8400_0083, 0, 0, 0, 0, 0, 0, 0];
    let is_told = ffa == Ffa::V1_2;
    let bit_of_the_normal_world = [0x8001_0000, 0, 1];
    let is_done = |answer: Answer| assert_eq!(answer.function(), Some(Function::Success));
    let create = |contexts| Function::NotificationBitmapCreate.with([0, contexts]);
    let refused = on(machine, P1).call(&create(if is_told { 9 } else { 2 }));
    assert_eq!(refused.error(), Some(ErrorCode::InvalidParameters));
    is_done(machine.call(&create(if is_told { 8 } else { 1 })));
    is_done(machine.call(&Function::NotificationBind.with(bit_of_the_normal_world)));
    on(machine, P0).call(&run(FIRST));
    assert!(!machine.sri_pending());
    is_done(machine.call(&Function::NotificationSet.with(bit_of_the_normal_world)));
    assert_eq!((machine.npi_pending(Id::NORMAL_WORLD), machine.sri_pending()), (true, is_told));
    assert_eq!(machine.call(&INFO_GET).error(), Some(ErrorCode::NotSupported));
    let told = on(machine, P1).call(&INFO_GET);
    let refused = if is_told {
        assert_eq!(told.registers(), Some(&Function::Success.with([0, 0x80])));
        (ErrorCode::NoData, Check::NothingToTell)
    } else {
        assert_eq!(told.error(), Some(ErrorCode::NotSupported));
        (ErrorCode::NotSupported, Check::FunctionUnknown)
    };
    assert!(!machine.sri_pending());
    assert_eq!(machine.call(&INFO_GET).error(), Some(refused.0));
    assert_eq!(machine.why_call(&INFO_GET).map(|reason| (reason.error, reason.check)), Some(refused));
}

fn several_processors_run<R: Ram>(machine: &mut Machine<R>, ffa: Ffa) {
    is_preempted_and_goes_on_elsewhere(machine);
    each_processor_runs_a_partition(machine);
    the_normal_world_is_told_whom_to_run(machine, ffa);
}

#[test]
fn on_the_heap() {
    for ffa in [Ffa::V1_1, Ffa::V1_2] {
        several_processors_run(&mut Machine::boot(&MACHINE.with_ffa(ffa)).unwrap(), ffa);
    }
}

#[test]
fn in_lent_pages() {
    let mut pages = ram(1);
    for ffa in [Ffa::V1_1, Ffa::V1_2] {
        several_processors_run(&mut Machine::boot_lent(&MACHINE.with_ffa(ffa), &mut pages).unwrap(), ffa);
    }
}

#[test]
fn processors_have_their_numbers() {
    assert_eq!((Processor::all().len(), Processor::try_new(8)), (8, None));
    assert_eq!(Processor::all().map(Processor::number).collect::<Vec<_>>(), (0..8).collect::<Vec<_>>());
    assert_eq!((format!("{P1:?}"), P1.to_string()), ("Processor(1)".into(), "1".into()));
}
