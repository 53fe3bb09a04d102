//! Stands in for the C boundary where no library is linked.

use crate::calls::{DecodeCall, EncodeCall, ReadOutCall};
use crate::front_calls::FrontCall;
use crate::text_calls::{ReadCall, ReportCall, WriteCall};
use second::{Channel, Receiver};

fn unlinked() -> ! {
    eprintln!("compare was built without VEDROGNE_LIB: there is nothing to compare with");
    std::process::exit(2)
}

pub fn encode(_: &mut EncodeCall) -> u32 {
    unlinked()
}

pub fn read_out(_: &mut ReadOutCall) -> u32 {
    unlinked()
}

pub fn front(_: &mut FrontCall<Channel>) -> u32 {
    unlinked()
}

pub fn front_two(_: &mut FrontCall<Receiver>) -> u32 {
    unlinked()
}

pub fn decode(_: &mut DecodeCall) -> u32 {
    unlinked()
}

pub fn read(_: &mut ReadCall) -> u32 {
    unlinked()
}

pub fn write(_: &mut WriteCall) -> u32 {
    unlinked()
}

pub fn report(_: &mut ReportCall) -> u32 {
    unlinked()
}
