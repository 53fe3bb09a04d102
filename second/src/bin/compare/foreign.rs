//! The C boundary: the library under test, called through its C names.

use crate::calls::{Counting, DecodeCall, EncodeCall, ReadOutCall};
use crate::front_calls::FrontCall;
use crate::text_calls::{ReadCall, ReportCall, WriteCall};
use second::{Channel, Receiver};

extern "C" {
    fn vedrogne_encode(
        m: u32,
        mask: *const u8,
        mask_len: usize,
        message: *const u8,
        message_len: usize,
        block: *mut u8,
        block_len: usize,
    ) -> u32;

    fn vedrogne_read_out(
        m: u32,
        mask: *const u8,
        mask_len: usize,
        bits: *const u8,
        bits_len: usize,
        message: *mut u8,
        message_len: usize,
    ) -> u32;

    fn vedrogne_front_gaussian(
        m: u32,
        ceiling: u32,
        factor: f32,
        samples: *const f32,
        samples_len: usize,
        llr: *mut i16,
        llr_len: usize,
    ) -> u32;

    fn vedrogne_front_flipping(
        m: u32,
        ceiling: u32,
        weight: f32,
        samples: *const f32,
        samples_len: usize,
        llr: *mut i16,
        llr_len: usize,
    ) -> u32;

    fn vedrogne_front_erasing(
        m: u32,
        ceiling: u32,
        samples: *const f32,
        samples_len: usize,
        llr: *mut i16,
        llr_len: usize,
    ) -> u32;

    fn vedrogne_front_two(
        m: u32,
        ceiling: u32,
        first_factor: f32,
        second_factor: f32,
        first: *const f32,
        first_len: usize,
        second: *const f32,
        second_len: usize,
        llr: *mut i16,
        llr_len: usize,
    ) -> u32;

    fn vedrogne_decode(
        settings: *const u32,
        settings_len: usize,
        mask: *const u8,
        mask_len: usize,
        llr: *const i16,
        llr_len: usize,
        soft: *mut i16,
        soft_len: usize,
        mark: *mut u8,
        mark_len: usize,
        coded_soft: *mut i16,
        coded_soft_len: usize,
        coded_mark: *mut u8,
        coded_mark_len: usize,
        work: *mut i16,
        work_len: usize,
        iterations: *mut u32,
        reason: *mut u32,
    ) -> u32;

    fn vedrogne_decode_radio(
        radio: u32,
        tallies: *mut u32,
        tallies_len: usize,
        settings: *const u32,
        settings_len: usize,
        mask: *const u8,
        mask_len: usize,
        llr: *const i16,
        llr_len: usize,
        soft: *mut i16,
        soft_len: usize,
        mark: *mut u8,
        mark_len: usize,
        coded_soft: *mut i16,
        coded_soft_len: usize,
        coded_mark: *mut u8,
        coded_mark_len: usize,
        work: *mut i16,
        work_len: usize,
        iterations: *mut u32,
        reason: *mut u32,
    ) -> u32;

    fn vedrogne_read(
        text: *const u8,
        text_len: usize,
        settings: *mut u32,
        settings_len: usize,
        mask: *mut u8,
        mask_len: usize,
        llr: *mut i16,
        llr_len: usize,
    ) -> u32;

    fn vedrogne_write(
        settings: *const u32,
        settings_len: usize,
        mask: *const u8,
        mask_len: usize,
        llr: *const i16,
        llr_len: usize,
        text: *mut u8,
        text_len: usize,
        written: *mut usize,
    ) -> u32;

    fn vedrogne_report(
        text: *const u8,
        text_len: usize,
        out: *mut u8,
        out_len: usize,
        written: *mut usize,
    ) -> u32;
}

pub fn encode(call: &mut EncodeCall) -> u32 {
    // Safety: each pointer reaches as many elements as the length beside it.
    unsafe {
        vedrogne_encode(
            call.m,
            call.mask.pointer(),
            call.mask.len(),
            call.message.pointer(),
            call.message.len(),
            call.block.pointer(),
            call.block.len(),
        )
    }
}

pub fn read_out(call: &mut ReadOutCall) -> u32 {
    // Safety: as in `encode`.
    unsafe {
        vedrogne_read_out(
            call.m,
            call.mask.pointer(),
            call.mask.len(),
            call.bits.pointer(),
            call.bits.len(),
            call.message.pointer(),
            call.message.len(),
        )
    }
}

pub fn front(call: &mut FrontCall<Channel>) -> u32 {
    let (m, ceiling) = (call.m, call.ceiling);
    let samples = &mut call.branches[0];
    let (samples, samples_len) = (samples.pointer(), samples.len());
    let (llr, llr_len) = (call.llr.pointer(), call.llr.len());
    // Safety: as in `encode`.
    unsafe {
        match call.front {
            Channel::Gaussian(factor) => {
                vedrogne_front_gaussian(m, ceiling, factor, samples, samples_len, llr, llr_len)
            }
            Channel::Flipping(weight) => {
                vedrogne_front_flipping(m, ceiling, weight, samples, samples_len, llr, llr_len)
            }
            Channel::Erasing => {
                vedrogne_front_erasing(m, ceiling, samples, samples_len, llr, llr_len)
            }
        }
    }
}

pub fn front_two(call: &mut FrontCall<Receiver>) -> u32 {
    // Safety: as in `encode`.
    unsafe {
        vedrogne_front_two(
            call.m,
            call.ceiling,
            call.front.first,
            call.front.second,
            call.branches[0].pointer(),
            call.branches[0].len(),
            call.branches[1].pointer(),
            call.branches[1].len(),
            call.llr.pointer(),
            call.llr.len(),
        )
    }
}

pub fn decode(call: &mut DecodeCall) -> u32 {
    match call.counting.take() {
        None => decode_plain(call),
        Some(mut counting) => {
            let answer = decode_for_radio(&mut counting, call);
            call.counting = Some(counting);
            answer
        }
    }
}

fn decode_plain(call: &mut DecodeCall) -> u32 {
    // Safety: as in `encode`; iterations and reason point to one element.
    unsafe {
        vedrogne_decode(
            call.settings.pointer(),
            call.settings.len(),
            call.mask.pointer(),
            call.mask.len(),
            call.llr.pointer(),
            call.llr.len(),
            call.soft.pointer(),
            call.soft.len(),
            call.mark.pointer(),
            call.mark.len(),
            call.coded_soft.pointer(),
            call.coded_soft.len(),
            call.coded_mark.pointer(),
            call.coded_mark.len(),
            call.work.pointer(),
            call.work.len(),
            call.iterations.pointer(),
            call.reason.pointer(),
        )
    }
}

fn decode_for_radio(counting: &mut Counting, call: &mut DecodeCall) -> u32 {
    // Safety: as in `decode_plain`.
    unsafe {
        vedrogne_decode_radio(
            counting.radio,
            counting.tallies.pointer(),
            counting.tallies.len(),
            call.settings.pointer(),
            call.settings.len(),
            call.mask.pointer(),
            call.mask.len(),
            call.llr.pointer(),
            call.llr.len(),
            call.soft.pointer(),
            call.soft.len(),
            call.mark.pointer(),
            call.mark.len(),
            call.coded_soft.pointer(),
            call.coded_soft.len(),
            call.coded_mark.pointer(),
            call.coded_mark.len(),
            call.work.pointer(),
            call.work.len(),
            call.iterations.pointer(),
            call.reason.pointer(),
        )
    }
}

pub fn read(call: &mut ReadCall) -> u32 {
    // Safety: as in `encode`.
    unsafe {
        vedrogne_read(
            call.text.pointer(),
            call.text.len(),
            call.settings.pointer(),
            call.settings.len(),
            call.mask.pointer(),
            call.mask.len(),
            call.llr.pointer(),
            call.llr.len(),
        )
    }
}

pub fn write(call: &mut WriteCall) -> u32 {
    // Safety: as in `encode`; `written` points to one element.
    unsafe {
        vedrogne_write(
            call.settings.pointer(),
            call.settings.len(),
            call.mask.pointer(),
            call.mask.len(),
            call.llr.pointer(),
            call.llr.len(),
            call.text.pointer(),
            call.text.len(),
            call.written.pointer(),
        )
    }
}

pub fn report(call: &mut ReportCall) -> u32 {
    // Safety: as in `write`.
    unsafe {
        vedrogne_report(
            call.text.pointer(),
            call.text.len(),
            call.out.pointer(),
            call.out.len(),
            call.written.pointer(),
        )
    }
}
