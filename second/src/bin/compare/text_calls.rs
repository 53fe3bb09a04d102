//! The calls of the C interface that read and write texts.

use crate::calls::{settings_of, Argument, Call};
use crate::frozen::uncertain_report;
use crate::memory::Fenced;
use second::text::accepted;
use second::Refusal;

/// The report's output needs a slice of this length, whatever it is.
pub const REPORT_ROOM: usize = 32_768;

#[derive(Clone)]
pub struct ReadCall {
    pub text: Fenced<u8>,
    pub settings: Fenced<u32>,
    pub mask: Fenced<u8>,
    pub llr: Fenced<i16>,
}

#[derive(Clone)]
pub struct WriteCall {
    pub settings: Fenced<u32>,
    pub mask: Fenced<u8>,
    pub llr: Fenced<i16>,
    pub text: Fenced<u8>,
    pub written: Fenced<usize>,
}

#[derive(Clone)]
pub struct ReportCall {
    pub text: Fenced<u8>,
    pub out: Fenced<u8>,
    pub written: Fenced<usize>,
}

impl Call for ReadCall {
    fn name(&self) -> &'static str {
        "vedrogne_read"
    }

    fn arguments(&self) -> Vec<Argument> {
        vec![
            Argument::Slice(self.text.shown("text")),
            Argument::Slice(self.settings.shown("settings")),
            Argument::Slice(self.mask.shown("mask")),
            Argument::Slice(self.llr.shown("llr")),
        ]
    }

    fn foreign(&mut self) -> u32 {
        crate::foreign::read(self)
    }

    /// Six settings are needed before everything else.
    fn second(&mut self) -> u32 {
        let Some(settings) = self.settings.slice_mut().first_chunk_mut::<6>() else {
            return Refusal::Slice.number();
        };
        let (mask, llr) = (self.mask.slice_mut(), self.llr.slice_mut());
        match second::read(self.text.slice(), mask, llr) {
            Ok(read) => {
                *settings = read.list().map(|v| v as u32);
                0
            }
            Err(refusal) => refusal.number(),
        }
    }
}

impl Call for WriteCall {
    fn name(&self) -> &'static str {
        "vedrogne_write"
    }

    fn arguments(&self) -> Vec<Argument> {
        vec![
            Argument::Slice(self.settings.shown("settings")),
            Argument::Slice(self.mask.shown("mask")),
            Argument::Slice(self.llr.shown("llr")),
            Argument::Slice(self.text.shown("text")),
            Argument::Pointer(self.written.shown("written")),
        ]
    }

    fn foreign(&mut self) -> u32 {
        crate::foreign::write(self)
    }

    fn second(&mut self) -> u32 {
        let Some(settings) = settings_of(self.settings.slice()) else {
            return Refusal::Slice.number();
        };
        let (mask, llr) = (self.mask.slice(), self.llr.slice());
        match second::write(&settings, mask, llr, self.text.slice_mut()) {
            Ok(len) => {
                self.written.slice_mut()[0] = len;
                0
            }
            Err(refusal) => refusal.number(),
        }
    }
}

impl Call for ReportCall {
    fn name(&self) -> &'static str {
        "vedrogne_report"
    }

    fn arguments(&self) -> Vec<Argument> {
        vec![
            Argument::Slice(self.text.shown("text")),
            Argument::Slice(self.out.shown("out")),
            Argument::Pointer(self.written.shown("written")),
        ]
    }

    fn foreign(&mut self) -> u32 {
        crate::foreign::report(self)
    }

    /// A refused text has a report too, so 7 is the only refusal.
    fn second(&mut self) -> u32 {
        if self.out.len() < REPORT_ROOM {
            return Refusal::Slice.number();
        }
        let report = second::report(self.text.slice());
        self.out.slice_mut()[..report.len()].copy_from_slice(&report);
        self.written.slice_mut()[0] = report.len();
        0
    }

    fn broken(&self) -> String {
        let block = accepted(self.text.slice());
        block.map_or_else(
            |_| String::new(),
            |block| uncertain_report(&block, self.report_written()),
        )
    }
}

impl WriteCall {
    /// The text that an accepted call has written.
    pub fn text_written(&self) -> &[u8] {
        written_part(&self.text, &self.written)
    }
}

impl ReportCall {
    /// The report that an accepted call has written.
    pub fn report_written(&self) -> &[u8] {
        written_part(&self.out, &self.written)
    }
}

fn written_part<'a>(bytes: &'a Fenced<u8>, written: &Fenced<usize>) -> &'a [u8] {
    &bytes.slice()[..written.slice()[0]]
}
