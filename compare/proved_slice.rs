//! The proved slice, as the benchmarks call it.

/// What a call for C gives.
#[repr(C)]
#[derive(Clone, Copy, Debug, PartialEq, Eq)]
pub struct Answer {
    pub result: u32,
    pub number: u32,
}

extern "C" {
    fn conepalhui_slice_full(
        plan: *const u8,
        plan_len: usize,
        cursor: *const u8,
        cursor_len: usize,
        budget: u32,
        out: *mut u8,
        out_len: usize,
    ) -> Answer;
}

pub fn proved_slice(plan: &[u8], cursor: &[u8], budget: u32, out: &mut [u8]) -> Answer {
    // Each pointer comes from a slice together with its length.
    unsafe {
        let (lent, lent_len) = (out.as_mut_ptr(), out.len());
        conepalhui_slice_full(plan.as_ptr(), plan.len(), cursor.as_ptr(), cursor.len(), budget, lent, lent_len)
    }
}
