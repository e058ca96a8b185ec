// Our decoder, over its C boundary.

pub const NOT_UTF8: u32 = 6;
pub const BAD_ESCAPE: u32 = 15;
pub const TOO_SHORT: u32 = 16;

extern "C" {
    fn farkeztu_unescape(
        text: *const u8,
        text_len: usize,
        dst: *mut u8,
        dst_len: usize,
        value: *mut u64,
    ) -> u32;
    fn farkeztu_unescaped_len(text: *const u8, text_len: usize, value: *mut u64) -> u32;
}

// What a call gives back: Ok with the value, or the refusal's number with the value.
pub type Answer = Result<u64, (u32, u64)>;

pub fn unescape(text: &[u8], destination: &mut [u8]) -> Answer {
    let mut value = u64::MAX;
    let (dst, dst_len) = (destination.as_mut_ptr(), destination.len());
    let number = unsafe { farkeztu_unescape(text.as_ptr(), text.len(), dst, dst_len, &mut value) };
    answer(number, value)
}

pub fn unescaped_len(text: &[u8]) -> Answer {
    let mut value = u64::MAX;
    let number = unsafe { farkeztu_unescaped_len(text.as_ptr(), text.len(), &mut value) };
    answer(number, value)
}

fn answer(number: u32, value: u64) -> Answer {
    match number {
        0 => Ok(value),
        number => Err((number, value)),
    }
}
