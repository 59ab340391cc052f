//! The product's service, where the feature `product` links it in.

use crate::Service;

#[cfg(feature = "product")]
mod linked {
    extern "C" {
        fn junction_answer(
            line: *const u8,
            line_len: usize,
            block: *mut i64,
            block_len: usize,
            reply: *mut u8,
            reply_len: usize,
        ) -> usize;
    }

    pub fn answer(line: &[u8], block: &mut [i64], reply: &mut [u8]) -> usize {
        // The slices live through the call, and the lengths are theirs.
        unsafe {
            junction_answer(
                line.as_ptr(),
                line.len(),
                block.as_mut_ptr(),
                block.len(),
                reply.as_mut_ptr(),
                reply.len(),
            )
        }
    }
}

#[cfg(feature = "product")]
pub fn service() -> Result<Service, String> {
    Ok(linked::answer)
}

#[cfg(not(feature = "product"))]
pub fn service() -> Result<Service, String> {
    Err("built without the feature `product`".into())
}
