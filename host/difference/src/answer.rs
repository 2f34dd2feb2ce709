//! What a receive gave, in numbers that both sides have.

use niulassenc::{numbers, Place};
use niulassenc_reference as reference;

#[derive(Clone, Copy, Debug, PartialEq, Eq)]
pub struct Answer {
    pub code: u8,
    pub offset: usize,
    pub tenant: u16,
    pub binding: u16,
    pub place: Place,
}

impl From<&numbers::Receipt> for Answer {
    fn from(receipt: &numbers::Receipt) -> Answer {
        Answer {
            code: receipt.code,
            offset: receipt.offset.into(),
            tenant: receipt.tenant,
            binding: receipt.binding,
            place: receipt.place,
        }
    }
}

impl From<&reference::Answer> for Answer {
    fn from(answer: &reference::Answer) -> Answer {
        Answer {
            code: answer.code,
            offset: answer.offset,
            tenant: answer.tenant.unwrap_or(numbers::NONE),
            binding: answer.binding.unwrap_or(numbers::NONE),
            place: Place {
                in_memory: answer.place.in_memory,
                start: answer.place.start,
                length: answer.place.length,
            },
        }
    }
}
