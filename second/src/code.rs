//! The code: block size, mask, coder and read-out.

use crate::refusal::{require, Refusal};

/// N = 2^m, or refusal 1.
pub fn block_len(m: i64) -> Result<usize, Refusal> {
    require((1..=10).contains(&m), Refusal::BlockSize)?;
    Ok(1 << m)
}

/// Refusal 7 where one of the lengths is below what is needed.
pub fn require_lengths(needed: usize, lengths: &[usize]) -> Result<(), Refusal> {
    require(lengths.iter().all(|&len| len >= needed), Refusal::Slice)
}

/// The information positions of a mask of exactly N values, in rising order.
/// Refusals 8 and 9.
pub fn information_positions(mask: &[i64]) -> Result<Vec<usize>, Refusal> {
    let known = mask.iter().all(|&v| v == 0 || v == 1);
    require(known, Refusal::MaskValue)?;
    let positions: Vec<usize> = (0..mask.len()).filter(|&i| mask[i] == 0).collect();
    require(!positions.is_empty(), Refusal::NoInformation)?;
    Ok(positions)
}

/// Bytes or 16-bit values as wide numbers.
pub fn widen<T: Copy + Into<i64>>(values: &[T]) -> Vec<i64> {
    values.iter().map(|&v| v.into()).collect()
}

/// The coded bits of u, straight from the definition: coded bit i is the
/// exclusive-or of all u at positions j that include every binary digit of i.
pub fn coded_bits(u: &[u8]) -> Vec<u8> {
    (0..u.len()).map(|i| coded_bit(u, i)).collect()
}

fn coded_bit(u: &[u8], i: usize) -> u8 {
    let mut bit = 0;
    let mut j = i;
    // The next larger number with all digits of i: add one, set the digits again.
    while j < u.len() {
        bit ^= u[j];
        j = (j + 1) | i;
    }
    bit
}

/// Turns a message into a block. Refusals 1, 7, 8, 9, 7 (message), 13.
pub fn encode(m: i64, mask: &[u8], message: &[u8], block: &mut [u8]) -> Result<(), Refusal> {
    let n = block_len(m)?;
    require_lengths(n, &[mask.len(), block.len()])?;
    let positions = information_positions(&widen(&mask[..n]))?;
    require_lengths(positions.len(), &[message.len()])?;
    let message = &message[..positions.len()];
    require(message.iter().all(|&b| b <= 1), Refusal::MessageByte)?;
    let mut u = vec![0; n];
    for (&position, &bit) in positions.iter().zip(message) {
        u[position] = bit;
    }
    block[..n].copy_from_slice(&coded_bits(&u));
    Ok(())
}

/// Copies the bytes at the information positions, in rising order.
/// Refusals 1, 7, 8, 9, 7 (message).
pub fn read_out(m: i64, mask: &[u8], bits: &[u8], message: &mut [u8]) -> Result<(), Refusal> {
    let n = block_len(m)?;
    require_lengths(n, &[mask.len(), bits.len()])?;
    let positions = information_positions(&widen(&mask[..n]))?;
    require_lengths(positions.len(), &[message.len()])?;
    for (target, &position) in message.iter_mut().zip(&positions) {
        *target = bits[position];
    }
    Ok(())
}
