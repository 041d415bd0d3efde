// A number that depends on others in their order, as those of the libraries that are measured.

const KEY: u64 = 0x9e37_79b9_7f4a_7c15;

pub fn with(sum: u64, number: u64) -> u64 {
    (sum.rotate_left(5) ^ number).wrapping_mul(KEY)
}
