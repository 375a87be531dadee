//! Bytes as polynomials over GF(2) modulo x^8+x^4+x^3+x+1.

/// The modulus, with its top bit.
const MODULUS: u16 = 0x11b;
/// A byte whose powers are all nonzero bytes.
const GENERATOR: u8 = 3;

/// The logarithm that stands for 0: any sum with it is past the powers.
const NO_LOGARITHM: u16 = 510;

/// Both tables.
const TABLES: ([u8; 1024], [u16; 256]) = tables();
/// The powers of the generator.
static POWERS: [u8; 1024] = TABLES.0;
/// Their places.
static LOGARITHMS: [u16; 256] = TABLES.1;

/// The product without carries, then reduced from the top bit down.
pub const fn carryless_product(x: u8, y: u8) -> u8 {
    let mut wide: u16 = 0;
    let mut bit = 0;
    while bit < 8 {
        if (y >> bit) & 1 == 1 {
            wide ^= (x as u16) << bit;
        }
        bit += 1;
    }
    let mut top = 14;
    while top >= 8 {
        if (wide >> top) & 1 == 1 {
            wide ^= MODULUS << (top - 8);
        }
        top -= 1;
    }
    wide as u8
}

/// The powers of the generator, twice over and then 0, and each byte's place among the first 255.
const fn tables() -> ([u8; 1024], [u16; 256]) {
    let mut powers = [0; 1024];
    let mut logarithms = [NO_LOGARITHM; 256];
    let mut byte = 1;
    let mut e = 0;
    while e < 255 {
        powers[e] = byte;
        powers[e + 255] = byte;
        logarithms[byte as usize] = e as u16;
        byte = carryless_product(byte, GENERATOR);
        e += 1;
    }
    (powers, logarithms)
}

/// The product of two bytes.
pub fn product(x: u8, y: u8) -> u8 {
    POWERS[LOGARITHMS[x as usize] as usize + LOGARITHMS[y as usize] as usize]
}

/// The byte x to the power e; x to the power 0 is 1.
pub fn power(x: u8, e: usize) -> u8 {
    match (x, e) {
        (_, 0) => 1,
        (0, _) => 0,
        _ => POWERS[LOGARITHMS[x as usize] as usize * e % 255],
    }
}

/// The byte by which x is multiplied to give 1; x is not 0.
pub fn inverse(x: u8) -> u8 {
    power(x, 254)
}

#[cfg(test)]
mod tests {
    use super::*;

    #[test]
    fn both_products_agree() {
        for x in 0..=255 {
            for y in 0..=255 {
                assert_eq!(product(x, y), carryless_product(x, y));
            }
        }
        assert_eq!(product(0x57, 0x83), 0xc1);
    }

    #[test]
    fn powers_are_repeated_products() {
        for x in 0..=255 {
            let mut byte = 1;
            for e in 0..600 {
                assert_eq!(power(x, e), byte);
                byte = carryless_product(byte, x);
            }
        }
    }
}
