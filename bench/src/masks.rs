//! Masks, 1 for a frozen position and 0 for one that carries the message: made for a channel, or read from a file.
//!
//! The decoder's graph has distance N/2 at the message side. The usual constructions number positions the other way
//! round, so their masks are taken with the m binary digits of each position reversed. Nothing here is proved.
use crate::options::Given;

/// How a mask is made. The design ratio Eb/N0 counts the energy of a message bit, at the code's own rate.
pub struct Design {
    pub m: usize,
    pub information: usize,
    pub db: f64,
    pub method: Method,
}

#[derive(Clone, Copy, PartialEq)]
pub enum Method {
    Gaussian,
    Bhattacharyya,
}

/// The options that say how a mask is made.
pub const OPTIONS: [&str; 4] = ["m", "information", "design", "method"];

impl Design {
    pub fn new(given: &Given) -> Result<Design, String> {
        let m = given.whole("m", 10, 1..=10)?;
        let methods = [
            ("gaussian", Method::Gaussian),
            ("bhattacharyya", Method::Bhattacharyya),
        ];
        Ok(Design {
            m,
            information: given.whole("information", 1 << (m - 1), 1..=1 << m)?,
            db: given.real("design", 2.0, -30.0..=30.0)?,
            method: given.choice("method", &methods)?,
        })
    }

    /// The mask in the order that the decoder needs.
    pub fn mask(&self) -> Vec<u8> {
        let rate = self.information as f64 / (1 << self.m) as f64;
        let ratio = rate * 10f64.powf(self.db / 10.0);
        let merits = match self.method {
            Method::Gaussian => gaussian_merits(self.m, 4.0 * ratio),
            Method::Bhattacharyya => bhattacharyya_merits(self.m, ratio),
        };
        reversed(&best(&merits, self.information))
    }
}

/// A mask of rate one half.
pub fn half(m: usize) -> Vec<u8> {
    gaussian(m, 1 << (m - 1), 2.0)
}

/// A mask by the Gaussian approximation for the noise that `noise::variance` has at this ratio for rate one half,
/// whatever the mask's own rate is.
pub fn gaussian(m: usize, information: usize, db: f64) -> Vec<u8> {
    let merits = gaussian_merits(m, 2.0 * 10f64.powf(db / 10.0));
    reversed(&best(&merits, information))
}

/// How doubtful a normal LLR of this mean is, from 1 (no knowledge) down to 0, in Chung's approximation.
fn doubt(mean: f64) -> f64 {
    if mean < 10.0 {
        (-0.4527 * mean.powf(0.86) + 0.0218).exp().min(1.0)
    } else {
        (std::f64::consts::PI / mean).sqrt() * (-mean / 4.0).exp() * (1.0 - 10.0 / (7.0 * mean))
    }
}

/// The mean with a given doubt, by bisection.
fn mean_of(doubtful: f64) -> f64 {
    let (mut low, mut high) = (0.0, 4000.0);
    for _ in 0..200 {
        let middle = (low + high) / 2.0;
        if doubt(middle) > doubtful {
            low = middle;
        } else {
            high = middle;
        }
    }
    low
}

/// For each position in natural order the mean of its LLR by the Gaussian approximation, where the samples' LLRs have
/// the mean `first`.
fn gaussian_merits(m: usize, first: f64) -> Vec<f64> {
    (0..m).fold(vec![first], |means, _| {
        means
            .iter()
            .flat_map(|mean| [mean_of(doubt(*mean) * (2.0 - doubt(*mean))), 2.0 * mean])
            .collect()
    })
}

/// For each position in natural order how its Bhattacharyya bound z compares with 1 - z, as ln((1 - z)/z): the smaller
/// z is the larger this is. Samples have z = exp(-Es/N0); a step makes 2z - z² and z² of it.
///
/// At m = 10 both z and 1 - z come below the smallest float, so the logarithms of both are kept.
fn bhattacharyya_merits(m: usize, ratio: f64) -> Vec<f64> {
    /// ln(x²) and ln(1 - x²) from ln x and ln(1 - x), without the difference of two nearly equal numbers.
    fn square(ln: f64, other: f64) -> (f64, f64) {
        let squared = 2.0 * ln;
        let rest = if squared < -1.0 {
            (-squared.exp()).ln_1p()
        } else {
            other + ln.exp().ln_1p()
        };
        (squared, rest)
    }
    let samples = (-ratio, (-(-ratio).exp_m1()).ln());
    let bounds = (0..m).fold(vec![samples], |bounds, _| {
        let step = |&(z, rest): &(f64, f64)| {
            let (worse_rest, worse) = square(rest, z);
            [(worse, worse_rest), square(z, rest)]
        };
        bounds.iter().flat_map(step).collect()
    });
    bounds.iter().map(|(z, rest)| rest - z).collect()
}

/// The mask, in the order of the merits, whose information positions are those of the largest merits. Of two equal ones
/// the later position is taken: by what is known of polar codes in general it is never the worse of the two.
fn best(merits: &[f64], information: usize) -> Vec<u8> {
    let mut order: Vec<usize> = (0..merits.len()).rev().collect();
    order.sort_by(|a, b| merits[*b].total_cmp(&merits[*a]));
    let mut mask = vec![1; merits.len()];
    for position in &order[..information] {
        mask[*position] = 0;
    }
    mask
}

/// A mask with the binary digits of each position reversed.
pub fn reversed(mask: &[u8]) -> Vec<u8> {
    let digits = mask.len().ilog2();
    (0..mask.len())
        .map(|position| mask[position.reverse_bits() >> (usize::BITS - digits)])
        .collect()
}

/// The mask of a file's bytes: 0 and 1, separated by blanks, commas or line ends or not at all; # begins a comment.
pub fn read(text: &[u8]) -> Result<Vec<u8>, String> {
    let mut mask = Vec::new();
    for (number, line) in text.split(|byte| *byte == b'\n').enumerate() {
        for byte in line.iter().take_while(|byte| **byte != b'#') {
            match byte {
                b'0' | b'1' => mask.push(byte - b'0'),
                b' ' | b'\t' | b'\r' | b',' => {}
                _ => {
                    let (line, other) = (number + 1, byte.escape_ascii());
                    return Err(format!(
                        "line {line} has `{other}`; 0, 1, blanks, commas and # before a comment are expected"
                    ));
                }
            }
        }
    }
    let count = mask.len();
    if !(2..=1024).contains(&count) || !count.is_power_of_two() {
        return Err(format!(
            "{count} values; a power of two from 2 to 1024 is expected"
        ));
    }
    if !mask.contains(&0) {
        return Err("no information position; one 0 at least is expected".to_string());
    }
    Ok(mask)
}

#[cfg(test)]
mod tests {
    use super::*;

    fn information(mask: &[u8]) -> Vec<usize> {
        (0..mask.len()).filter(|i| mask[*i] == 0).collect()
    }

    #[test]
    fn files_are_read() {
        let mask = Ok(vec![1, 1, 0, 1]);
        for text in ["1101", "1 1 0 1\n", "# 0\n1,1\r\n\t0,,1 # 7\n#", "11\n01"] {
            assert_eq!(read(text.as_bytes()), mask, "{text}");
        }
        assert_eq!(read(b"# \xff\n01"), Ok(vec![0, 1]));
    }

    #[test]
    fn wrong_files_are_refused() {
        let slip = |text: &[u8]| read(text).unwrap_err();
        assert!(slip(b"1 0\n1 2").starts_with("line 2 has `2`;"));
        assert!(slip(b"1 0 \xff").starts_with("line 1 has `\\xff`;"));
        assert!(slip(b"# 0 1").starts_with("0 values;"));
        assert!(slip(b"0").starts_with("1 values;"));
        assert!(slip(b"010").starts_with("3 values;"));
        assert!(slip(&[b'0'; 2048]).starts_with("2048 values;"));
        assert!(slip(b"1111").starts_with("no information position;"));
        assert_eq!(read(&[b'0'; 1024]).unwrap().len(), 1024);
    }

    #[test]
    fn digits_are_reversed() {
        assert_eq!(
            reversed(&[0, 1, 2, 3, 4, 5, 6, 7]),
            [0, 4, 2, 6, 1, 5, 3, 7]
        );
        assert_eq!(reversed(&[0, 1]), [0, 1]);
        let mask = half(10);
        assert_eq!(reversed(&reversed(&mask)), mask);
    }

    #[test]
    fn bounds_are_those_of_whole_numbers() {
        // samples erased with one half, (1 - z)/z by hand: 1/15, 7/9, 9/7, 15
        let merits = bhattacharyya_merits(2, 2f64.ln());
        for (merit, (good, bad)) in merits.iter().zip([(1, 15), (7, 9), (9, 7), (15, 1)]) {
            let expected = (f64::from(good) / f64::from(bad)).ln();
            assert!((merit - expected).abs() < 1e-12, "{merit} {expected}");
        }
    }

    #[test]
    fn bounds_below_the_smallest_float() {
        let finite = |merits: &[f64]| merits.iter().all(|merit| merit.is_finite());
        assert!(finite(&bhattacharyya_merits(10, 1e-6)) && finite(&bhattacharyya_merits(10, 1e3)));
        let mut merits = bhattacharyya_merits(10, 0.5 * 10f64.powf(0.2));
        merits.sort_by(f64::total_cmp);
        assert!(merits.windows(2).all(|pair| pair[0] < pair[1]));
        // z = exp(-1024 ratio) at the best position, 1 - z = (1 - exp(-ratio))^1024 at the worst
        assert!(merits[1023] > 811.0 && merits[0] < -600.0);
    }

    #[test]
    fn masks_are_made() {
        for method in [Method::Gaussian, Method::Bhattacharyya] {
            let design = |m, information| Design {
                m,
                information,
                db: 2.0,
                method,
            };
            // the last position in natural order is the best, and its digits reversed are itself
            assert_eq!(information(&design(3, 1).mask()), [7]);
            assert_eq!(information(&design(3, 4).mask()), [3, 5, 6, 7]);
            assert_eq!(information(&design(10, 700).mask()).len(), 700);
        }
        let default = Design::new(&Given::new(&[], &[], &[]).unwrap()).unwrap();
        assert!(default.mask() == half(10));
    }
}
