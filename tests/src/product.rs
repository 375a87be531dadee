//! The product, through the exported functions of the crate `outside`: a slice is passed as its
//! address and its length. This is the only unsafe code.

use bench_tests::compare::Side;
use bench_tests::plain::Plain;

/// The side that a word names: the product where its library is linked, or the plain version.
pub fn side_of(word: &str) -> Result<Box<dyn Side>, String> {
    match word {
        "plain" => Ok(Box::new(Plain::MergedRows)),
        "outside" => linked(),
        _ => Err(format!("no side is called {word}")),
    }
}

/// The product is not linked.
#[cfg(not(product))]
fn linked() -> Result<Box<dyn Side>, String> {
    Err("built without liboutside.a: run `tools/staticlib`, then build again".into())
}

/// The product is linked.
#[cfg(product)]
fn linked() -> Result<Box<dyn Side>, String> {
    Ok(Box::new(library::Product))
}

#[cfg(product)]
mod library {
    use bench_tests::compare::Side;
    use bench_tests::report::{CoefficientsAnswer, Report, RunAnswer, Verdict};
    use bench_tests::trials::{self, Trials};

    // Each answers 1 where enough numbers are lent to tell its answer.
    extern "C" {
        fn bench_judge(
            text: *const u8,
            text_len: usize,
            left: *mut u8,
            left_len: usize,
            right: *mut u8,
            right_len: usize,
            list: *mut u8,
            list_len: usize,
            report: *mut u64,
            report_len: usize,
        ) -> u8;
        fn bench_judge_with(
            text: *const u8,
            text_len: usize,
            count: u32,
            start: u32,
            left: *mut u8,
            left_len: usize,
            right: *mut u8,
            right_len: usize,
            list: *mut u8,
            list_len: usize,
            report: *mut u64,
            report_len: usize,
        ) -> u8;
        fn bench_read(text: *const u8, text_len: usize, answer: *mut u64, answer_len: usize) -> u8;
        fn bench_run(
            text: *const u8,
            text_len: usize,
            bytes: *const u8,
            bytes_len: usize,
            answer: *mut u64,
            answer_len: usize,
        ) -> u8;
        fn bench_coefficients(
            list: *const u8,
            list_len: usize,
            answer: *mut u64,
            answer_len: usize,
        ) -> u8;
    }

    /// The product as a side of the comparison.
    pub struct Product;

    impl Side for Product {
        fn judge(
            &self,
            text: &[u8],
            trials: Trials,
            left: &mut [u8],
            right: &mut [u8],
            list: &mut [u8],
        ) -> Report {
            let mut n = [u64::MAX; 6];
            // Each pair is a live slice and the five are apart; the functions take all inputs.
            let told = unsafe {
                if trials == trials::DEFAULT {
                    bench_judge(
                        text.as_ptr(),
                        text.len(),
                        left.as_mut_ptr(),
                        left.len(),
                        right.as_mut_ptr(),
                        right.len(),
                        list.as_mut_ptr(),
                        list.len(),
                        n.as_mut_ptr(),
                        n.len(),
                    )
                } else {
                    bench_judge_with(
                        text.as_ptr(),
                        text.len(),
                        trials.count,
                        trials.start,
                        left.as_mut_ptr(),
                        left.len(),
                        right.as_mut_ptr(),
                        right.len(),
                        list.as_mut_ptr(),
                        list.len(),
                        n.as_mut_ptr(),
                        n.len(),
                    )
                }
            };
            assert_eq!(told, 1, "six numbers were lent");
            Report {
                verdict: Verdict::ALL[n[0] as usize],
                refusal: n[1],
                line: n[2],
                terms: n[3],
                tried: n[4],
                idle: n[5],
            }
        }

        fn run(&self, text: &[u8], bytes: &[u8]) -> RunAnswer {
            let mut n = [u64::MAX; 4];
            // As above.
            let told = unsafe {
                bench_run(
                    text.as_ptr(),
                    text.len(),
                    bytes.as_ptr(),
                    bytes.len(),
                    n.as_mut_ptr(),
                    n.len(),
                )
            };
            assert_eq!(told, 1, "four numbers were lent");
            RunAnswer {
                original: n[0],
                joined: n[1],
                refusal: n[2],
                line: n[3],
            }
        }

        fn read(&self, text: &[u8]) -> [u64; 3] {
            let mut n = [u64::MAX; 3];
            // As above.
            let told = unsafe { bench_read(text.as_ptr(), text.len(), n.as_mut_ptr(), n.len()) };
            assert_eq!(told, 1, "three numbers were lent");
            n
        }

        fn coefficients(&self, list: &[u8]) -> CoefficientsAnswer {
            let mut n = [u64::MAX; 10];
            // As above.
            let told =
                unsafe { bench_coefficients(list.as_ptr(), list.len(), n.as_mut_ptr(), n.len()) };
            assert_eq!(told, 1, "ten numbers were lent");
            let mut coefficients = [0; 8];
            for (coefficient, number) in coefficients.iter_mut().zip(n) {
                *coefficient = u8::try_from(number).expect("a coefficient is a byte");
            }
            CoefficientsAnswer {
                list: coefficients,
                refusal: n[8],
                line: n[9],
            }
        }
    }
}
