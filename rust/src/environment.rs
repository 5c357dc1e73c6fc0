//! The floating-point environment that the proofs suppose.
use std::arch::asm;
use std::fmt;

/// What the floating-point environment of a thread has that the proofs do not suppose: [`float_environment`].
#[derive(Clone, Copy, Debug, PartialEq, Eq, Hash)]
pub struct FloatEnvironment {
    /// Results are rounded upward, downward or towards zero, and not to the nearest.
    pub rounding: bool,
    /// FTZ: a result that is subnormal becomes 0.
    pub flush_to_zero: bool,
    /// DAZ: an operand that is subnormal is taken as 0.
    pub denormals_are_zero: bool,
}

/// Whether the calling thread has the floating-point environment that the proofs suppose: rounding to nearest, with subnormal numbers kept.
/// In another one a draw writes and bills other pixels. A thread starts with its maker's, so that each thread that calls asks once. Linking a
/// program with `-ffast-math` sets FTZ and DAZ, and so can a library that it loads.
///
/// ```
/// tilefringe::float_environment().unwrap();
/// ```
pub fn float_environment() -> Result<(), FloatEnvironment> {
    let mut mxcsr = 0u32;
    // SAFETY: the instruction writes the four bytes of one number.
    unsafe { asm!("stmxcsr [{}]", in(reg) &mut mxcsr, options(nostack, preserves_flags)) };
    let has = |bits: u32| mxcsr & bits != 0;
    let found = FloatEnvironment { rounding: has(0x6000), flush_to_zero: has(0x8000), denormals_are_zero: has(0x0040) };
    if found == (FloatEnvironment { rounding: false, flush_to_zero: false, denormals_are_zero: false }) {
        return Ok(());
    }
    Err(found)
}

impl fmt::Display for FloatEnvironment {
    fn fmt(&self, f: &mut fmt::Formatter<'_>) -> fmt::Result {
        let parts = [
            (self.rounding, "rounding is not to the nearest"),
            (self.flush_to_zero, "subnormal results become 0 (FTZ)"),
            (self.denormals_are_zero, "subnormal operands are taken as 0 (DAZ)"),
        ];
        let found: Vec<&str> = parts.into_iter().filter(|(is, _)| *is).map(|(_, what)| what).collect();
        write!(f, "another floating-point environment than the proofs suppose: {}", found.join(", "))
    }
}

impl std::error::Error for FloatEnvironment {}

#[cfg(test)]
mod tests {
    use super::*;

    extern "C" fn ask(answer: &mut Result<(), FloatEnvironment>) {
        *answer = float_environment();
    }

    /// The answer under other bits of MXCSR, which are set and restored around the call.
    fn under(bits: u32) -> Result<(), FloatEnvironment> {
        let mut answer = Ok(());
        let mut start = 0u32;
        // SAFETY: MXCSR is as before at the end; between, no float is computed. r12 and r13 outlive a call.
        unsafe {
            asm!("stmxcsr [{}]", in(reg) &mut start, options(nostack, preserves_flags));
            let other = start | bits;
            asm!(
                "ldmxcsr [r12]",
                "call {ask}",
                "ldmxcsr [r13]",
                ask = sym ask,
                in("r12") &other,
                in("r13") &start,
                in("rdi") &mut answer,
                clobber_abi("C"),
            );
        }
        answer
    }

    #[test]
    fn each_environment_is_noticed() {
        assert_eq!(float_environment(), Ok(()));
        // Flags of exceptions that were raised change nothing.
        assert_eq!(under(0x003F), Ok(()));
        let cases = [
            (0x2000, [true, false, false]),
            (0x4000, [true, false, false]),
            (0x6000, [true, false, false]),
            (0x8000, [false, true, false]),
            (0x0040, [false, false, true]),
            (0x8040, [false, true, true]),
            (0xE040, [true, true, true]),
        ];
        for (bits, [rounding, flush_to_zero, denormals_are_zero]) in cases {
            assert_eq!(under(bits), Err(FloatEnvironment { rounding, flush_to_zero, denormals_are_zero }), "{bits:x}");
        }
        assert_eq!(float_environment(), Ok(()));
    }

    #[test]
    fn the_message_names_what_is_found() {
        let all = FloatEnvironment { rounding: true, flush_to_zero: true, denormals_are_zero: true };
        let message = all.to_string();
        for part in ["rounding", "FTZ", "DAZ"] {
            assert!(message.contains(part), "{message}");
        }
        assert!(!FloatEnvironment { flush_to_zero: false, ..all }.to_string().contains("FTZ"));
    }
}
