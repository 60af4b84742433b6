//! The marked case M, for tests: its calls, which are those of the example, and
//! what is printed for it.

/// The calls, without the comment above them.
pub fn calls() -> Vec<&'static str> {
    let example = include_str!("../../examples/case-m/calls.txt");
    example
        .lines()
        .filter(|line| !line.starts_with('#'))
        .collect()
}

pub const PRINTED: &str = "operator points out in adjustment\n\
    0 65036 375000 386463 11463\n\
    1 62464 1125000 1113537 -11463\n\
    all 127500 1500000 1500000 0\n";
