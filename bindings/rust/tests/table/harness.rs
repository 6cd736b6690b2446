//! A list of tests, run one after the other.
//!
//! The programs of the tests have their own main, that of C, and no harness of Rust's: where the machine is no x86-64 they
//! run under an emulator, which does not bear what Rust does around an ordinary main.

use std::panic::{catch_unwind, set_hook};

/// Each test with its name.
macro_rules! tests {
    ($($module:ident :: $test:ident,)*) => {
        &[$((concat!(stringify!($module), "::", stringify!($test)), $module::$test)),*]
    };
}
pub(crate) use tests;

/// Runs each test and says what came of it; answers 1 where one failed, else 0.
pub(crate) fn run(tests: &[(&str, fn())]) -> i32 {
    // no backtrace, whatever the surroundings ask for: the emulator does not bear that either
    set_hook(Box::new(|panic| eprintln!("{panic}")));
    let mut failed = 0;
    for (name, test) in tests {
        let passed = catch_unwind(test).is_ok();
        println!("test {name} ... {}", if passed { "ok" } else { "FAILED" });
        failed += usize::from(!passed);
    }
    println!("{} passed, {failed} failed", tests.len() - failed);
    i32::from(failed > 0)
}
