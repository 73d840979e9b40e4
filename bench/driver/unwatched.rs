//! In the place of watch.rs on a machine that is no x86-64, of whose instructions that is made: here no stack is looked at.

pub fn watched<F: Copy>(entry: F) -> F {
    entry
}

pub fn taken<T: PartialEq>(_: &mut dyn FnMut() -> T) -> (T, usize) {
    panic!("the stack that a call takes is seen on x86-64 alone");
}
