//! Stand-in for the compiled formulas of a relation: the kinds that the original's result code tells apart.
//! A tape's relation has a single atomic formula.

#[derive(Clone, Debug)]
pub enum StaticFormKind {
    Constant(bool),
    Atomic(u32, u32),
    Not(u32),
    And(u32, u32),
    Or(u32, u32),
}

#[derive(Clone, Debug)]
pub struct StaticForm {
    pub kind: StaticFormKind,
}
