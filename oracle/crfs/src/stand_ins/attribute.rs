/// An attribute by name, as `Trainer::append` takes it.
pub struct Attribute {
    pub name: String,
    pub value: f64,
}
