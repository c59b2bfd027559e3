/// Names with ids by first appearance.
#[derive(Debug, Default)]
pub struct Dictionary {
    names: Vec<String>,
}

impl Dictionary {
    pub fn new() -> Self {
        Self::default()
    }

    /// A dictionary of so many names, for callers that have ids only.
    pub fn numbered(length: usize) -> Self {
        Self { names: (0..length).map(|id| id.to_string()).collect() }
    }

    pub fn get_or_insert(&mut self, name: &str) -> u32 {
        let found = self.names.iter().position(|known| known == name);
        found.unwrap_or_else(|| {
            self.names.push(name.to_string());
            self.names.len() - 1
        }) as u32
    }

    pub fn len(&self) -> usize {
        self.names.len()
    }

    pub fn is_empty(&self) -> bool {
        self.names.is_empty()
    }

    pub fn clear(&mut self) {
        self.names.clear();
    }
}
