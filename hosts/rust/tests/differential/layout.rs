// layout.rs: where the parts and records of a table stand, read by the paper's layout alone.
// The tests need it to ask for what is there, to bend a word of a chosen part, and to see what the generator reaches.

/// Words in a record of models, steps, maps, pins, sections, matrices and values.
pub const RECORD_WORDS: [usize; 7] = [5, 6, 7, 2, 8, 5, 3];

pub const MODELS: usize = 0;
pub const STEPS: usize = 1;
pub const MAPS: usize = 2;
pub const SECTIONS: usize = 4;
pub const MATRICES: usize = 5;
pub const VALUES: usize = 6;

pub struct Layout<'t> {
    table: &'t [u64],
    /// Where the count of each part stands, and where the words after the last part start.
    pub starts: [usize; 8],
}

impl<'t> Layout<'t> {
    /// Nothing if the table is too short for its counts.
    pub fn of(table: &'t [u64]) -> Option<Layout<'t>> {
        let mut starts = [0; 8];
        for (part, words) in RECORD_WORDS.iter().enumerate() {
            let count = usize::try_from(*table.get(starts[part])?).ok()?;
            starts[part + 1] = count.checked_mul(*words)?.checked_add(starts[part] + 1)?;
        }
        (starts[7] <= table.len()).then_some(Layout { table, starts })
    }

    pub fn count(&self, part: usize) -> u64 {
        self.table[self.starts[part]]
    }

    pub fn record(&self, part: usize, index: u64) -> &'t [u64] {
        let words = RECORD_WORDS[part];
        &self.table[self.starts[part] + 1 + index as usize * words..][..words]
    }

    pub fn records(&self, part: usize) -> impl Iterator<Item = &'t [u64]> {
        self.table[self.starts[part] + 1..self.starts[part + 1]].chunks(RECORD_WORDS[part])
    }

    pub fn section(&self, index: u64) -> &'t [u64] {
        self.record(SECTIONS, index)
    }

    /// Writes every entry of a section's matrix. Records that lie outside N are in no entry.
    pub fn fill_matrix(&self, section: u64, kind: u64, entries: &mut [u64]) {
        entries.fill(128);
        let section = self.section(section);
        let size = section[3] as usize;
        let Some(matrix) = section[4 + kind as usize].checked_sub(1) else { return };
        let matrix = self.record(MATRICES, matrix);
        for index in matrix[2]..matrix[2] + matrix[3] {
            let value = self.record(VALUES, index);
            let (row, column) = (value[0] as usize, value[1] as usize);
            if column <= size {
                entries[(row - 1) * size + column - 1] = value[2];
                entries[(column - 1) * size + row - 1] = value[2];
            }
        }
    }
}
