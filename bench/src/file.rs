// file.rs: puts a file together from its models, maps and sections, and makes the numbers that go into it.
// All is the same in every run.
use std::fmt::Write;

/// The greatest length of a text, in bytes.
pub const TEXT_MOST: usize = 1_048_576;

/// The parts of a file that differ from kind to kind.
#[derive(Default)]
pub struct File {
    /// Lines below the model list besides the models' names.
    pub list: String,
    /// Name and path of each model.
    pub models: Vec<(String, String)>,
    /// Name and pins of each map.
    pub maps: Vec<(String, Vec<String>)>,
    /// The sections' lines.
    pub sections: String,
    /// Lines before the manufacturer.
    pub filling: String,
}

impl File {
    pub fn text(&self) -> Vec<u8> {
        let mut text =
            String::from("[Begin Header]\n[ICM Ver] 1.1\n[File Name] bench.icm\n[File Rev] 1\n[End Header]\n");
        text.push_str("[Begin ICM Family] F\n");
        text.push_str(&self.filling);
        text.push_str("[Manufacturer] M\n[ICM Model List]\n");
        for (name, _) in &self.models {
            let _ = writeln!(text, "{name}");
        }
        text.push_str(&self.list);
        for (name, path) in &self.models {
            let _ = writeln!(
                text,
                "[Begin ICM Model] {name}\nICM_model_type MLM\n[Tree Path Description]\n{path}[End ICM Model]"
            );
        }
        for (name, pins) in &self.maps {
            let _ = writeln!(text, "[ICM Pin Map] {name}\nPin_order Un_ordered\nPin_list\n{}", pins.join("\n"));
        }
        let _ = writeln!(text, "[End ICM Family]\n{}[End]", self.sections);
        text.into_bytes()
    }

    /// Two maps P and Q of so many pins, and one model whose path goes once through each of the sections S0, S1 and so on.
    pub fn through_sections(conductors: usize, sections: &[String]) -> File {
        let mut file = File { maps: two_maps(conductors), ..File::default() };
        let mut path = String::from("Model_pinmap P\n");
        for (index, lines) in sections.iter().enumerate() {
            let _ = writeln!(path, "Section Mult=1 S{index}");
            file.add_section(&format!("S{index}"), lines);
        }
        path.push_str("Model_pinmap Q\n");
        file.models.push(("A".to_string(), path));
        file
    }

    /// The smallest file there is.
    pub fn small() -> File {
        File::through_sections(1, &[diagonal(1)])
    }

    pub fn add_section(&mut self, name: &str, lines: &str) {
        let _ =
            write!(self.sections, "[Begin ICM Section] {name}\n[Derivation Method] Lumped\n{lines}[End ICM Section]\n");
    }
}

pub fn two_maps(pins: usize) -> Vec<(String, Vec<String>)> {
    ["P", "Q"].map(|map| (map.to_string(), (0..pins).map(|pin| format!("A{pin}")).collect())).to_vec()
}

pub fn diagonal(conductors: usize) -> String {
    format!("[Inductance Matrix] Diagonal_matrix\n{}", "1nH\n".repeat(conductors))
}

/// Numbers that look random and are the same in every run.
pub struct Numbers(pub u64);

impl Numbers {
    pub fn below(&mut self, bound: u64) -> u64 {
        self.0 = self.0.wrapping_mul(6_364_136_223_846_793_005).wrapping_add(1_442_695_040_888_963_407);
        (self.0 >> 33) % bound
    }

    /// Nine digits and an exponent: 14 characters.
    pub fn middle(&mut self) -> String {
        format!("{}.{:08}e-{:02}", self.below(9) + 1, self.below(100_000_000), self.below(12) + 1)
    }

    /// One to three characters of number, and a unit.
    pub fn short(&mut self) -> String {
        let units = ["nH", "pF", "n", "p", "uH", "k", "m", "fF"];
        let unit = units[self.below(8) as usize];
        match self.below(3) {
            0 => format!("{}.{}{unit}", self.below(9) + 1, self.below(9) + 1),
            _ => format!("{}{unit}", self.below(99) + 1),
        }
    }

    /// Fourteen digits, a sign and an exponent: 19 characters.
    pub fn long(&mut self) -> String {
        format!(
            "-{}.{:06}{:07}e-{}",
            self.below(9) + 1,
            self.below(1_000_000),
            self.below(10_000_000),
            self.below(9) + 1
        )
    }
}
