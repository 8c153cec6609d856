// breaks.rs: the paper's example with one rule broken, for each rule that a small file can break.
// Damaged files break most of these too, but by chance.

pub const EXAMPLE: &[u8] = include_bytes!("../paper.icm");

/// A number of refusal, and the piece of the example that becomes another to earn it.
const EDITS: [(u64, &str, &str); 28] = [
    (2, "A2\n", "A2\x7f\n"),
    (3, "A2\n", "A2                                                                                                                      |\n"),
    (4, "[End]\n", "[End]"),
    (5, "[Begin Header]\n", ""),
    (6, "[End Header]", "[End Header ]"),
    (7, "[End Header]", "[End of Header]"),
    (8, "[End Header]", "[Comment Char] |_char\n[End Header]"),
    (9, "[File Rev] 0.1\n", ""),
    (9, "Un_ordered\nPin_list\nA1\nA2\n", "Row_ordered\nNum_of_rows=1\nNum_of_columns=1\nPin_list\n"),
    (10, "[End]\n", ""),
    (11, "Mult=2 S", "Mult=2"),
    (12, "[Tree Path Description]\n", "[Tree Path Description]\nx\n"),
    (13, "4.50nH", "4.50.nH"),
    (14, "4.50nH", "1e61"),
    (15, "Endfork\n", ""),
    (16, "[Row] 2", "[Row] 3"),
    (16, "Un_ordered\n", "Column_ordered\nNum_of_rows=1\nNum_of_columns=1\n"),
    (19, "A2\n", "A1\n"),
    (20, "[ICM Model List]\n", "[ICM Model List]\nB\n"),
    (21, "Model_pinmap Q", "Model_pinmap R"),
    (22, "Model_pinmap Q", "Model_pinmap P"),
    (23, "Mult=1 S", "Mult=1 T"),
    (24, "Mult=1 S", "Len=1 S"),
    (25, "MLM", "SLM_quiescent"),
    (26, "A2\n", ""),
    (27, "[End]\n", "[Begin ICM Section] T\n[Derivation Method] Lumped\n[Resistance Matrix] Diagonal_matrix\n1\n[End ICM Section]\n[End]\n"),
    (29, "ICM_model_type MLM\n", "ICM_model_type MLM\nSGR 3:1\n"),
    (29, "ICM_model_type MLM\n", "SGR 3:1\nICM_model_type MLM\n"),
];

/// Numbers and texts.
pub fn files() -> Vec<(u64, Vec<u8>)> {
    let example = String::from_utf8_lossy(EXAMPLE);
    EDITS.iter().map(|(number, old, new)| (*number, example.replacen(old, new, 1).into_bytes())).collect()
}
