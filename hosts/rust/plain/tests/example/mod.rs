//! The example file of the paper, with its 39 lines parted by `;`.
//! It has one model, a fork, two pin maps and one section with a full matrix of two rows.

pub const LINES: &str = concat!(
    "[Begin Header];[ICM Ver] 1.1;[File Name] t.icm;[File Rev] 0.1;[End Header];[Begin ICM Family] D;",
    "[Manufacturer] O;[ICM Model List];A;[Begin ICM Model] A;ICM_model_type MLM;",
    "[Tree Path Description];Model_pinmap P;Section Mult=2 S;Fork;Section Mult=1 S;Endfork;",
    "Model_pinmap Q;[End ICM Model];[ICM Pin Map] P;Pin_order Un_ordered;Pin_list;A1;A2;",
    "[ICM Pin Map] Q;Pin_order Un_ordered;Pin_list;1;2;[End ICM Family];[Begin ICM Section] S;",
    "[Derivation Method] Lumped;[Inductance Matrix] Full_matrix;[Row] 1;4.50nH 0.8nH;[Row] 2;4.5nH;",
    "[End ICM Section];[End]",
);
