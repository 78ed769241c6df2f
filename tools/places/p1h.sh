grep -nE '^(pub )?fn .*[(, ](e|l|first|prev|at|p|h|x): u32|^    (prev|at): u32,|^pub fn count_in' crates/*/src/*.rt
