grep -nE 'fn |^    (t|pool): ' crates/*/src/*.rt | grep -cE '\bt: &(mut )?\[u32\]'
