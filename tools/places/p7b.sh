grep -nE 'if \w+ == LinkedTable::NONE \{$|\w+\(.*\) \|\| \w+\(' crates/*/src/*.rt
