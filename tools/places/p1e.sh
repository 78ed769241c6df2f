grep -nE '&mut pool\[from\.\.to\]|  or_else\(|= digit\(v|nothing\(x\.number\)|s\[i\] != b \{|^fn or_else' crates/*/src/*.rt
