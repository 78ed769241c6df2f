import re,glob
K=[('A',r'let (?:mut )?\w+ = (?:report::(?:load|input|argument|read_full)\(|printer::(?:print|refuse)\(|show\(|text\.len\(\))|let mut done = 0'),
('B',r'fn \w+\([^)]*?\[[^\]]*\][^)]*?\b(?:n|width|bytes|used): usize'),
('C',r'fn \w+\([^)]*?(?:out|s|b|block): &mut \[u8\][^)]*?(?:at|from|used): usize'),
('D',r'fn \w+\((?:rt: [^\n]*?, )?[^)]*?\b(?:s|b|bytes|len): (?:&\[u8\]|usize), (?:\w+: usize, )?(?:at|from): usize'),
('E',r'fn \w+(?:<.*>)?\((?:rt: &\([^)]*\), )?[^)]*(?:out|buf): &mut \[u8(?:; \w+)?\][^)]*\) -> (?:usize|Full)'),
('F',r'fn \w+\([^)]*(?:pairs|out|heavy): &(?:mut )?\[u32\]|let mut (?:pairs|heavy|light|one|two|out) = \['),
('G',r'fn \w+\(a: &\[u32; \S+, n: usize|let mut ids = \['),('H',r'fn \w+\([^)]*(?:met|next): &(?:mut )?\[u32\][^)]*\)|let mut met = \['),('I',r'\[u64; (?:Case::ALL|Day::TOTALS)\]|\[0u64; Case::ALL\]')]
for k,p in K:
    for f in sorted(glob.glob('crates/*/src/*.rt')):
        s=open(f).read(); seen=set()
        for m in re.finditer(p,s):
            fn=(re.findall(r'fn (\w+)',s[:m.end()]) or ['-'])[-1]
            if fn not in seen: seen.add(fn); print(f'{k} {f}:{s[:m.start()].count(chr(10))+1} {fn}')
