import re,glob
for f in sorted(glob.glob('crates/*/src/*.rt')):
    owner='-'
    for i,l in enumerate(open(f),1):
        m=re.match(r'impl (\w+)',l); owner=m[1] if m else '-' if l.startswith('}') else owner
        m=re.match(r' *(?:pub )?const (\w+): (u8|u32|u64|usize) = (.*);',l)
        if m: print(f'{f}:{i} {owner}::{m[1]}: {m[2]} = {m[3]}')
