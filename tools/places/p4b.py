import re,glob
for f in sorted(glob.glob('crates/*/src/*.rt')):
    fn='-'
    for i,l in enumerate(open(f),1):
        m=re.match(r' *(?:pub )?(?:extern "C" )?fn (\w+)',l); fn=m[1] if m else fn
        c=re.findall(r'\bas (u8|u16|u32|u64|usize)\b',l.split('//')[0]) if 'ghost use' not in l else []
        if c: print(f'{f}:{i} {fn} - as {", ".join(c)}')
